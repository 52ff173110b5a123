#include "typed.h"

#include <stdio.h>
#include <stdlib.h>

#include "plain.h"
#include "seqp.h"

int read_event(const char *word, unsigned *code, size_t *times)
{
    const char *digits = word[0] == 'e' ? word + 1 : word;
    char *behind;
    const unsigned long number = strtoul(digits, &behind, 10);
    unsigned long count = 1;
    if (*digits < '0' || *digits > '9' || (*behind != '\0' && *behind != '*')) {
        say_of(stdout, "\"", word, "\" is no event and no command. Type help for what there is.\n");
        return 0;
    }
    if (number > SEQ_MOST_CODE) {
        say_of(stdout, "There is no key ", word, ". ");
        printf("Keys are 0 to %d.\n", SEQ_MOST_CODE);
        return 0;
    }
    if (*behind == '*') {
        const char *counted = behind + 1;
        count = strtoul(counted, &behind, 10);
        if (*counted < '0' || *counted > '9' || *behind != '\0' || count < 1 || count > SEQ_MOST_RUN) {
            say_of(stdout, "\"", word, "\": behind the * comes a number ");
            printf("from 1 to %d.\n", SEQ_MOST_RUN);
            return 0;
        }
    }
    *code = (unsigned)number;
    *times = count;
    return 1;
}
