/*
 * What the header itself has: the words for the answers, each with its own, codes looked up in a set of two words, and
 * the version as text and as numbers.
 */
#include <stdio.h>
#include <string.h>

#include "codes.h"
#include "sections.h"
#include "seqp.h"

enum { ANSWERS = SEQ_SPACE + 1 };

static void expect_other_words(struct tally *t, uint32_t answer, uint32_t other)
{
    begin_case(t, "the words of answer %u beside those of %u", (unsigned)answer, (unsigned)other);
    expect_number(t, "equal", strcmp(seq_answer_words(answer), seq_answer_words(other)) == 0, 0);
    end_case(t);
}

/* What is no answer has the words of none. */
static void expect_no_answer(struct tally *t, uint32_t number)
{
    begin_case(t, "the words of %u, which is no answer", (unsigned)number);
    expect_number(t, "equal", strcmp(seq_answer_words(number), seq_answer_words(UINT32_MAX)) == 0, 1);
    end_case(t);
}

/* A set of one code has that one and no other. */
static void expect_one_code(struct tally *t, uint32_t code)
{
    const struct codes one = only_code(code);
    begin_case(t, "the set of code %u", (unsigned)code);
    for (uint32_t other = 0; other <= UINT8_MAX; other++)
        expect_number(t, "had", (unsigned)seq_has_code(one.low, one.high, other), other == code);
    end_case(t);
}

/* Two full words have a bit for the codes up to the highest, and none above. */
static void expect_all_codes(struct tally *t)
{
    static const uint32_t none[] = {SEQ_MOST_CODE + 1, 191, 192, 255, 256, UINT32_MAX};
    begin_case(t, "the set of all codes");
    for (uint32_t code = 0; code <= SEQ_MOST_CODE; code++)
        expect_number(t, "had", (unsigned)seq_has_code(UINT64_MAX, UINT64_MAX, code), 1);
    for (size_t i = 0; i < sizeof none / sizeof none[0]; i++)
        expect_number(t, "had", (unsigned)seq_has_code(UINT64_MAX, UINT64_MAX, none[i]), 0);
    end_case(t);
}

static void expect_version(struct tally *t)
{
    char version[40];
    snprintf(version, sizeof version, "%d.%d.%d", SEQ_VERSION_MAJOR, SEQ_VERSION_MINOR, SEQ_VERSION_PATCH);
    begin_case(t, "the version as text");
    expect_number(t, "equal", strcmp(SEQ_VERSION, version) == 0, 1);
    end_case(t);
}

void words(struct tally *t)
{
    for (uint32_t answer = SEQ_DONE; answer < ANSWERS; answer++) {
        expect_other_words(t, answer, UINT32_MAX);
        for (uint32_t other = SEQ_DONE; other < answer; other++)
            expect_other_words(t, answer, other);
    }
    expect_no_answer(t, ANSWERS);
    for (uint32_t code = 0; code <= SEQ_MOST_CODE; code++)
        expect_one_code(t, code);
    expect_all_codes(t);
    expect_version(t);
}
