#define _POSIX_C_SOURCE 200809L

#include "output.h"

#include <fcntl.h>
#include <stdio.h>
#include <unistd.h>

static int is_open(int descriptor)
{
    return fcntl(descriptor, F_GETFD) != -1;
}

int is_output_open(void)
{
    if (!is_open(STDOUT_FILENO))
        fprintf(stderr, "station: standard output is closed\n");
    else if (!is_open(STDERR_FILENO))
        printf("station: standard error is closed\n");
    else
        return 1;
    return 0;
}

/* What failed once is not tried again: an interrupt ends the waiting for a reader, and it should not begin anew. */
int flush_output(void)
{
    return !ferror(stdout) && fflush(stdout) == 0;
}

/* Some errors show only in the closing. */
int close_output(void)
{
    const int written = flush_output();
    if (!written)
        close(STDOUT_FILENO);
    if (fclose(stdout) == 0 && written)
        return 1;
    fprintf(stderr, "station: standard output cannot be written\n");
    return 0;
}
