#define _POSIX_C_SOURCE 200809L

#include "opened.h"

#include <errno.h>
#include <fcntl.h>
#include <string.h>
#include <sys/stat.h>
#include <unistd.h>

/* Why a file that could be opened is not to be read, or NULL. */
static const char *unfit(int file)
{
    struct stat about;
    if (fstat(file, &about) != 0)
        return strerror(errno);
    if (S_ISDIR(about.st_mode))
        return "it is a folder";
    return S_ISREG(about.st_mode) ? NULL : "it is no regular file";
}

/* Without O_NONBLOCK the opening of a pipe would wait for its writer. */
int open_file(const char *path, const char **why)
{
    const int file = open(path, O_RDONLY | O_NONBLOCK | O_NOCTTY);
    *why = file < 0 ? strerror(errno) : unfit(file);
    if (*why == NULL)
        return file;
    if (file >= 0)
        close(file);
    return -1;
}

int read_file(const char *path, uint8_t *bytes, size_t room, size_t *length, const char **why)
{
    const int file = open_file(path, why);
    ssize_t got = 1;
    *length = 0;
    if (file < 0)
        return 0;
    while (*length < room && (got = read(file, bytes + *length, room - *length)) > 0)
        *length += (size_t)got;
    if (got < 0)
        *why = strerror(errno);
    close(file);
    return got >= 0;
}
