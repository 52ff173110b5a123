/* Regular files, opened for reading. A pipe, a device or a folder is refused and never waited for. */
#ifndef OPENED_H
#define OPENED_H

#include <stddef.h>
#include <stdint.h>

/* A descriptor, to be closed; or -1, and why in words. */
int open_file(const char *path, const char **why);

/* Reads a file up to `room` bytes, and gives 0 and why in words if it can't. */
int read_file(const char *path, uint8_t *bytes, size_t room, size_t *length, const char **why);

#endif
