/* A file of the benchmark, read whole. */
#ifndef INPUT_H
#define INPUT_H

#include <stdio.h>
#include <stdlib.h>

struct input {
    unsigned char *bytes;
    size_t length;
};

/* The bytes have room for most_bytes whatever the file's length, so that reading costs the same. */
static struct input read_input(const char *path)
{
    enum { most_bytes = 1 << 20 };
    struct input in = {malloc(most_bytes), 0};
    FILE *from = fopen(path, "rb");
    if (from == NULL || in.bytes == NULL) {
        perror(path);
        exit(2);
    }
    in.length = fread(in.bytes, 1, most_bytes, from);
    fclose(from);
    return in;
}

#endif
