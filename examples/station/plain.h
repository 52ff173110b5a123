/* Bytes from outside, such as what is typed, a file's name or a procedure's text, shown in plain ASCII. */
#ifndef PLAIN_H
#define PLAIN_H

#include <stddef.h>
#include <stdio.h>

/*
 * The signs from space to ~ show as they are, but for the backslash, which shows twice; every other byte shows as
 * \xC3, always with two digits. So what is shown tells which bytes there were.
 */
void print_plain(FILE *to, const void *bytes, size_t length);

/* How many signs that is. */
size_t plain_width(const void *bytes, size_t length);

/* A text from outside between two of our own: "Cannot read ", the file's name, " ..". */
void say_of(FILE *to, const char *before, const char *outside, const char *behind);

/* A line that ends with the reason: "Cannot read ", the file's name, ": ", why. */
void say_why(FILE *to, const char *before, const char *outside, const char *why);

#endif
