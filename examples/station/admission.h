/* Whether a procedure file is admitted, or in words why not. */
#ifndef ADMISSION_H
#define ADMISSION_H

#include "keys.h"
#include "procedure.h"

/* Says it of the file of this name, and shows its text; reads the keys' names. */
int is_admitted(const struct procedure *p, struct keys *keys, const char *path);

#endif
