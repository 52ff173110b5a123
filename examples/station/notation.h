/* A part of a procedure in words that a technician reads: e10,(e11{6,10},e12){1,5},e13 */
#ifndef NOTATION_H
#define NOTATION_H

#include "procedure.h"

/* For well-formed files. Prints brackets only where they are needed. */
void print_part(const struct procedure *p, unsigned root);

/* {6,10}, or {6,} where there is no upper bound. */
void print_bounds(struct node repeat);

#endif
