/* The groups of cases. Each counts into the tally and keeps nothing, so that threads may run it at once. */
#ifndef SECTIONS_H
#define SECTIONS_H

#include "tally.h"

void lending(struct tally *t);    /* the unreachable pages themselves */
void refusing(struct tally *t);   /* files that are refused, by every call */
void words(struct tally *t);      /* the header's words, sets and version */
void judging(struct tally *t);
void following(struct tally *t);
void writing(struct tally *t);
void checking(struct tally *t);
void prompting(struct tally *t);
void every_code(struct tally *t); /* every code, and bytes that are none */
void chains(struct tally *t);     /* the deepest procedures that there are */
void full_size(struct tally *t);  /* the longest runs and records */

#endif
