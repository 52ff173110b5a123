/* Sets of codes as the calls give them: 0 to 63 as the bits of the first word, 64 to 127 as those of the second. */
#ifndef CODES_H
#define CODES_H

#include <stdint.h>

struct codes {
    uint64_t low, high;
};

enum { WORD_CODES = 64 };

/* The bit of a code in its word. */
#define LOW(code) (UINT64_C(1) << (code))
#define HIGH(code) (UINT64_C(1) << ((code) - WORD_CODES))

/* The set with this code alone, which is one. */
struct codes only_code(unsigned code);

#endif
