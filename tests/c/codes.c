#include "codes.h"

struct codes only_code(unsigned code)
{
    return code < WORD_CODES ? (struct codes){LOW(code), 0} : (struct codes){0, HIGH(code)};
}
