/* The header by itself, and twice: it needs nothing before it. */
#include "seqp.h"
#include "seqp.h"

/* What a caller relies on when it lays out a state, a record or a file. */
typedef char state_is_one_place_and_a_counter_each[SEQ_STATE_BYTES == 2 + 2 * SEQ_MOST_REPEATS ? 1 : -1];
typedef char a_mark_stands_above_every_node[SEQ_MARK_UNIT > SEQ_MOST_NODES ? 1 : -1];
typedef char two_words_have_a_bit_for_every_code[SEQ_MOST_CODE + 1 == 2 * 64 ? 1 : -1];
typedef char a_full_file_is_the_longest[SEQ_FILE_MOST_BYTES == 4096 + 8 * SEQ_MOST_NODES + 12 ? 1 : -1];
