/*
 * seqp.h: judge a procedure, follow runs against it, write and check records, prompt the operator.
 *
 * Link with -lseqp (x86-64). Example, from the start of a run:
 *
 *     uint8_t state[SEQ_STATE_BYTES] = {0};
 *     uint64_t taken;
 *     uint32_t verdict;
 *     if (seq_follow(file, file_len, state, sizeof state, &key, 1, &taken, &verdict) == SEQ_DONE
 *         && verdict == SEQ_COMPLETE) ...
 *
 * What every call needs
 *   - Each slice is a pointer and a length in bytes, valid for that length: readable, and writable
 *     where the parameter is not const. A slice may be empty; its pointer may then be any, null too.
 *   - Each result parameter points to one writable number, aligned as its type asks; none may be null.
 *   - The slices and results lent to one call do not overlap each other.
 *   - The stack has room for the bytes stated below, SEQ_JUDGE_STACK to SEQ_PROMPT_STACK.
 *   Nothing is asked of what the bytes hold: every file, state, run and record gets its answer.
 *
 * What every call gives
 *   - The answer, a number of the table below, as the function's value.
 *   - Every result, also on a refusal: it is 0 there, but where seq_judge names a node or a conflict.
 *   - On a refusal (an answer other than 0) a lent state and a record's space stay as they were.
 *
 * A call allocates nothing, keeps no pointer and has no memory between calls: calls may run on several
 * threads at once, as long as none writes what another is lent.
 *
 * A record does not name its procedure. The record of the run 1 2 under e1,e2 is also a record under e7,e9,
 * there of the run 7 9: keep a record together with the file that it was written for.
 */
#ifndef SEQP_H
#define SEQP_H

#include <stddef.h>
#include <stdint.h>

#ifdef __cplusplus
extern "C" {
#endif

/*
 * The version of this header and of the library that it was installed with, also as text: "0.4.3". Before version 1
 * the second number may change a call, as 0.3 did seq_prompt and 0.4 seq_judge: what calls the library is then compiled
 * anew.
 */
#define SEQ_VERSION_MAJOR 0
#define SEQ_VERSION_MINOR 4
#define SEQ_VERSION_PATCH 3
#define SEQ_TEXT_OF(number) #number
#define SEQ_TEXT(number) SEQ_TEXT_OF(number)
#define SEQ_VERSION SEQ_TEXT(SEQ_VERSION_MAJOR) "." SEQ_TEXT(SEQ_VERSION_MINOR) "." SEQ_TEXT(SEQ_VERSION_PATCH)

/* What a call gives means nothing until its answer is looked at: the compiler warns where it is not. */
#if defined(__cplusplus) && __cplusplus >= 201703L
#define SEQ_LOOK_AT [[nodiscard]]
#elif defined(__GNUC__)
#define SEQ_LOOK_AT __attribute__((__warn_unused_result__))
#else
#define SEQ_LOOK_AT
#endif

/*
 * The answers; seq_answer_words says when each is given. The lowest number that applies is given. A call gives
 * only those that are listed with it.
 */
enum seq_answer {
    SEQ_DONE            = 0,
    SEQ_FILE_LENGTH     = 1,
    SEQ_LETTERS         = 2,
    SEQ_LAYOUT          = 3,
    SEQ_NODE            = 4,
    SEQ_ORDER           = 5,
    SEQ_REPEATS         = 6,
    SEQ_CONFLICT        = 7,
    SEQ_STATE           = 8,
    SEQ_RUN_LENGTH      = 9,
    SEQ_RUN_INCOMPLETE  = 10,
    SEQ_SPACE           = 11
};

/* An answer in words, for a message or a log. */
static inline const char *seq_answer_words(uint32_t answer)
{
    switch (answer) {
    case SEQ_DONE:
        return "done";
    case SEQ_FILE_LENGTH:
        return "file under 20 or over 8,204 bytes";
    case SEQ_LETTERS:
        return "the four letters or the edition wrong";
    case SEQ_LAYOUT:
        return "number of nodes or distance wrong, nodes longer than the file allows, or text over 4,096 bytes";
    case SEQ_NODE:
        return "a node record is malformed";
    case SEQ_ORDER:
        return "postfix order broken, or the root not begun at node 0";
    case SEQ_REPEATS:
        return "more than 32 repeats";
    case SEQ_CONFLICT:
        return "a conflict: the procedure is not strongly deterministic";
    case SEQ_STATE:
        return "state not 66 bytes, or reached by no beginning of a word";
    case SEQ_RUN_LENGTH:
        return "run over 65,536 events";
    case SEQ_RUN_INCOMPLETE:
        return "run not complete";
    case SEQ_SPACE:
        return "record longer than the space lent";
    default:
        return "not an answer of this library";
    }
}

/* What seq_follow says of a run, with answer 0 only. */
enum seq_verdict {
    SEQ_COMPLETE   = 0, /* the run is a word of the procedure */
    SEQ_UNFINISHED = 1, /* it begins a word and is none */
    SEQ_BROKEN     = 2  /* the event after those taken does not continue it */
};

/* The conflicts that seq_judge names with answer 7. */
enum seq_conflict {
    SEQ_CONFLICT_CHOICE       = 1, /* choice: the firsts of the two children share a code */
    SEQ_CONFLICT_FIRST_FIRST  = 2, /* sequence whose left has the empty word: the firsts share a code */
    SEQ_CONFLICT_AFTER_FIRST  = 3, /* sequence: after of the left shares a code with first of the right */
    SEQ_CONFLICT_REPEAT       = 4  /* repeat with upper at least 2: after and first of the body share one */
};

/*
 * The state of a run, 66 bytes, all numbers 2 bytes little-endian:
 *   byte 0    0 at the start, or else 1 + the event node reached;
 *   byte 2    32 counters, for the repeats in rising node order: the number of blocks begun in the present
 *             stay in that repeat, the current one included. 0 for a repeat that does not enclose the node
 *             reached, and past the last repeat. Where a repeat has no upper bound its counter stops at the
 *             larger of 1 and the lower bound (taken as 0 where the body has the empty word).
 * A state of 66 zero bytes is the start of a run. It may be stored and moved between machines.
 */
#define SEQ_STATE_BYTES 66

/*
 * A record is a run with its blocks: items of 2 bytes, little-endian, node + 4,096 x mark.
 */
#define SEQ_ITEM_BYTES 2
#define SEQ_MARK_EVENT 0
#define SEQ_MARK_OPENING 1
#define SEQ_MARK_CLOSING 2
#define SEQ_MARK_UNIT 4096

/* Limits of a procedure file and of a run to be written. A run holds one byte an event, its code. */
#define SEQ_FILE_LEAST_BYTES 20
#define SEQ_FILE_MOST_BYTES 8204
#define SEQ_MOST_NODES 512
#define SEQ_MOST_REPEATS 32
#define SEQ_MOST_CODE 127
#define SEQ_MOST_RUN 65536

/*
 * The stack that each call may take, in bytes, the caller's frame not counted: measured on the deepest
 * procedures that there are, 511 nodes with 32 repeats in one chain, and rounded up to whole 1,024. A signal
 * that is handled on the same stack needs its own besides.
 */
#define SEQ_JUDGE_STACK 22528
#define SEQ_FOLLOW_STACK 26624
#define SEQ_WRITE_STACK 66560
#define SEQ_CHECK_STACK 36864
#define SEQ_PROMPT_STACK 26624

/*
 * Judges a procedure file.
 * Answers 0 to 7. With answer 0 no call refuses the file. *node is the node reported with 4 to 7, else 0. The other
 * results are the conflict's with 7, else 0:
 *   *kind          an enum seq_conflict;
 *   *code          the lowest of the codes that it shares;
 *   *low, *high    the set of all of them: bit c of *low is code c, and from 64 on bit c - 64 of *high. What the node
 *                  shares in another kind is not in it;
 *   *count         how many they are.
 */
SEQ_LOOK_AT
uint32_t seq_judge(const uint8_t *file, size_t file_len, uint32_t *node, uint32_t *kind, uint32_t *code,
                   uint64_t *low, uint64_t *high, uint32_t *count);

/*
 * Follows a run: takes the events up to the first that does not continue the run that reached the state.
 * Answers 0 to 8. *taken is how many events were taken, *verdict an enum seq_verdict on the run that
 * reached the given state followed by the events given. With answer 0 the state stands after the events
 * taken, also on a break; a break is not kept in it, so a later call goes on from there. With no events
 * the call reports on the state given and leaves it. The number of events is not limited. A code above 127
 * never continues. Note that *verdict is 0 on a refusal too: look at the answer first.
 */
SEQ_LOOK_AT
uint32_t seq_follow(const uint8_t *file, size_t file_len, uint8_t *state, size_t state_len,
                    const uint8_t *events, size_t events_len, uint64_t *taken, uint32_t *verdict);

/*
 * Writes the record of a whole run, from its start, into the space lent.
 * Answers 0 to 7 and 9 to 11. *length is the record's length in bytes; the space beyond it stays as it
 * was, and on a refusal the whole space does. Room for 130 bytes an event is always enough: no event lies
 * in more than 32 repeats, and so none has more than 65 items.
 */
SEQ_LOOK_AT
uint32_t seq_write(const uint8_t *file, size_t file_len, const uint8_t *run, size_t run_len,
                   uint8_t *space, size_t space_len, uint64_t *length);

/*
 * Checks a record.
 * Answers 0 to 6; a conflict does not matter here. *yes is 1 if the bytes are the record of some run of
 * the procedure, else 0 (an odd number of bytes is a 0). A record may have any length.
 */
SEQ_LOOK_AT
uint32_t seq_check(const uint8_t *file, size_t file_len, const uint8_t *record, size_t record_len,
                   uint32_t *yes);

/*
 * Prompts the operator: the codes that can come next, as a set in two words.
 * Answers 0 to 8. Bit c of *low is 1 exactly if code c can come next, for c from 64 on bit c - 64 of *high; both
 * words are 0 on a refusal. What can come next are at the start the codes that begin a word, else those of the
 * event nodes that can directly follow the node reached, where a repeat whose upper bound is at least 2, or that
 * has none, may end and go on after every block, whatever its count. The state is only read.
 */
SEQ_LOOK_AT
uint32_t seq_prompt(const uint8_t *file, size_t file_len, const uint8_t *state, size_t state_len,
                    uint64_t *low, uint64_t *high);

/* Whether a set in two words has the code: 1 or 0, and 0 for a code above 127, for which no word has a bit. */
static inline int seq_has_code(uint64_t low, uint64_t high, uint32_t code)
{
    if (code > SEQ_MOST_CODE)
        return 0;
    return (int)((code < 64 ? low >> code : high >> (code - 64)) & 1);
}

#ifdef __cplusplus
}
#endif

#endif
