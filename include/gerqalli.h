/* gerqalli.h: the C call of the routing core. It takes a run (an image and then events) and writes the image of the resulting network. */
#ifndef GERQALLI_H
#define GERQALLI_H

#include <stddef.h>
#include <stdint.h>

#ifdef __cplusplus
extern "C" {
#endif

/* The longest run that is taken, in bytes. */
#define GERQALLI_MAX_RUN 1048576

/* The longest image, in bytes. An output of this length is never too short. */
#define GERQALLI_MAX_IMAGE 16217

/* Bytes of stack that a call uses at most: an upper bound, measured on x86-64. */
#define GERQALLI_STACK 13568

/* The number in an answer. Numbers 8 and 9 belong to the route call; gerqalli_run never gives them. */
enum gerqalli_number {
    GERQALLI_ACCEPTED = 0,     /* accepted: the image is written */
    GERQALLI_CUT = 1,          /* no kind byte where one is due, or a short body */
    GERQALLI_KIND = 2,         /* kind unknown, or not allowed where it stands */
    GERQALLI_RANGE = 3,        /* node, pair, cost, grade or mark out of range; at place 0 also a run above GERQALLI_MAX_RUN */
    GERQALLI_ORDER = 4,        /* a record of the image not above the one before it */
    GERQALLI_FORM = 5,         /* a row for the origin, or a report without an arc */
    GERQALLI_ROOM = 6,         /* the output is shorter than the image; tested last, place 0 */
    GERQALLI_MARK = 7,         /* a round's mark on a pair without an arc */
    GERQALLI_LABEL = 10,       /* a label above 2,031,585, or a row's label 0 */
    GERQALLI_PREDECESSOR = 11, /* a row's predecessor is no node, or the node itself */
    GERQALLI_LIST = 12         /* a list with a node that is not there, or without the row's node or the report's sender */
};

/*
 * Runs `run`, writes the image of the resulting network to the front of `out`, and answers 32 times the image's length; the bytes of `out` past
 * the image stay as they were. A refused run answers 32 times the place plus the number, and nothing is written. The place is
 * the offset in `run` of the kind byte of the refused record, or `run_length` where that byte is missing. A run above GERQALLI_MAX_RUN
 * is refused before it is read: GERQALLI_RANGE at place 0.
 *
 * So answer % 32 is the number and answer / 32 the length or the place; see the three functions below.
 *
 * The caller sees to it that
 * - `run` points to `run_length` readable bytes and `out` to `out_length` writable bytes, for length 0 too to a valid address and not to NULL;
 * - the two do not overlap, and nothing else writes them during the call;
 * - GERQALLI_STACK bytes of stack are free.
 * No byte outside of the two is touched. The call allocates nothing and has no static data: calls with different outputs may run at once.
 */
uint64_t gerqalli_run(const uint8_t *run, size_t run_length, uint8_t *out, size_t out_length);

/* The number of an answer: GERQALLI_ACCEPTED or the number of the refusal. */
static inline enum gerqalli_number gerqalli_number_of(uint64_t answer)
{
    return (enum gerqalli_number)(answer % 32);
}

/* The length of the image, where the answer is GERQALLI_ACCEPTED; otherwise 0. */
static inline size_t gerqalli_length_of(uint64_t answer)
{
    return answer % 32 == GERQALLI_ACCEPTED ? (size_t)(answer / 32) : 0;
}

/* The place of the refusal; 0 where the answer is GERQALLI_ACCEPTED. */
static inline size_t gerqalli_place_of(uint64_t answer)
{
    return answer % 32 == GERQALLI_ACCEPTED ? 0 : (size_t)(answer / 32);
}

#ifdef __cplusplus
}
#endif

#endif
