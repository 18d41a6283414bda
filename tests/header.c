/*
 * The header as a C program uses it: its constants and functions, the largest image, the longest run, each number that the call can give, and
 * the stack that a call uses. A run with the largest image and every kind of event is saved to the file that is named.
 * The last line is 'header: N checks, M failed'; the exit status is 0 where M is 0.
 */
#define _GNU_SOURCE
#include <stdio.h>
#include <stdlib.h>
#include <string.h>
#include <ucontext.h>
#include "gerqalli.h"
#include "gerqalli.h"

/* 32 nodes: a header, 992 arcs, 31 rows, 992 reports, an end. */
_Static_assert(GERQALLI_MAX_IMAGE == 3 + 992 * 5 + 31 * 11 + 992 * 11 + 1, "the longest image");
_Static_assert(GERQALLI_MAX_RUN == 1 << 20, "the longest run");
_Static_assert(GERQALLI_ACCEPTED == 0 && GERQALLI_CUT == 1 && GERQALLI_KIND == 2 && GERQALLI_RANGE == 3, "numbers 0 to 3");
_Static_assert(GERQALLI_ORDER == 4 && GERQALLI_FORM == 5 && GERQALLI_ROOM == 6 && GERQALLI_MARK == 7, "numbers 4 to 7");
_Static_assert(GERQALLI_LABEL == 10 && GERQALLI_PREDECESSOR == 11 && GERQALLI_LIST == 12, "numbers 10 to 12");

static unsigned checks, failures;

static void check(int right, const char *what)
{
    checks++;
    if (!right) {
        failures++;
        printf("header: failed: %s\n", what);
    }
}

/* What a call is given and what it answered; it runs on a stack of its own, which is filled beforehand. */
#define STACK (1 << 20)
#define FILLING 0xa5
static unsigned char stack[STACK];
static ucontext_t caller, callee;
static const uint8_t *run;
static size_t run_length, out_length, most_stack;
static uint8_t out[GERQALLI_MAX_IMAGE];
static uint64_t answer;
static unsigned char *volatile top;

static void call(void)
{
    unsigned char here;
    top = &here;
    answer = gerqalli_run(run, run_length, out, out_length);
}

/* Calls, and notes the most stack that was written below the caller's frame. */
static uint64_t call_with(const uint8_t *bytes, size_t length, size_t room)
{
    run = bytes;
    run_length = length;
    out_length = room;
    memset(stack, FILLING, sizeof stack);
    getcontext(&callee);
    callee.uc_stack.ss_sp = stack;
    callee.uc_stack.ss_size = sizeof stack;
    callee.uc_link = &caller;
    makecontext(&callee, call, 0);
    swapcontext(&caller, &callee);
    size_t untouched = 0;
    while (untouched < sizeof stack && stack[untouched] == FILLING)
        untouched++;
    size_t used = (size_t)(top - stack) > untouched ? (size_t)(top - stack) - untouched : 0;
    if (used > most_stack)
        most_stack = used;
    return answer;
}

/* The image with every arc, row and report of 32 nodes: label 7, every node in every list. */
static size_t dense(uint8_t *bytes)
{
    static const uint8_t label_list[8] = {0, 0, 0, 7, 0xff, 0xff, 0xff, 0xff};
    uint8_t *at = bytes;
    *at++ = 1, *at++ = 32, *at++ = 0;
    for (int sender = 0; sender < 32; sender++)
        for (int receiver = 0; receiver < 32; receiver++)
            if (sender != receiver)
                *at++ = 2, *at++ = (uint8_t)sender, *at++ = (uint8_t)receiver, *at++ = 1, *at++ = (uint8_t)(sender + receiver);
    for (int node = 1; node < 32; node++) {
        *at++ = 3, *at++ = (uint8_t)node;
        memcpy(at, label_list, 4), at += 4;
        *at++ = (uint8_t)(node - 1);
        memcpy(at, label_list + 4, 4), at += 4;
    }
    for (int sender = 0; sender < 32; sender++)
        for (int receiver = 0; receiver < 32; receiver++)
            if (sender != receiver) {
                *at++ = 4, *at++ = (uint8_t)sender, *at++ = (uint8_t)receiver;
                memcpy(at, label_list, 8), at += 8;
            }
    *at++ = 0;
    return (size_t)(at - bytes);
}

/* A refused run, and what is refused. */
static void refused(const char *bytes, size_t length, enum gerqalli_number number, size_t place, const char *what)
{
    uint64_t given = call_with((const uint8_t *)bytes, length, sizeof out);
    check(gerqalli_number_of(given) == number && gerqalli_place_of(given) == place && gerqalli_length_of(given) == 0, what);
}

int main(int count, char **words)
{
    /* The functions on answers. */
    check(gerqalli_number_of(32 * 16217) == GERQALLI_ACCEPTED, "number of an accepted answer");
    check(gerqalli_length_of(32 * 16217) == 16217 && gerqalli_place_of(32 * 16217) == 0, "length of an accepted answer");
    check(gerqalli_number_of(32 * 44 + 7) == GERQALLI_MARK, "number of a refusal");
    check(gerqalli_place_of(32 * 44 + 7) == 44 && gerqalli_length_of(32 * 44 + 7) == 0, "place of a refusal");
    check(gerqalli_place_of(UINT64_C(32) * 1048576 + 1) == 1048576, "the largest place");

    uint8_t *bytes = malloc((size_t)GERQALLI_MAX_RUN + 1);
    if (bytes == NULL) {
        printf("header: no memory\n");
        return 1;
    }

    /* The largest image, in an output of its length and in one a byte shorter. */
    size_t length = dense(bytes);
    check(length == GERQALLI_MAX_IMAGE, "the largest image has GERQALLI_MAX_IMAGE bytes");
    uint64_t given = call_with(bytes, length, GERQALLI_MAX_IMAGE);
    check(gerqalli_number_of(given) == GERQALLI_ACCEPTED && gerqalli_length_of(given) == GERQALLI_MAX_IMAGE, "the largest image is accepted");
    check(memcmp(bytes, out, length) == 0, "the largest image comes back");
    given = call_with(bytes, length, GERQALLI_MAX_IMAGE - 1);
    check(given == GERQALLI_ROOM, "the largest image has no room in a byte less");

    /* With all events after it: a round with every arc marked, one with every arc heard, a change, a grade. */
    size_t at = length;
    bytes[at++] = 5;
    for (int receiver = 0; receiver < 32; receiver++)
        for (int part = 3; part >= 0; part--)
            bytes[at++] = (uint8_t)(~(UINT32_C(1) << receiver) >> (8 * part));
    bytes[at++] = 6;
    memcpy(bytes + at, "\2\1\2\0\0\7\1\2\17", 9), at += 9;
    given = call_with(bytes, at, GERQALLI_MAX_IMAGE);
    check(gerqalli_number_of(given) == GERQALLI_ACCEPTED && gerqalli_length_of(given) == GERQALLI_MAX_IMAGE - 11, "all events are accepted");
    if (count > 1) {
        FILE *file = fopen(words[1], "wb");
        check(file != NULL && fwrite(bytes, 1, at, file) == at, "the run is saved");
        check(file != NULL && fclose(file) == 0, "the file is closed");
    }

    /* Each number. */
    refused("", 0, GERQALLI_CUT, 0, "an empty run is cut");
    refused("\1\2\0\0\2", 5, GERQALLI_CUT, 4, "a short body is cut");
    refused("\1\2\0\7", 4, GERQALLI_KIND, 3, "a grade in an image");
    refused("\1\2\2\0", 4, GERQALLI_RANGE, 0, "an origin that is no node");
    refused("\1\2\0\2\0\1\0\1\2\0\1\0\1\0", 14, GERQALLI_ORDER, 8, "an arc twice");
    refused("\1\2\0\4\0\1\0\0\0\0\0\0\0\1\0", 15, GERQALLI_FORM, 3, "a report without an arc");
    refused("\1\2\0\3\1\0\0\0\0\0\0\0\0\2\0", 15, GERQALLI_LABEL, 3, "a row's label 0");
    refused("\1\2\0\3\1\0\0\0\1\1\0\0\0\2\0", 15, GERQALLI_PREDECESSOR, 3, "a row's node as its predecessor");
    refused("\1\2\0\3\1\0\0\0\1\0\0\0\0\1\0", 15, GERQALLI_LIST, 3, "a row's list without its node");
    memcpy(bytes, "\1\2\0\0\5", 5);
    memset(bytes + 5, 0, 128);
    bytes[5 + 4 + 3] = 1;
    refused((const char *)bytes, 133, GERQALLI_MARK, 4, "a mark without an arc");
    given = call_with((const uint8_t *)"\1\1\0\0", 4, 3);
    check(gerqalli_number_of(given) == GERQALLI_ROOM && gerqalli_place_of(given) == 0, "an output of three bytes for an image of four");

    /* The longest run, and one byte more. */
    memset(bytes, 6, (size_t)GERQALLI_MAX_RUN + 1);
    memcpy(bytes, "\1\1\0\0", 4);
    given = call_with(bytes, GERQALLI_MAX_RUN, sizeof out);
    check(given == 32 * 4 && memcmp(out, "\1\1\0\0", 4) == 0, "a run of GERQALLI_MAX_RUN bytes is taken");
    refused((const char *)bytes, (size_t)GERQALLI_MAX_RUN + 1, GERQALLI_RANGE, 0, "a run of one byte more is refused");
    free(bytes);

    printf("header: stack of a call, at most: %zu bytes, of %d\n", most_stack, GERQALLI_STACK);
    check(most_stack > 0 && most_stack <= GERQALLI_STACK, "a call uses at most GERQALLI_STACK bytes of stack");
    printf("header: %u checks, %u failed\n", checks, failures);
    return failures != 0;
}
