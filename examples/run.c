/*
 * Runs a state file with the C call and shows how its answer is read.
 *
 *     run RUN [IMAGE]
 *
 * RUN is a file with an image and then events. The image of the resulting network is saved to the file IMAGE, or printed in hexadecimal
 * where no IMAGE is given. Exit status: 0 accepted; 1 refused, with number, meaning and place on standard error; 2 a file or memory fails.
 *
 * To build it, from the root of the repository:
 *     ./build firmware
 *     gcc -std=c11 -Wall -Wextra -pedantic -Iinclude examples/run.c target/staticlib/libfirmware.a -o run
 */
#include <errno.h>
#include <stdio.h>
#include <stdlib.h>
#include <string.h>
#include "gerqalli.h"

/* Says what failed, and with what error of the system. */
static int failed(const char *what)
{
    fprintf(stderr, "run: %s: %s\n", what, strerror(errno));
    return 2;
}

/* A refusal's number in words. */
static const char *meaning(enum gerqalli_number number)
{
    switch (number) {
    case GERQALLI_ACCEPTED: return "accepted";
    case GERQALLI_CUT: return "cut short";
    case GERQALLI_KIND: return "kind unknown or not allowed here";
    case GERQALLI_RANGE: return "out of range";
    case GERQALLI_ORDER: return "out of order";
    case GERQALLI_FORM: return "row for the origin, or report without an arc";
    case GERQALLI_ROOM: return "output too short";
    case GERQALLI_MARK: return "mark without an arc";
    case GERQALLI_LABEL: return "label out of its limits";
    case GERQALLI_PREDECESSOR: return "predecessor out of its limits";
    case GERQALLI_LIST: return "wrong list";
    }
    return "no such number";
}

/* Reads a file into a heap block of exactly its length, at most one byte more than the longest run. Answers NULL where that fails. */
static uint8_t *read_run(const char *name, size_t *length)
{
    const size_t most = (size_t)GERQALLI_MAX_RUN + 1;
    FILE *file = fopen(name, "rb");
    if (file == NULL)
        return NULL;
    uint8_t *bytes = malloc(most);
    if (bytes != NULL) {
        *length = fread(bytes, 1, most, file);
        uint8_t *exact = ferror(file) ? NULL : realloc(bytes, *length > 0 ? *length : 1);
        if (exact == NULL)
            free(bytes);
        bytes = exact;
    }
    int error = errno;
    fclose(file);
    errno = error;
    return bytes;
}

/* Saves the image; answers 0 where all of it is written. */
static int save(const char *name, const uint8_t *image, size_t length)
{
    FILE *file = fopen(name, "wb");
    if (file == NULL)
        return -1;
    size_t written = fwrite(image, 1, length, file);
    int error = errno;
    int closed = fclose(file);
    if (written == length)
        return closed;
    errno = error;
    return -1;
}

/* Prints the image in hexadecimal, 32 bytes to a line; answers 0 where all of it is written. */
static int print(const uint8_t *image, size_t length)
{
    for (size_t i = 0; i < length; i++)
        if (printf("%02x%s", image[i], i % 32 == 31 || i + 1 == length ? "\n" : "") < 0)
            return -1;
    return fflush(stdout);
}

int main(int count, char **words)
{
    if (count != 2 && count != 3) {
        fprintf(stderr, "usage: run RUN [IMAGE]\n");
        return 2;
    }

    size_t length = 0;
    uint8_t *run = read_run(words[1], &length);
    if (run == NULL)
        return failed(words[1]);

    uint8_t *image = malloc(GERQALLI_MAX_IMAGE);
    if (image == NULL) {
        free(run);
        return failed("memory");
    }

    uint64_t answer = gerqalli_run(run, length, image, GERQALLI_MAX_IMAGE);

    int status = 0;
    enum gerqalli_number number = gerqalli_number_of(answer);
    if (number != GERQALLI_ACCEPTED) {
        fprintf(stderr, "refused %d at %zu: %s\n", (int)number, gerqalli_place_of(answer), meaning(number));
        status = 1;
    } else if (count == 3) {
        if (save(words[2], image, gerqalli_length_of(answer)) != 0)
            status = failed(words[2]);
    } else if (print(image, gerqalli_length_of(answer)) != 0) {
        status = failed("standard output");
    }

    free(image);
    free(run);
    return status;
}
