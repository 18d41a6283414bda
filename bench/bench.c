/*
 * Microseconds to a call, the proved one and the plain C one: rounds, the test of marks, opening, image writing, runs, the C call, and RIP messages
 * written and read. A line is name, nodes, proved and plain C, with | between; bench/table makes tables of them. Each line measures the two sides in turn,
 * a few dozen microseconds each, and takes the least of many such turns, so that other load meets both alike and leaves some turns alone. Before and after
 * each line both sides are held to the same network, arcs and answers, and at the end to the same answers for damaged images and messages; the exit status
 * is not 0 where they differ.
 */
#include <stdio.h>
#include <string.h>
#include <time.h>
#include "gerqalli.h"
#include "plain.h"

extern uint8_t bench_change(uint32_t *net, uint32_t sender, uint32_t receiver, uint32_t cost);
extern uint8_t bench_round(uint32_t *net, const uint32_t *marks, uint64_t count);
extern uint8_t bench_full_round(uint32_t *net);
extern void bench_open(const uint8_t *in, uint64_t size, uint64_t *answer, uint32_t *net);
extern void bench_run(const uint8_t *in, uint64_t size, uint64_t *answer, uint32_t *net);
extern void bench_arcs(const uint32_t *net, uint32_t receiver, uint64_t *answer);
extern void bench_image(const uint32_t *net, uint8_t *out, uint64_t room, uint64_t *answer);
extern void bench_write_messages(const uint32_t *net, uint32_t base, uint8_t *out, uint64_t room, uint64_t *answer);
extern void bench_read_messages(const uint8_t *in, uint64_t size, uint32_t base, uint32_t n, uint64_t *answer);

#define NODES 32
#define WORDS 3232
#define TURNS 500
#define LONG_TURNS 15
#define ROUNDS 1000000
#define SETS 16
/* messages are written so far into a page that no byte of them has the place in its page of a word of the rows that are read: a read waits for such a
   store, on either side, and by chance */
#define APART 1024
#define BASE 0x0a200700u
#define MAX_MESSAGES 648
#define READ_WORDS (2 + NODES)

/* at the start of a page each: see APART */
static _Alignas(4096) uint32_t words[WORDS];
static _Alignas(4096) struct plain_net plain;
static uint32_t seed = 1;
static int bad;

static uint32_t next(void)
{
    seed ^= seed << 13;
    seed ^= seed >> 17;
    seed ^= seed << 5;
    return seed;
}

static double now(void)
{
    struct timespec t;
    clock_gettime(CLOCK_MONOTONIC, &t);
    return t.tv_sec * 1e6 + t.tv_nsec / 1e3;
}

typedef void (*work)(void);
struct times {
    double proved, plain;
};

static double timed(work f, int count)
{
    double t = now();
    for (int i = 0; i < count; i++)
        f();
    return (now() - t) / count;
}

/* the least of several turns of count calls, the two sides in turn */
static struct times measure(work proved, work other, int turns, int count)
{
    struct times least = {1e18, 1e18};
    for (int k = 0; k < turns; k++) {
        double a = timed(proved, count), b = timed(other, count);
        least.proved = a < least.proved ? a : least.proved;
        least.plain = b < least.plain ? b : least.plain;
    }
    return least;
}

static void print(const char *name, uint32_t n, struct times t)
{
    printf("%s|%u|%.4f|%.4f\n", name, n, t.proved, t.plain);
}

static void held(int right, const char *what)
{
    if (right)
        return;
    printf("differs: %s\n", what);
    bad = 1;
}

/* ---- networks: both sides write the same image, and answer the same arcs */

static _Alignas(4096) uint8_t proved_out[GERQALLI_MAX_IMAGE];
static _Alignas(4096) uint8_t plain_out[GERQALLI_MAX_IMAGE];
static uint64_t proved_answer[3], plain_answer[3];

static void proved_write(void) { bench_image(words, proved_out, sizeof proved_out, proved_answer); }
static void plain_write(void) { plain_answer[0] = (uint64_t)plain_image(&plain, plain_out, sizeof plain_out, &plain_answer[1]); }

/* both answer this number, and the same image */
static int same_images(work a, work b, uint64_t number)
{
    memset(proved_out, 0xff, sizeof proved_out);
    memset(plain_out, 0xff, sizeof plain_out);
    a();
    b();
    return proved_answer[0] == number && plain_answer[0] == number && proved_answer[1] == plain_answer[1] &&
           !memcmp(proved_out, plain_out, sizeof plain_out);
}

static int same_arcs(void)
{
    int alike = 1;
    for (uint32_t r = 0; r < NODES + 2; r++) {
        uint64_t answer[2] = {99, 99};
        uint32_t word = 99, number = (uint32_t)plain_arcs(&plain, r, &word);
        bench_arcs(words, r, answer);
        alike &= number == (r < plain.n ? 0 : 3) && answer[0] == number && answer[1] == word;
    }
    return alike;
}

static int same(void) { return same_images(proved_write, plain_write, 0) && same_arcs(); }

/* ---- rounds */

/* sets of marks, taken in turn */
static uint32_t marks[SETS][NODES];
static unsigned proved_set, plain_set;

static void proved_full(void) { bench_full_round(words); }
static void plain_full(void) { plain_full_round(&plain); }
static void proved_marked(void) { bench_round(words, marks[proved_set++ % SETS], NODES); }
static void plain_marked(void) { plain_round(&plain, marks[plain_set++ % SETS], NODES); }

/*
 * a field and its rounds: every arc, or one in `sparse`, but of the origin's only those to the last n / `near` + 1 nodes; costs 1 to `most`; marks that
 * lose `lost` in ten of the arcs
 */
struct kind {
    const char *name;
    uint32_t sparse, near, most, lost;
    work proved, plain;
};

/*
 * in the last four most relays, from 8 nodes on, don't hear the origin: at costs of 1 most of their offers are equal, at 1 and 2 some, from lists of
 * different length
 */
static const struct kind kinds[] = {
    {"full round, dense", 1, 1, 600, 0, proved_full, plain_full},
    {"marked, none lost, dense", 1, 1, 600, 0, proved_marked, plain_marked},
    {"marked, 5 in 10 lost, dense", 1, 1, 600, 5, proved_marked, plain_marked},
    {"marked, 9 in 10 lost, dense", 1, 1, 600, 9, proved_marked, plain_marked},
    {"full round, 1 arc in 8", 8, 1, 600, 0, proved_full, plain_full},
    {"marked, 5 in 10, 1 arc in 8", 8, 1, 600, 5, proved_marked, plain_marked},
    {"full round, costs 1", 1, 4, 1, 0, proved_full, plain_full},
    {"marked, 5 in 10, costs 1", 1, 4, 1, 5, proved_marked, plain_marked},
    {"full round, costs 1, 2", 1, 4, 2, 0, proved_full, plain_full},
    {"marked, 5 in 10, costs 1, 2", 1, 4, 2, 5, proved_marked, plain_marked},
};

/* two of these fields, with every arc marked */
#define DENSE (&kinds[0])
#define SPARSE (&kinds[4])

/* a field of n nodes; origin 0 */
static void build(uint32_t n, const struct kind *kind)
{
    memset(words, 0, sizeof words);
    memset(&plain, 0, sizeof plain);
    memset(marks, 0, sizeof marks);
    proved_set = plain_set = 0;
    words[0] = plain.n = n;
    plain.row_list[0] = 1;
    for (uint32_t r = 0; r < n; r++)
        for (uint32_t s = 0; s < n; s++) {
            if (r == s || next() % kind->sparse || (s == 0 && r + n / kind->near + 1 < n))
                continue;
            uint32_t c = 1 + next() % kind->most;
            held(bench_change(words, s, r, c) == plain_change(&plain, s, r, c), "change");
            for (int k = 0; k < SETS; k++)
                if (next() % 10 >= kind->lost)
                    marks[k][r] |= 1u << s;
        }
}

/* both of them after n full rounds: the rows are settled, and each arc holds its sender's */
static void settled(uint32_t n, const struct kind *kind)
{
    build(n, kind);
    for (uint32_t k = 0; k < n; k++) {
        proved_full();
        plain_full();
    }
}

static struct times rounds(uint32_t n, const struct kind *kind)
{
    build(n, kind);
    for (int k = 0; k < 2 * NODES; k++) {
        kind->proved();
        kind->plain();
        held(same(), kind->name);
    }
    struct times t = measure(kind->proved, kind->plain, TURNS, 1 + 20000 / (int)(n * n));
    held(same(), kind->name);
    return t;
}

/* the two whose growth is told have more numbers of nodes */
static void round_lines(void)
{
    for (unsigned k = 0; k < sizeof kinds / sizeof *kinds; k++)
        for (uint32_t n = 4; n <= NODES; n += 4)
            if (k == 0 || k == 2 || (n & (n - 1)) == 0)
                print(kinds[k].name, n, rounds(n, &kinds[k]));
}

/* ---- the test of marks by itself: every arc is marked, and the last pair, which has none; a round would change the network, as it is fresh */

static void proved_refused(void) { proved_answer[0] = bench_round(words, marks[0], NODES); }
static void plain_refused(void) { plain_answer[0] = (uint64_t)plain_round(&plain, marks[0], NODES); }

static int both_refuse(void)
{
    proved_refused();
    plain_refused();
    return proved_answer[0] == 7 && plain_answer[0] == 7;
}

static void refused_line(const char *name, uint32_t n, const struct kind *kind)
{
    static uint32_t words_before[WORDS];
    static struct plain_net plain_before;
    build(n, kind);
    held(bench_change(words, n - 2, n - 1, 0) == plain_change(&plain, n - 2, n - 1, 0), "change");
    marks[0][n - 1] |= 1u << (n - 2);
    held(same(), name);
    memcpy(words_before, words, sizeof words);
    memcpy(&plain_before, &plain, sizeof plain);
    held(both_refuse(), name);
    print(name, n, measure(proved_refused, plain_refused, TURNS, 1000));
    held(both_refuse() && !memcmp(words_before, words, sizeof words) && !memcmp(&plain_before, &plain, sizeof plain), name);
}

static void refused_lines(void)
{
    for (uint32_t n = 4; n <= NODES; n *= 8) {
        refused_line("marks refused, dense", n, DENSE);
        refused_line("marks refused, 1 arc in 8", n, SPARSE);
    }
}

/* ---- files: what both sides answer is number, place or length, bytes used or rounds */

static const uint8_t field[64] = {1, 4, 0, 2, 0, 1, 0, 1, 2, 0, 3, 0, 4, 2, 1, 0, 0, 1, 2, 1, 2, 0, 1, 2, 2, 1, 0, 1, 2, 2, 3, 0,
                                  1, 2, 3, 0, 0, 4, 2, 3, 2, 0, 1, 0, 6, 6, 6, 6, 2, 0, 1, 0, 0, 2, 1, 0, 0, 0, 6, 6, 6, 6, 6, 6};
#define FIELD_IMAGE 44
static uint8_t file[FIELD_IMAGE + ROUNDS];
static uint64_t size;

static void answered(struct plain_answer a)
{
    plain_answer[0] = (uint64_t)a.number;
    plain_answer[1] = a.place;
}

static void proved_open(void) { bench_open(file, size, proved_answer, words); }
static void plain_opened(void) { answered(plain_open(&plain, file, size, &plain_answer[2])); }
static void proved_run(void) { bench_run(file, size, proved_answer, words); }
static void plain_ran(void) { answered(plain_run(&plain, file, size, &plain_answer[2])); }
static void proved_call(void) { proved_answer[0] = gerqalli_run(file, size, proved_out, sizeof proved_out); }
static void plain_called(void) { plain_answer[0] = plain_call(file, size, plain_out, sizeof plain_out); }

/* both answer the same, and then have the same network */
static int same_files(work a, work b)
{
    memset(words, 0xff, sizeof words);
    memset(&plain, 0xff, sizeof plain);
    a();
    b();
    return !memcmp(proved_answer, plain_answer, sizeof plain_answer) && same();
}

static int same_calls(void)
{
    memset(proved_out, 0xff, sizeof proved_out);
    memset(plain_out, 0xff, sizeof plain_out);
    proved_call();
    plain_called();
    return proved_answer[0] == plain_answer[0] && proved_answer[0] % 32 == 0 && !memcmp(proved_out, plain_out, sizeof plain_out);
}

/* every arc, row and report of 32 nodes, and then full rounds */
static void full_file(uint32_t more)
{
    settled(NODES, DENSE);
    held(plain_image(&plain, file, GERQALLI_MAX_IMAGE, &size) == 0 && size == GERQALLI_MAX_IMAGE, "full image");
    memset(file + size, 6, more);
    size += more;
}

static void file_line(const char *name, uint32_t n, int turns, int count, work a, work b)
{
    held(same_files(a, b), name);
    print(name, n, measure(a, b, turns, count));
    held(same_files(a, b), name);
}

static void call_line(const char *name, uint32_t n, int count)
{
    held(same_calls(), name);
    print(name, n, measure(proved_call, plain_called, TURNS, count));
    held(same_calls(), name);
}

/* image writing into an output as long as the image; a byte less is refused */
static uint64_t exact;

static void proved_exact(void) { bench_image(words, proved_out, exact, proved_answer); }
static void plain_exact(void) { plain_answer[0] = (uint64_t)plain_image(&plain, plain_out, exact, &plain_answer[1]); }

static void write_line(const char *name, uint32_t n, const struct kind *kind, work a, work b)
{
    settled(n, kind);
    held(same(), name);
    exact = plain_answer[1] - 1;
    held(same_images(proved_exact, plain_exact, 6), name);
    exact++;
    held(same_images(a, b, 0), name);
    print(name, n, measure(a, b, TURNS, 1 + 10000 / (int)(n * n)));
    held(same_images(a, b, 0), name);
}

static void file_lines(void)
{
    full_file(0);
    file_line("open, full image", NODES, TURNS, 5, proved_open, plain_opened);
    for (uint32_t n = 4; n <= NODES; n *= 2)
        write_line("write, full image", n, DENSE, proved_write, plain_write);
    for (uint32_t n = 4; n <= NODES; n *= 2)
        write_line("write, exact output, full", n, DENSE, proved_exact, plain_exact);
    for (uint32_t n = 4; n <= NODES; n *= 8)
        write_line("write, exact, 1 arc in 8", n, SPARSE, proved_exact, plain_exact);
    call_line("C call, full image", NODES, 4);
    full_file(10);
    call_line("C call, and 10 full rounds", NODES, 2);
    memcpy(file, field, sizeof field);
    size = sizeof field;
    call_line("C call, the four-node field", 4, 100);
    memset(file + FIELD_IMAGE, 6, ROUNDS);
    size = sizeof file;
    file_line("run, 1000000 full rounds", 4, LONG_TURNS, 1, proved_run, plain_ran);
}

/* the image of the field after its run with every value of every byte, alone and with another byte changed: all numbers of opening come up */
static void damaged_images(void)
{
    static uint8_t image[GERQALLI_MAX_IMAGE];
    uint32_t numbers = 0;
    int alike = 1;
    plain_run(&plain, field, sizeof field, &plain_answer[2]);
    plain_image(&plain, image, sizeof image, &size);
    for (uint64_t at = 0; at < size; at++)
        for (int value = 0; value < 256; value++)
            for (int two = 0; two < 2; two++) {
                memcpy(file, image, size);
                if (two)
                    file[next() % size] = (uint8_t)next();
                file[at] = (uint8_t)value;
                alike &= same_files(proved_open, plain_opened);
                numbers |= 1u << plain_open(&plain, file, size, &plain_answer[2]).number;
            }
    held(alike, "open, damaged image");
    held(numbers == (0x3f | 7u << 10), "numbers of damaged images");
}

/* ---- messages: what both sides answer is number and length, or number, nodes and the metrics of 32 nodes, all in words */

static uint32_t base, nodes;
static uint64_t room, proved_read[READ_WORDS], plain_read[READ_WORDS];

static void proved_messages(void) { bench_write_messages(words, base, proved_out + APART, room, proved_answer); }
static void plain_messages(void) { plain_answer[0] = (uint64_t)plain_write_messages(&plain, base, plain_out + APART, room, &plain_answer[1]); }
static void proved_metrics(void) { bench_read_messages(file, size, base, nodes, proved_read); }

static void plain_metrics(void)
{
    uint8_t metrics[NODES];
    plain_read[0] = (uint64_t)plain_read_messages(file, size, base, nodes, &plain_read[1], metrics);
    for (int k = 0; k < NODES; k++)
        plain_read[2 + k] = metrics[k];
}

static int same_messages(void)
{
    memset(proved_out, 0xff, sizeof proved_out);
    memset(plain_out, 0xff, sizeof plain_out);
    proved_messages();
    plain_messages();
    return !memcmp(proved_answer, plain_answer, 2 * sizeof *plain_answer) && !memcmp(proved_out, plain_out, sizeof plain_out);
}

static int same_metrics(void)
{
    memset(proved_read, 0xff, sizeof proved_read);
    memset(plain_read, 0xff, sizeof plain_read);
    proved_metrics();
    plain_metrics();
    return !memcmp(proved_read, plain_read, sizeof plain_read);
}

/* the settled chain of n nodes, node k after node k - 1: every count of hops */
static void chain_network(uint32_t n)
{
    memset(words, 0, sizeof words);
    memset(&plain, 0, sizeof plain);
    words[0] = plain.n = n;
    plain.row_list[0] = 1;
    for (uint32_t r = 1; r < n; r++)
        held(bench_change(words, r - 1, r, 1) == plain_change(&plain, r - 1, r, 1), "change");
    for (uint32_t k = 0; k < n; k++) {
        proved_full();
        plain_full();
    }
}

/* the messages of the network that both sides have, in the file */
static void message_file(void)
{
    base = BASE;
    nodes = plain.n;
    room = MAX_MESSAGES;
    held(same() && plain_write_messages(&plain, base, file, room, &size) == 0, "messages");
}

static void message_line(const char *writing, const char *reading, uint32_t n)
{
    int count = 1 + 1000 / (int)n;
    message_file();
    held(same_messages() && proved_answer[0] == 0, writing);
    print(writing, n, measure(proved_messages, plain_messages, TURNS, count));
    held(same_messages(), writing);
    held(same_metrics() && proved_read[0] == 0, reading);
    print(reading, n, measure(proved_metrics, plain_metrics, TURNS, count));
    held(same_metrics(), reading);
}

static void message_lines(void)
{
    for (uint32_t n = 4; n <= NODES; n *= 2) {
        settled(n, DENSE);
        message_line("write messages, dense", "read messages, dense", n);
    }
    chain_network(NODES);
    message_line("write messages, a chain", "read messages, a chain", NODES);
}

/* those of the chain with every value of every byte, alone and with another byte changed; every length; other bases and counts of nodes */
static void damaged_messages(void)
{
    static uint8_t right[MAX_MESSAGES];
    uint32_t written = 0, read = 0;
    int alike = 1;
    chain_network(NODES);
    message_file();
    memcpy(right, file, sizeof right);
    for (uint64_t at = 0; at < sizeof right; at++)
        for (int value = 0; value < 256; value++)
            for (int two = 0; two < 2; two++) {
                memcpy(file, right, sizeof right);
                if (two)
                    file[next() % sizeof right] = (uint8_t)next();
                file[at] = (uint8_t)value;
                alike &= same_metrics();
                read |= 1u << plain_read[0];
            }
    memcpy(file, right, sizeof right);
    file[sizeof right] = 0;
    for (base = BASE - 1; base <= BASE + 1; base++)
        for (nodes = 0; nodes <= NODES + 1; nodes++)
            for (size = 0; size <= sizeof right + 1; size++) {
                alike &= same_metrics();
                read |= 1u << plain_read[0];
            }
    held(alike, "read messages, damaged");
    held(read == (1u | 1u << 3 | 3u << 13), "numbers of damaged messages");
    alike = 1;
    for (base = BASE - 1; base <= BASE + 1; base++)
        for (uint32_t n = 0; n <= NODES; n++)
            for (room = 0; room <= sizeof right + 1; room++) {
                words[0] = plain.n = n;
                alike &= same_messages();
                written |= 1u << plain_answer[0];
            }
    held(alike, "write messages, other networks");
    held(written == (1u | 1u << 3 | 1u << 6 | 1u << 13), "numbers of messages written");
}

int main(void)
{
    round_lines();
    refused_lines();
    file_lines();
    message_lines();
    damaged_images();
    damaged_messages();
    return bad;
}
