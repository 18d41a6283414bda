#include <string.h>
#include "plain.h"

#define MAX_LABEL 2031585u
#define MAX_RUN 1048576
#define MAX_IMAGE 16217
/* in a message: command and version; family and tag; the mask; the most entries */
#define HEADER 0x02020000u
#define FAMILY 0x00020000u
#define MASK 0xffffffffu
#define ENTRIES 25

static const uint16_t grades[16] = {0, 600, 480, 380, 300, 240, 190, 150, 120, 95, 75, 60, 48, 38, 30, 24};

/* the body bytes of each kind */
static const uint8_t body_bytes[8] = {0, 2, 4, 10, 10, 128, 0, 3};

int plain_change(struct plain_net *x, uint32_t s, uint32_t r, uint32_t cost)
{
    if (s >= x->n || r >= x->n || s == r || cost > 65535)
        return 3;
    if (cost) {
        x->arcs[r] |= 1u << s;
    } else {
        x->arcs[r] &= ~(1u << s);
        x->held_list[r][s] = 0;
    }
    x->cost[r][s] = cost;
    return 0;
}

int plain_grade(struct plain_net *x, uint32_t s, uint32_t r, uint32_t grade)
{
    return grade > 15 ? 3 : plain_change(x, s, r, grades[grade]);
}

int plain_arcs(const struct plain_net *x, uint32_t r, uint32_t *word)
{
    *word = 0;
    if (r >= x->n)
        return 3;
    *word = x->arcs[r];
    return 0;
}

/* the ones of a list; plain -O2 makes a call of __builtin_popcount, which is slower */
static uint32_t ones(uint32_t list)
{
    list -= list >> 1 & 0x55555555;
    list = (list & 0x33333333) + (list >> 2 & 0x33333333);
    return ((list + (list >> 4)) & 0x0f0f0f0f) * 0x01010101 >> 24;
}

/* of the senders from the first one on that offer the sum, the lowest one with the fewest ones in its list */
static uint32_t fewest(const struct plain_net *x, uint32_t r, uint32_t first, uint32_t sum)
{
    uint32_t from = first, few = ones(x->held_list[r][first]);
    for (uint32_t s = first + 1; s < x->n; s++) {
        uint32_t list = x->held_list[r][s];
        if (list == 0 || (list >> r & 1) || x->held_label[r][s] + x->cost[r][s] != sum)
            continue;
        if (ones(list) < few) {
            few = ones(list);
            from = s;
        }
    }
    return from;
}

static void renew(struct plain_net *x)
{
    for (uint32_t r = 0; r < x->n; r++) {
        if (r == x->origin)
            continue;
        uint32_t best = MAX_LABEL + 1, from = 0;
        int equal = 0; /* another sender offers the best sum too */
        for (uint32_t s = 0; s < x->n; s++) {
            uint32_t list = x->held_list[r][s];
            if (list == 0 || (list >> r & 1))
                continue;
            uint32_t sum = x->held_label[r][s] + x->cost[r][s];
            if (sum < best) {
                best = sum;
                from = s;
                equal = 0;
            } else if (sum == best) {
                equal = 1;
            }
        }
        if (equal && best <= MAX_LABEL)
            from = fewest(x, r, from, best);
        if (best > MAX_LABEL) {
            x->row_list[r] = 0;
        } else {
            x->row_label[r] = best;
            x->row_from[r] = from;
            x->row_list[r] = x->held_list[r][from] | 1u << r;
        }
    }
}

static uint32_t all_nodes(uint32_t n)
{
    return n == 32 ? 0xffffffff : (1u << n) - 1;
}

/* a round: word r of marks has bit s where r hears s */
static void hear(struct plain_net *x, const uint32_t *marks)
{
    for (uint32_t r = 0; r < x->n; r++)
        for (uint32_t left = marks[r]; left; left &= left - 1) {
            uint32_t s = (uint32_t)__builtin_ctz(left);
            x->held_label[r][s] = x->row_label[s];
            x->held_list[r][s] = x->row_list[s];
        }
    renew(x);
}

/* 3 for a mark out of range, else 7 for one without an arc; arcs are in range, so that marks that all have their arc need no other test */
static int marks_fault(const struct plain_net *x, const uint32_t *marks)
{
    uint32_t without = 0, beyond = 0, absent = ~all_nodes(x->n);
    for (uint32_t r = 0; r < 32; r++)
        without |= marks[r] & ~x->arcs[r];
    if (without == 0)
        return 0;
    for (uint32_t r = 0; r < x->n; r++)
        beyond |= marks[r] & (absent | 1u << r);
    for (uint32_t r = x->n; r < 32; r++)
        beyond |= marks[r];
    return beyond ? 3 : 7;
}

int plain_round(struct plain_net *x, const uint32_t *marks, uint64_t count)
{
    if (count != 32)
        return 1;
    int number = marks_fault(x, marks);
    if (number)
        return number;
    hear(x, marks);
    return 0;
}

void plain_full_round(struct plain_net *x)
{
    hear(x, x->arcs);
}

static uint32_t get16(const uint8_t *p)
{
    return (uint32_t)p[0] << 8 | p[1];
}

static uint32_t get32(const uint8_t *p)
{
    return (uint32_t)p[0] << 24 | (uint32_t)p[1] << 16 | (uint32_t)p[2] << 8 | p[3];
}

static uint8_t *put16(uint8_t *p, uint32_t v)
{
    p[0] = v >> 8;
    p[1] = v;
    return p + 2;
}

static uint8_t *put32(uint8_t *p, uint32_t v)
{
    p[0] = v >> 24;
    p[1] = v >> 16;
    p[2] = v >> 8;
    p[3] = v;
    return p + 4;
}

static void fresh(struct plain_net *x, uint32_t n, uint32_t origin)
{
    memset(x, 0, sizeof *x);
    x->n = n;
    x->origin = origin;
    x->row_list[origin] = 1u << origin;
}

static struct plain_answer refused(struct plain_net *x, int number, uint64_t place)
{
    fresh(x, 1, 0);
    return (struct plain_answer){number, place};
}

static int arc_record(struct plain_net *x, const uint8_t *b, uint32_t *next)
{
    uint32_t s = b[0], r = b[1], cost = get16(b + 2);
    if (s >= x->n || r >= x->n || s == r || cost == 0)
        return 3;
    uint32_t rank = s * 32 + r;
    if (rank < *next)
        return 4;
    *next = rank + 1;
    x->arcs[r] |= 1u << s;
    x->cost[r][s] = cost;
    return 0;
}

static int row_record(struct plain_net *x, const uint8_t *b, uint32_t *next)
{
    uint32_t y = b[0], label = get32(b + 1), from = b[5], list = get32(b + 6);
    if (y >= x->n)
        return 3;
    uint32_t rank = 1024 + y;
    if (rank < *next)
        return 4;
    if (y == x->origin)
        return 5;
    if (label == 0 || label > MAX_LABEL)
        return 10;
    if (from >= x->n || from == y)
        return 11;
    if ((list & ~all_nodes(x->n)) || !(list >> y & 1))
        return 12;
    *next = rank + 1;
    x->row_label[y] = label;
    x->row_from[y] = from;
    x->row_list[y] = list;
    return 0;
}

static int report_record(struct plain_net *x, const uint8_t *b, uint32_t *next)
{
    uint32_t s = b[0], r = b[1], label = get32(b + 2), list = get32(b + 6);
    if (s >= x->n || r >= x->n || s == r)
        return 3;
    uint32_t rank = 1056 + s * 32 + r;
    if (rank < *next)
        return 4;
    if (!(x->arcs[r] >> s & 1))
        return 5;
    if (label > MAX_LABEL)
        return 10;
    if ((list & ~all_nodes(x->n)) || !(list >> s & 1))
        return 12;
    *next = rank + 1;
    x->held_label[r][s] = label;
    x->held_list[r][s] = list;
    return 0;
}

struct plain_answer plain_open(struct plain_net *x, const uint8_t *in, uint64_t size, uint64_t *used)
{
    *used = 0;
    if (size == 0)
        return refused(x, 1, 0);
    if (in[0] != 1)
        return refused(x, 2, 0);
    if (size < 3)
        return refused(x, 1, 0);
    if (in[1] == 0 || in[1] > 32 || in[2] >= in[1])
        return refused(x, 3, 0);
    fresh(x, in[1], in[2]);
    uint32_t next = 0; /* the least rank in image order that may follow */
    for (uint64_t at = 3; at < size;) {
        uint8_t kind = in[at];
        int number;
        if (kind == 0) {
            *used = at + 1;
            return (struct plain_answer){0, 0};
        }
        if (kind < 2 || kind > 4)
            return refused(x, 2, at);
        if (size - at - 1 < body_bytes[kind])
            return refused(x, 1, at);
        if (kind == 2)
            number = arc_record(x, in + at + 1, &next);
        else if (kind == 3)
            number = row_record(x, in + at + 1, &next);
        else
            number = report_record(x, in + at + 1, &next);
        if (number)
            return refused(x, number, at);
        at += 1 + body_bytes[kind];
    }
    return refused(x, 1, size);
}

static int marked_round(struct plain_net *x, const uint8_t *b)
{
    uint32_t marks[32];
    for (uint32_t r = 0; r < 32; r++)
        marks[r] = get32(b + 4 * r);
    return plain_round(x, marks, 32);
}

struct plain_answer plain_run(struct plain_net *x, const uint8_t *in, uint64_t size, uint64_t *rounds)
{
    uint64_t at;
    *rounds = 0;
    struct plain_answer opened = plain_open(x, in, size, &at);
    if (opened.number)
        return opened;
    while (at < size) {
        uint8_t kind = in[at];
        const uint8_t *b = in + at + 1;
        int number = 0;
        if (kind != 2 && (kind < 5 || kind > 7))
            return (struct plain_answer){2, at};
        if (size - at - 1 < body_bytes[kind])
            return (struct plain_answer){1, at};
        if (kind == 2)
            number = plain_change(x, b[0], b[1], get16(b + 2));
        else if (kind == 5)
            number = marked_round(x, b);
        else if (kind == 6)
            plain_full_round(x);
        else
            number = plain_grade(x, b[0], b[1], b[2]);
        if (number)
            return (struct plain_answer){number, at};
        *rounds += kind == 5 || kind == 6;
        at += 1 + body_bytes[kind];
    }
    return (struct plain_answer){0, 0};
}

/* only an arc holds a report */
static uint64_t image_length(const struct plain_net *x)
{
    uint64_t length = 4;
    for (uint32_t r = 0; r < x->n; r++) {
        length += 5 * ones(x->arcs[r]);
        if (r != x->origin && x->row_list[r])
            length += 11;
        for (uint32_t left = x->arcs[r]; left; left &= left - 1)
            if (x->held_list[r][__builtin_ctz(left)])
                length += 11;
    }
    return length;
}

int plain_image(const struct plain_net *x, uint8_t *out, uint64_t room, uint64_t *length)
{
    *length = 0;
    if (room < MAX_IMAGE && room < image_length(x))
        return 6;
    uint8_t *p = out;
    *p++ = 1;
    *p++ = x->n;
    *p++ = x->origin;
    for (uint32_t s = 0; s < x->n; s++)
        for (uint32_t r = 0; r < x->n; r++)
            if (x->arcs[r] >> s & 1) {
                *p++ = 2;
                *p++ = s;
                *p++ = r;
                p = put16(p, x->cost[r][s]);
            }
    for (uint32_t y = 0; y < x->n; y++)
        if (y != x->origin && x->row_list[y]) {
            *p++ = 3;
            *p++ = y;
            p = put32(p, x->row_label[y]);
            *p++ = x->row_from[y];
            p = put32(p, x->row_list[y]);
        }
    for (uint32_t s = 0; s < x->n; s++)
        for (uint32_t r = 0; r < x->n; r++)
            if (x->held_list[r][s]) {
                *p++ = 4;
                *p++ = s;
                *p++ = r;
                p = put32(p, x->held_label[r][s]);
                p = put32(p, x->held_list[r][s]);
            }
    *p++ = 0;
    *length = (uint64_t)(p - out);
    return 0;
}

static int given(uint32_t base, uint32_t n)
{
    if (base & 255)
        return 13;
    return n == 0 || n > 32 ? 3 : 0;
}

static uint64_t messages_length(uint32_t n)
{
    return (n + ENTRIES - 1) / ENTRIES * 4 + n * 20;
}

/* hops plus 1 is the ones of the list; the origin's row has its own */
static uint32_t metric(uint32_t list)
{
    uint32_t m = ones(list);
    return m - 1 < 15 ? m : 16;
}

int plain_write_messages(const struct plain_net *x, uint32_t base, uint8_t *out, uint64_t room, uint64_t *length)
{
    uint32_t n = x->n;
    *length = 0;
    int number = given(base, n);
    if (number)
        return number;
    uint64_t whole = messages_length(n);
    if (room < whole)
        return 6;
    uint8_t *p = out;
    for (uint32_t y = 0; y < n; y++) {
        if (y % ENTRIES == 0)
            p = put32(p, HEADER);
        p = put32(p, FAMILY);
        p = put32(p, base + y + 1);
        p = put32(p, MASK);
        p = put32(p, 0);
        p = put32(p, metric(x->row_list[y]));
    }
    *length = whole;
    return 0;
}

static int wrong(uint8_t metrics[32])
{
    memset(metrics, 0, 32);
    return 14;
}

int plain_read_messages(const uint8_t *in, uint64_t size, uint32_t base, uint32_t n, uint64_t *nodes, uint8_t metrics[32])
{
    *nodes = 0;
    memset(metrics, 0, 32);
    int number = given(base, n);
    if (number)
        return number;
    if (size != messages_length(n))
        return 14;
    const uint8_t *p = in;
    for (uint32_t y = 0; y < n;) {
        uint32_t end = n - y < ENTRIES ? n : y + ENTRIES;
        if (get32(p) != HEADER)
            return wrong(metrics);
        p += 4;
        for (; y < end; y++) {
            uint32_t m = get32(p + 16);
            if (get32(p) != FAMILY || get32(p + 4) != base + y + 1 || get32(p + 8) != MASK || get32(p + 12) != 0 || m - 1 > 15)
                return wrong(metrics);
            metrics[y] = m;
            p += 20;
        }
    }
    *nodes = n;
    return 0;
}

uint64_t plain_call(const uint8_t *run, uint64_t size, uint8_t *out, uint64_t room)
{
    struct plain_net x;
    uint64_t rounds, length;
    if (size > MAX_RUN)
        return 3;
    struct plain_answer ran = plain_run(&x, run, size, &rounds);
    if (ran.number)
        return 32 * ran.place + (uint64_t)ran.number;
    int number = plain_image(&x, out, room, &length);
    return number ? (uint64_t)number : 32 * length;
}
