/* A plain C version of the rules of document 01 and change requests One to Four, written by hand to measure the proved one against. */
#ifndef PLAIN_H
#define PLAIN_H
#include <stdint.h>

struct plain_net {
    uint32_t n, origin;
    uint32_t arcs[32];           /* [receiver]: bit s is 1 where the arc from s is present */
    uint32_t cost[32][32];       /* [receiver][sender] */
    uint32_t held_label[32][32]; /* [receiver][sender] */
    uint32_t held_list[32][32];  /* 0: empty */
    uint32_t row_label[32], row_from[32], row_list[32]; /* list 0: no route */
};

/* number and place; both 0 where accepted */
struct plain_answer {
    int number;
    uint64_t place;
};

int plain_change(struct plain_net *x, uint32_t sender, uint32_t receiver, uint32_t cost);
int plain_grade(struct plain_net *x, uint32_t sender, uint32_t receiver, uint32_t grade);
/* the receiver's arcs; 0 where it is refused */
int plain_arcs(const struct plain_net *x, uint32_t receiver, uint32_t *word);
int plain_round(struct plain_net *x, const uint32_t *marks, uint64_t count);
void plain_full_round(struct plain_net *x);

/* x becomes the image's network, or the fresh network of one node where it is refused */
struct plain_answer plain_open(struct plain_net *x, const uint8_t *in, uint64_t size, uint64_t *used);
struct plain_answer plain_run(struct plain_net *x, const uint8_t *in, uint64_t size, uint64_t *rounds);
/* writes nothing where it is refused; length is then 0 */
int plain_image(const struct plain_net *x, uint8_t *out, uint64_t room, uint64_t *length);
/* the rows as RIP messages; writes nothing where it is refused; length is then 0 */
int plain_write_messages(const struct plain_net *x, uint32_t base, uint8_t *out, uint64_t room, uint64_t *length);
/* messages read back: metrics by node, 0 from n on; refused, no nodes and only 0 */
int plain_read_messages(const uint8_t *in, uint64_t size, uint32_t base, uint32_t n, uint64_t *nodes, uint8_t metrics[32]);
/* the C call: 32 times the length of the image written, or 32 times the place plus the number */
uint64_t plain_call(const uint8_t *run, uint64_t size, uint8_t *out, uint64_t room);
#endif
