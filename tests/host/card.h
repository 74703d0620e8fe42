/* What the host's tests share: a node whose records stand in blocks of exactly the size that is lent, calls of which
 * each is checked, and messages put together octet by octet. */
#ifndef CARD_H
#define CARD_H

#include "kajakulm.h"

/* ---- Ends the program with a line if something does not hold */

#define HOLDS(fact) ((fact) ? (void)0 : fail(__FILE__, __LINE__, #fact))
_Noreturn void fail(const char *file, int line, const char *what);

/* ---- Blocks. With -DGUARD_PAGES a block ends at a page that cannot be touched, so that a step past its end stops the
 * program even in the library, which no sanitizer knows. Without, it is one of the heap, for valgrind. */

void *block_make(size_t size);
void block_free(void *block, size_t size);

/* ---- Addresses */

typedef struct {
    uint8_t octets[KAJAKULM_ADDRESS];
} address;

address fd(uint8_t last);   /* fd00::last */
address fe80(uint8_t last); /* fe80::last */
int is_same(const uint8_t *a, address b);

/* ---- Messages */

typedef struct {
    size_t length;
    uint8_t octets[1400];
} message;

/* An RREQ or RREP without its vector: `flag` is S or G, `number` Orig SeqNo or Delta. */
typedef struct {
    uint8_t flag, h, compr, l, limit, number;
} discovery;

void put_base(message *m, uint8_t instance, uint16_t rank, address dodagid);
void put_option(message *m, uint8_t type, const uint8_t *body, size_t size);
void put_configuration(message *m, uint16_t step, uint8_t lifetime, uint16_t unit);
void put_rreq(message *m, discovery d, const address *vector, size_t count);
void put_rrep(message *m, discovery d, const address *vector, size_t count);
void put_art(message *m, uint8_t seq, uint8_t plen, address target);

/* The request of 01's whole example, but with any RPLInstanceID. */
message whole_request(uint8_t instance);

/* ---- A node */

typedef struct {
    kajakulm_settings own;
    uint64_t clock;
    uint8_t seq;
    size_t instance_count, route_count, forward_size, reply_size;
    kajakulm_instance_row *instances;
    kajakulm_route_row *routes;
    uint8_t *forward, *reply;
    kajakulm_tally *tally;
} card;

/* Fresh, both own addresses fd00::last. A count or size of 0 is lent as NULL. */
card card_make(uint8_t last, size_t instance_count, size_t route_count, size_t forward_size, size_t reply_size);
void card_free(card *c);

/* A link from fe80::last that is good both ways, increase 256, to the group. */
kajakulm_link good_link(uint8_t last);

/* One call, from exactly sized blocks, with all that holds of every call checked: see check_call in card.c. */
kajakulm_outcome card_hear(card *c, uint64_t time, const uint8_t *octets, size_t count, kajakulm_link link);
kajakulm_outcome card_start(card *c, uint64_t time, const kajakulm_target *targets, size_t count,
                            kajakulm_start_fields start);

/* ---- How many calls were made, and how many had each answer */

extern unsigned long calls_made, answers_seen[KAJAKULM_ANSWERS];

/* ---- A small generator of numbers with a fixed seed */

uint64_t random_next(void);
uint64_t random_below(uint64_t bound);
void random_fill(void *at, size_t size);

#endif
