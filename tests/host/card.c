#include "card.h"

#include <stdio.h>
#include <stdlib.h>
#include <string.h>
#include <sys/mman.h>
#include <unistd.h>

unsigned long calls_made, answers_seen[KAJAKULM_ANSWERS];

void fail(const char *file, int line, const char *what)
{
    fflush(stdout);
    fprintf(stderr, "%s:%d: call %lu: does not hold: %s\n", file, line, calls_made, what);
    exit(1);
}

/* ---- Blocks */

#ifdef GUARD_PAGES

/* How many octets the pages of a block have, without the guard pages before and after it. */
static size_t paged(size_t size)
{
    size_t page = (size_t)sysconf(_SC_PAGESIZE);
    return (size + page - 1) / page * page;
}

void *block_make(size_t size)
{
    size_t page = (size_t)sysconf(_SC_PAGESIZE), inner = paged(size);
    uint8_t *pages = mmap(NULL, inner + 2 * page, PROT_NONE, MAP_PRIVATE | MAP_ANONYMOUS, -1, 0);
    HOLDS(pages != MAP_FAILED);
    if (inner != 0)
        HOLDS(mprotect(pages + page, inner, PROT_READ | PROT_WRITE) == 0);
    return pages + page + inner - size;
}

void block_free(void *block, size_t size)
{
    size_t page = (size_t)sysconf(_SC_PAGESIZE), inner = paged(size);
    HOLDS(munmap((uint8_t *)block + size - inner - page, inner + 2 * page) == 0);
}

#else

void *block_make(size_t size)
{
    void *block = calloc(1, size);
    HOLDS(block != NULL || size == 0);
    return block;
}

void block_free(void *block, size_t size)
{
    (void)size;
    free(block);
}

#endif

/* A copy in a block of its own. */
static void *block_copy(const void *from, size_t size)
{
    void *block = block_make(size);
    if (size != 0)
        memcpy(block, from, size);
    return block;
}

static int are_same(const void *a, const void *b, size_t size)
{
    return size == 0 || memcmp(a, b, size) == 0;
}

/* ---- Addresses */

address fd(uint8_t last)
{
    address a = {{0xfd}};
    a.octets[15] = last;
    return a;
}

address fe80(uint8_t last)
{
    address a = {{0xfe, 0x80}};
    a.octets[15] = last;
    return a;
}

int is_same(const uint8_t *a, address b)
{
    return memcmp(a, b.octets, KAJAKULM_ADDRESS) == 0;
}

/* ---- Messages */

static void put(message *m, const void *octets, size_t count)
{
    HOLDS(count <= sizeof m->octets - m->length);
    memcpy(m->octets + m->length, octets, count);
    m->length += count;
}

void put_base(message *m, uint8_t instance, uint16_t rank, address dodagid)
{
    const uint8_t front[8] = {instance, 0, (uint8_t)(rank >> 8), (uint8_t)rank, 0x20};
    put(m, front, sizeof front);
    put(m, dodagid.octets, KAJAKULM_ADDRESS);
}

void put_option(message *m, uint8_t type, const uint8_t *body, size_t size)
{
    const uint8_t front[2] = {type, (uint8_t)size};
    HOLDS(size <= 255);
    put(m, front, sizeof front);
    put(m, body, size);
}

void put_configuration(message *m, uint16_t step, uint8_t lifetime, uint16_t unit)
{
    const uint8_t body[14] = {[6] = (uint8_t)(step >> 8),
                              [7] = (uint8_t)step,
                              [11] = lifetime,
                              [12] = (uint8_t)(unit >> 8),
                              [13] = (uint8_t)unit};
    put_option(m, 0x04, body, sizeof body);
}

static void put_discovery(message *m, uint8_t type, discovery d, uint8_t number, const address *vector, size_t count)
{
    uint8_t body[255];
    size_t size = 3, each = (size_t)KAJAKULM_ADDRESS - d.compr;
    body[0] = (uint8_t)(d.flag << 7 | d.h << 6 | d.compr << 1 | d.l >> 1);
    body[1] = (uint8_t)((d.l & 1) << 7 | d.limit);
    body[2] = number;
    for (size_t i = 0; i < count; i++) {
        HOLDS(size + each <= sizeof body);
        memcpy(body + size, vector[i].octets + d.compr, each);
        size += each;
    }
    put_option(m, type, body, size);
}

void put_rreq(message *m, discovery d, const address *vector, size_t count)
{
    put_discovery(m, 0x0b, d, d.number, vector, count);
}

void put_rrep(message *m, discovery d, const address *vector, size_t count)
{
    put_discovery(m, 0x0c, d, (uint8_t)(d.number << 2), vector, count);
}

void put_art(message *m, uint8_t seq, uint8_t plen, address target)
{
    uint8_t body[18] = {seq, plen};
    size_t size = plen == 0 ? KAJAKULM_ADDRESS : ((size_t)plen + 7) / 8;
    memcpy(body + 2, target.octets, size);
    put_option(m, 0x0d, body, 2 + size);
}

message whole_request(uint8_t instance)
{
    message m = {0};
    put_base(&m, instance, 768, fd(1));
    put_rreq(&m, (discovery){.flag = 1, .h = 1, .l = 1, .limit = 7, .number = 240}, NULL, 0);
    put_art(&m, 0, 0, fd(9));
    return m;
}

/* ---- A node */

/* Zeros, or NULL where there are none. */
static void *zeros(size_t count, size_t each)
{
    void *block;
    if (count == 0)
        return NULL;
    block = block_make(count * each);
    memset(block, 0, count * each);
    return block;
}

static void zeros_free(void *block, size_t count, size_t each)
{
    if (block != NULL)
        block_free(block, count * each);
}

card card_make(uint8_t last, size_t instance_count, size_t route_count, size_t forward_size, size_t reply_size)
{
    card c = {.clock = KAJAKULM_FRESH_CLOCK,
              .seq = KAJAKULM_FRESH_SEQ,
              .instance_count = instance_count,
              .route_count = route_count,
              .forward_size = forward_size,
              .reply_size = reply_size};
    memcpy(c.own.receiving, fd(last).octets, KAJAKULM_ADDRESS);
    memcpy(c.own.sending, fd(last).octets, KAJAKULM_ADDRESS);
    c.instances = zeros(instance_count, sizeof *c.instances);
    c.routes = zeros(route_count, sizeof *c.routes);
    c.forward = zeros(forward_size, 1);
    c.reply = zeros(reply_size, 1);
    c.tally = zeros(1, sizeof *c.tally);
    return c;
}

void card_free(card *c)
{
    zeros_free(c->instances, c->instance_count, sizeof *c->instances);
    zeros_free(c->routes, c->route_count, sizeof *c->routes);
    zeros_free(c->forward, c->forward_size, 1);
    zeros_free(c->reply, c->reply_size, 1);
    zeros_free(c->tally, 1, sizeof *c->tally);
}

kajakulm_link good_link(uint8_t last)
{
    kajakulm_link link = {.upward = 1, .downward = 1, .increase = 256, .group = 1};
    memcpy(link.neighbour, fe80(last).octets, KAJAKULM_ADDRESS);
    return link;
}

/* ---- What holds of every call */

static card card_copy(const card *c)
{
    card copy = *c;
    copy.instances = block_copy(c->instances, c->instance_count * sizeof *c->instances);
    copy.routes = block_copy(c->routes, c->route_count * sizeof *c->routes);
    copy.forward = block_copy(c->forward, c->forward_size);
    copy.reply = block_copy(c->reply, c->reply_size);
    copy.tally = block_copy(c->tally, sizeof *c->tally);
    return copy;
}

/* A length and a way: nowhere exactly where the length is 0, and an address only for a neighbour. */
static void check_sent(uint64_t length, uint8_t way, const uint8_t *neighbour, size_t size)
{
    static const uint8_t zero[KAJAKULM_ADDRESS];
    HOLDS(way <= KAJAKULM_CALLER);
    HOLDS((length == 0) == (way == KAJAKULM_NOWHERE));
    HOLDS(way == KAJAKULM_NEIGHBOUR || memcmp(neighbour, zero, sizeof zero) == 0);
    HOLDS(length <= size);
}

/* The count of the answer is raised by one, modulo 2^32, and no other. */
static void check_tally(const card *before, const card *after, uint8_t answer)
{
    HOLDS(answer < KAJAKULM_ANSWERS);
    for (unsigned i = 0; i < KAJAKULM_ANSWERS; i++)
        HOLDS(after->tally->counts[i] == (uint32_t)(before->tally->counts[i] + (i == answer)));
}

static void check_refused(const card *before, const card *after, const kajakulm_outcome *o)
{
    HOLDS(o->clock == before->clock);
    HOLDS(o->seq == before->seq);
    HOLDS(o->forward_length == 0);
    HOLDS(o->reply_length == 0);
    HOLDS(are_same(before->instances, after->instances, after->instance_count * sizeof *after->instances));
    HOLDS(are_same(before->routes, after->routes, after->route_count * sizeof *after->routes));
    HOLDS(are_same(before->forward, after->forward, after->forward_size));
    HOLDS(are_same(before->reply, after->reply, after->reply_size));
}

/* Rows are compared by their fields: what stands in the padding of a row that an accepted call wrote is open. */
enum { ROW_FIELDS = 42 + 8 * 18, ROUTE_FIELDS = 4 + 3 * KAJAKULM_ADDRESS }; /* octets before the padding */

static int is_same_row(const kajakulm_instance_row *a, const kajakulm_instance_row *b)
{
    return memcmp(a, b, ROW_FIELDS) == 0 && a->deadline == b->deadline;
}

static int is_same_route(const kajakulm_route_row *a, const kajakulm_route_row *b)
{
    return memcmp(a, b, ROUTE_FIELDS) == 0 && a->deadline == b->deadline;
}

/* Zeros in the padding of all rows, so that check_refused can compare whole tables octet for octet. */
static void clear_padding(card *c)
{
    for (size_t i = 0; i < c->instance_count; i++)
        memset((uint8_t *)&c->instances[i] + ROW_FIELDS, 0, offsetof(kajakulm_instance_row, deadline) - ROW_FIELDS);
    for (size_t i = 0; i < c->route_count; i++)
        memset((uint8_t *)&c->routes[i] + ROUTE_FIELDS, 0, offsetof(kajakulm_route_row, deadline) - ROUTE_FIELDS);
}

/* A row that an accepted call wrote has no value but those that 01 names. */
static void check_row(const kajakulm_instance_row *row)
{
    HOLDS(row->kind == KAJAKULM_REQUEST || row->kind == KAJAKULM_REPLY);
    HOLDS(row->s <= 1 && row->h <= 1 && row->replied <= 1 && row->endless <= 1);
    HOLDS(row->count <= KAJAKULM_TARGETS_MOST);
    HOLDS(row->deadline <= KAJAKULM_DEADLINE_LAST);
    for (unsigned i = 0; i < row->count; i++)
        HOLDS(row->targets[i].plen <= KAJAKULM_PREFIX_MOST);
}

/* At most two instance rows and one route are written, and octets past the lengths keep what they held. */
static void check_accepted(const card *before, const card *after, uint64_t time, const kajakulm_outcome *o)
{
    size_t rows = 0, routes = 0, f = (size_t)o->forward_length, r = (size_t)o->reply_length;
    HOLDS(o->clock == time);
    HOLDS(o->seq != 0);
    HOLDS(are_same(before->forward + f, after->forward + f, after->forward_size - f));
    HOLDS(are_same(before->reply + r, after->reply + r, after->reply_size - r));
    for (size_t i = 0; i < after->instance_count; i++) {
        if (is_same_row(&before->instances[i], &after->instances[i]))
            continue;
        rows++;
        check_row(&after->instances[i]);
    }
    for (size_t i = 0; i < after->route_count; i++) {
        if (is_same_route(&before->routes[i], &after->routes[i]))
            continue;
        routes++;
        HOLDS(after->routes[i].kind == KAJAKULM_ROUTE && after->routes[i].endless <= 1);
    }
    HOLDS(rows <= 2 && routes <= 1);
}

/* What the call left is taken over by the card. */
static void check_call(card *before, card *c, uint64_t time, const kajakulm_outcome *o)
{
    calls_made++;
    check_tally(before, c, o->answer);
    check_sent(o->forward_length, o->forward_way, o->forward_neighbour, c->forward_size);
    check_sent(o->reply_length, o->reply_way, o->reply_neighbour, c->reply_size);
    HOLDS(o->reply_way != KAJAKULM_CALLER);
    if (o->answer == KAJAKULM_DONE) {
        check_accepted(before, c, time, o);
        clear_padding(c);
    } else {
        check_refused(before, c, o);
    }
    answers_seen[o->answer]++;
    c->clock = o->clock;
    c->seq = o->seq;
    card_free(before);
}

kajakulm_outcome card_hear(card *c, uint64_t time, const uint8_t *octets, size_t count, kajakulm_link link)
{
    card before = card_copy(c);
    uint8_t *lent = block_copy(octets, count);
    kajakulm_outcome o =
        kajakulm_message(c->instances, c->instance_count, c->routes, c->route_count, c->forward, c->forward_size,
                         c->reply, c->reply_size, lent, count, c->own, c->clock, c->seq, time, link, c->tally);
    HOLDS(are_same(lent, octets, count));
    HOLDS(kajakulm_is_reply(lent, count) <= 1); /* it reads the block, and nothing past its end */
    block_free(lent, count);
    check_call(&before, c, time, &o);
    return o;
}

kajakulm_outcome card_start(card *c, uint64_t time, const kajakulm_target *targets, size_t count,
                            kajakulm_start_fields start)
{
    card before = card_copy(c);
    kajakulm_target *lent = block_copy(targets, count * sizeof *targets);
    kajakulm_outcome o =
        kajakulm_start(c->instances, c->instance_count, c->routes, c->route_count, c->forward, c->forward_size,
                       c->reply, c->reply_size, lent, count, c->own, c->clock, c->seq, time, start, c->tally);
    HOLDS(are_same(lent, targets, count * sizeof *targets));
    block_free(lent, count * sizeof *targets);
    check_call(&before, c, time, &o);
    return o;
}

/* ---- A small generator of numbers (splitmix64) */

uint64_t random_next(void)
{
    static uint64_t state = 2026;
    uint64_t z = state += UINT64_C(0x9e3779b97f4a7c15);
    z = (z ^ z >> 30) * UINT64_C(0xbf58476d1ce4e5b9);
    z = (z ^ z >> 27) * UINT64_C(0x94d049bb133111eb);
    return z ^ z >> 31;
}

uint64_t random_below(uint64_t bound)
{
    return random_next() % bound;
}

void random_fill(void *at, size_t size)
{
    uint8_t *octets = at;
    for (size_t i = 0; i < size; i++)
        octets[i] = (uint8_t)random_next();
}
