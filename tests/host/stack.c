/* How deep the stack of a call goes. Each call runs in a thread of its own, on a stack that was filled with one octet
 * before; the deepest octet that changed tells. The tables have 4,000 rows. Linked with -z now, so that no call is the
 * first one of a library's function and has it searched for. */
#include <pthread.h>
#include <stdio.h>
#include <string.h>
#include <sys/mman.h>

#include "card.h"

enum { ROWS = 4000, STACK = 1 << 20, PAINT = 0xa5, MOST = 16 * 1024 };

typedef struct {
    card *c;
    message m;                      /* a message, or */
    const kajakulm_target *targets; /* targets of a start */
    size_t target_count;
    kajakulm_link link;
    kajakulm_start_fields start;
    uint64_t time;
    kajakulm_outcome outcome;
    uint8_t *top; /* the frame that makes the call */
} job;

/* The call itself, with nothing else in its thread. */
static void *run(void *given)
{
    job *j = given;
    card *c = j->c;
    j->top = __builtin_frame_address(0);
    if (j->targets == NULL)
        j->outcome = kajakulm_message(c->instances, c->instance_count, c->routes, c->route_count, c->forward,
                                      c->forward_size, c->reply, c->reply_size, j->m.octets, j->m.length, c->own,
                                      c->clock, c->seq, j->time, j->link, c->tally);
    else
        j->outcome = kajakulm_start(c->instances, c->instance_count, c->routes, c->route_count, c->forward,
                                    c->forward_size, c->reply, c->reply_size, j->targets, j->target_count, c->own,
                                    c->clock, c->seq, j->time, j->start, c->tally);
    return NULL;
}

static size_t depth_of(job *j)
{
    uint8_t *stack = mmap(NULL, STACK, PROT_READ | PROT_WRITE, MAP_PRIVATE | MAP_ANONYMOUS, -1, 0), *deepest = stack;
    pthread_attr_t attributes;
    pthread_t thread;
    HOLDS(stack != MAP_FAILED);
    memset(stack, PAINT, STACK);
    HOLDS(pthread_attr_init(&attributes) == 0 && pthread_attr_setstack(&attributes, stack, STACK) == 0);
    HOLDS(pthread_create(&thread, &attributes, run, j) == 0 && pthread_join(thread, NULL) == 0);
    pthread_attr_destroy(&attributes);
    while (*deepest == PAINT)
        deepest++;
    HOLDS(deepest > stack && deepest < j->top);
    size_t depth = (size_t)(j->top - deepest);
    munmap(stack, STACK);
    j->c->clock = j->outcome.clock;
    j->c->seq = j->outcome.seq;
    return depth;
}

static size_t most;

static void measure(job *j, unsigned want, const char *what)
{
    const size_t depth = depth_of(j);
    if (depth > most)
        most = depth;
    printf("stack: %5zu octets, answer %2u: %s\n", depth, j->outcome.answer, what);
    HOLDS(j->outcome.answer == want);
}

/* 4,000 live rows of different keys in both tables, but for the last five of each, which are free. */
static card full_card(void)
{
    card c = card_make(2, ROWS, ROWS, KAJAKULM_BUFFER_LEAST, KAJAKULM_BUFFER_LEAST);
    for (size_t i = 0; i < ROWS - 5; i++) {
        const uint8_t high = (uint8_t)(i >> 8), low = (uint8_t)i;
        c.instances[i] =
            (kajakulm_instance_row){.kind = 1 + i % 2, .instance = low, .endless = 1, .dodagid = {0xfd, high, low}};
        c.routes[i] = (kajakulm_route_row){.kind = 1, .endless = 1, .source = {0xfd, high}, .destination = {0xfd, low}};
    }
    return c;
}

/* With H 0: a vector of 14 addresses. 8 targets, of which the last is ours if `ours`. */
static message request(uint8_t h, int ours)
{
    address vector[14];
    message m = {0};
    for (uint8_t i = 0; i < 14; i++)
        vector[i] = fd((uint8_t)(20 + i));
    put_base(&m, 0x81, 256, fd(1));
    put_configuration(&m, 256, 10, 10);
    put_rreq(&m, (discovery){.flag = 1, .h = h, .l = 1, .number = 240}, vector, h ? 0 : 14);
    for (uint8_t i = 1; i < 8; i++)
        put_art(&m, i, 127, fd((uint8_t)(100 + 2 * i)));
    put_art(&m, 0, 0, fd(ours ? 2 : 99));
    return m;
}

static message reply(uint8_t h, const address *vector, size_t count)
{
    message m = {0};
    put_base(&m, 0x81, 256, fd(9));
    put_configuration(&m, 256, 10, 10);
    put_rrep(&m, (discovery){.h = h, .l = 1}, vector, h ? 0 : count);
    put_art(&m, 7, 0, fd(1));
    return m;
}

static void requests(void)
{
    static const char *const what[] = {"a request with a vector, sent on",
                                       "a request with a vector, sent on and replied to",
                                       "a hop-by-hop request, sent on", "a hop-by-hop request, sent on and replied to"};
    for (unsigned i = 0; i < 4; i++) {
        card c = full_card();
        job j = {.c = &c, .m = request(i / 2, i % 2), .link = good_link(5)};
        measure(&j, KAJAKULM_DONE, what[i]);
        HOLDS(j.outcome.forward_length > 0 && (j.outcome.reply_length > 0) == (i % 2 == 1));
        card_free(&c);
    }
}

static void replies(void)
{
    static const char *const what[] = {"a symmetric reply with a vector", "an asymmetric reply with a vector",
                                       "a symmetric hop-by-hop reply", "an asymmetric hop-by-hop reply"};
    for (unsigned i = 0; i < 4; i++) {
        const address vector[3] = {fd(20), fd(i % 2 == 0 ? 2 : 21), fd(22)};
        card c = full_card();
        job j = {.c = &c, .m = request(i / 2, 0), .link = good_link(5)};
        run(&j);
        HOLDS(j.outcome.answer == KAJAKULM_DONE);
        j.m = reply(i / 2, vector, 3);
        j.link.group = i % 2;
        measure(&j, KAJAKULM_DONE, what[i]);
        HOLDS(j.outcome.forward_length > 0);
        card_free(&c);
    }
}

/* 20 targets, of which 8 differ; then the reply that hands the path to the caller. */
static void start_and_path(void)
{
    kajakulm_target targets[20] = {{0}};
    const address vector[3] = {fd(20), fd(21), fd(22)};
    card c = full_card();
    job j = {
        .c = &c, .targets = targets, .target_count = 20, .link = good_link(5), .start = {.instance = 0x81, .l = 1}};
    memcpy(c.own.receiving, fd(1).octets, KAJAKULM_ADDRESS);
    memcpy(c.own.sending, fd(1).octets, KAJAKULM_ADDRESS);
    for (unsigned i = 0; i < 20; i++)
        targets[i].addr[15] = (uint8_t)(i % 8);
    measure(&j, KAJAKULM_DONE, "a start");
    j.targets = NULL;
    j.m = reply(0, vector, 3);
    measure(&j, KAJAKULM_DONE, "the reply to it");
    HOLDS(j.outcome.forward_way == KAJAKULM_CALLER);
    card_free(&c);
}

static void refusals(void)
{
    card c = full_card();
    job j = {.c = &c, .m = request(0, 1), .link = good_link(5)};
    for (size_t i = ROWS - 5; i < ROWS - 1; i++) {
        c.instances[i] = (kajakulm_instance_row){.kind = 1, .endless = 1, .dodagid = {0xfc, (uint8_t)i}};
    }
    measure(&j, KAJAKULM_NO_ROW, "no row for the reply");
    c.routes[ROWS - 1] = c.routes[ROWS - 6];
    measure(&j, KAJAKULM_WRONG_STATE, "two routes of one key");
    c.instances[ROWS - 1] = c.instances[ROWS - 2];
    measure(&j, KAJAKULM_WRONG_STATE, "two rows of one key");
    card_free(&c);
}

int main(void)
{
    requests();
    replies();
    start_and_path();
    refusals();
    printf("stack: deepest %zu of %d octets\n", most, MOST);
    HOLDS(most <= MOST);
    return 0;
}
