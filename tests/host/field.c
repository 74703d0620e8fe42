/* What a host should know of the rules in the field (docs/HOST.md, "In the field"): each fact as a short list of calls.
 * A line has the answer and what was done. tools/host compares the headings and lines with those in docs/HOST.md. */
#include <stdarg.h>
#include <stdio.h>
#include <string.h>

#include "card.h"

enum { SECOND = 1000, DAY = 86400 * SECOND };

/* OrigNode, two routers, TargNode: their addresses are fd00::1, 2, 3 and 9; on the air, fe80:: of the same numbers. */
enum { A = 1, B = 2, C = 3, T = 9 };

/* ---- Telling */

static void fact(const char *heading)
{
    printf("### %s\n", heading);
}

__attribute__((format(printf, 3, 4))) static void tell(unsigned answer, unsigned want, const char *format, ...)
{
    va_list arguments;
    printf("    %2u  ", answer);
    va_start(arguments, format);
    vprintf(format, arguments);
    va_end(arguments);
    printf("\n");
    HOLDS(answer == want);
}

/* A start whose answer `started` checked. */
#define DID(...) tell(KAJAKULM_DONE, KAJAKULM_DONE, __VA_ARGS__)

/* What is seen in a table or an outcome after a call. */
__attribute__((format(printf, 1, 2))) static void show(const char *format, ...)
{
    va_list arguments;
    printf("        ");
    va_start(arguments, format);
    vprintf(format, arguments);
    va_end(arguments);
    printf("\n");
}

/* ---- Cards and what passes between them */

static card make(uint8_t last, size_t rows, size_t routes)
{
    return card_make(last, rows, routes, KAJAKULM_BUFFER_LEAST, KAJAKULM_BUFFER_LEAST);
}

/* One target. */
static kajakulm_outcome start_for(card *c, uint64_t time, uint8_t target, kajakulm_start_fields s)
{
    kajakulm_target t = {0};
    memcpy(t.addr, fd(target).octets, KAJAKULM_ADDRESS);
    return card_start(c, time, &t, 1, s);
}

static message forwarded(const card *c, const kajakulm_outcome *o)
{
    message m = {.length = (size_t)o->forward_length};
    memcpy(m.octets, c->forward, m.length);
    return m;
}

static message replied(const card *c, const kajakulm_outcome *o)
{
    message m = {.length = (size_t)o->reply_length};
    memcpy(m.octets, c->reply, m.length);
    return m;
}

/* The start's outcome must be 0; what it sends. */
static message started(card *c, uint64_t time, uint8_t target, kajakulm_start_fields s)
{
    kajakulm_outcome o = start_for(c, time, target, s);
    HOLDS(o.answer == KAJAKULM_DONE);
    return forwarded(c, &o);
}

/* A link that is good both ways, or one way only. */
enum { WELL, NOT_FROM_US, NOT_TO_US };

static kajakulm_outcome hear_by(card *c, uint64_t time, message m, uint8_t from, int link, int group)
{
    kajakulm_link facts = kajakulm_link_facts(m.octets, m.length, fe80(from).octets, link != NOT_FROM_US,
                                              link != NOT_TO_US, KAJAKULM_RANK_STEP, group);
    return card_hear(c, time, m.octets, m.length, facts);
}

static kajakulm_outcome hear(card *c, uint64_t time, message m, uint8_t from)
{
    return hear_by(c, time, m, from, WELL, 1);
}

static kajakulm_outcome hear_alone(card *c, uint64_t time, message m, uint8_t from)
{
    return hear_by(c, time, m, from, WELL, 0);
}

static unsigned live_rows(const card *c, uint64_t time)
{
    unsigned live = 0;
    for (size_t i = 0; i < c->instance_count; i++)
        live += (c->instances[i].kind == KAJAKULM_REQUEST || c->instances[i].kind == KAJAKULM_REPLY) &&
                (c->instances[i].endless != 0 || c->instances[i].deadline > time);
    return live;
}

static unsigned used_routes(const card *c)
{
    unsigned used = 0;
    for (size_t i = 0; i < c->route_count; i++)
        used += c->routes[i].kind == KAJAKULM_ROUTE;
    return used;
}

/* ---- 13 */

/* A starts once, then sixteen others, then the first again. B hears the first and the last. */
static message first_again(card *a, card *b, uint8_t h)
{
    kajakulm_start_fields s = {.instance = 1, .h = h, .l = KAJAKULM_L_16_S};
    message m = started(a, 0, T, s);
    DID("A starts RPLInstanceID 1 (H %u, L 1); its number is %u", h, a->seq);
    tell(hear(b, 0, m, A).answer, KAJAKULM_DONE, "B hears it%s", h ? ", and has an endless route to A" : "");
    for (s.instance = 2; s.instance < 18; s.instance++)
        started(a, 0, T, s);
    DID("A starts sixteen others, which B does not hear; its number is %u", a->seq);
    s.instance = 1;
    m = started(a, 16 * SECOND, T, s);
    DID("16 s later A starts RPLInstanceID 1 again; its number is %u", a->seq);
    return m;
}

/* The least number of other starts after which B refuses A, where B's endless route has number seq + 1. */
static unsigned least_others(uint8_t seq)
{
    for (unsigned others = 0;; others++) {
        kajakulm_start_fields s = {.instance = 1, .h = 1, .l = KAJAKULM_L_16_S};
        card a = make(A, 32, 4), b = make(B, 4, 4);
        unsigned answer;
        a.seq = seq;
        HOLDS(hear(&b, 0, started(&a, 0, T, s), A).answer == KAJAKULM_DONE);
        for (s.instance = 2; s.instance < 2 + others; s.instance++)
            started(&a, 0, T, s);
        s.instance = 1;
        answer = hear(&b, 16 * SECOND, started(&a, 16 * SECOND, T, s), A).answer;
        card_free(&a);
        card_free(&b);
        if (answer == KAJAKULM_STALE)
            return others;
    }
}

static void old_routes(void)
{
    card a = make(A, 32, 4), b = make(B, 4, 4);
    message m;
    fact("13: a hop-by-hop route outlives its number");
    m = first_again(&a, &b, 1);
    HOLDS(b.routes[0].endless && live_rows(&b, 16 * SECOND) == 0);
    tell(hear(&b, 16 * SECOND, m, A).answer, KAJAKULM_STALE,
         "B hears it: its row has died, its route has not, and 3 is older than 241");
    b.routes[0].kind = KAJAKULM_NOT_IN_USE;
    tell(hear(&b, 16 * SECOND, m, A).answer, KAJAKULM_DONE,
         "B's host takes the old route out of use, and B hears it once more");
    card_free(&a);
    card_free(&b);
    a = make(A, 32, 4);
    b = make(B, 4, 4);
    m = first_again(&a, &b, 0);
    tell(hear(&b, 16 * SECOND, m, A).answer, KAJAKULM_DONE,
         "B hears it: with H 0 there is no route that could refuse it");
    show("with H 1, a route of number 241 refuses A from %u other starts on", least_others(240));
    show("with H 1, a route of number 10 refuses A from %u other starts on", least_others(9));
    card_free(&a);
    card_free(&b);
}

static void forgotten_number(void)
{
    kajakulm_start_fields s = {.instance = 1, .h = 1, .l = KAJAKULM_L_ENDLESS};
    card a = make(A, 4, 4), b = make(B, 8, 8);
    message m;
    fact("13: a node that forgot its own number");
    a.seq = 242;
    m = started(&a, 0, T, s);
    tell(hear(&b, 0, m, A).answer, KAJAKULM_DONE, "B hears a start of A with number 243");
    card_free(&a);
    a = make(A, 4, 4);
    s.l = KAJAKULM_L_16_S;
    for (unsigned i = 1; i <= 4; i++) {
        static const unsigned want[] = {KAJAKULM_STALE, KAJAKULM_STALE, KAJAKULM_NOTHING_NEW, KAJAKULM_DONE};
        m = started(&a, 16 * SECOND * i, T, s);
        tell(hear(&b, 16 * SECOND * i, m, A).answer, want[i - 1],
             i == 1 ? "A was switched off and is fresh again: B hears its start with number %u"
                    : "16 s later B hears the next start of A, with number %u",
             a.seq);
    }
    card_free(&a);
    card_free(&b);
}

static void past_127(void)
{
    const kajakulm_start_fields s = {.instance = 1, .h = 0, .l = KAJAKULM_L_16_S};
    card a = make(A, 4, 4), b = make(B, 4, 4);
    message m;
    fact("13: the number after 127 is 1");
    a.seq = 126;
    m = started(&a, 0, T, s);
    tell(hear(&b, 100, m, A).answer, KAJAKULM_DONE, "B hears a start of A with number 127, 0.1 s after it was sent");
    m = started(&a, 16 * SECOND, T, s);
    HOLDS(a.seq == 1);
    tell(hear(&b, 16 * SECOND + 50, m, A).answer, KAJAKULM_STALE,
         "A starts again after 16 s, with number 1. B hears it 0.05 s later: its row has 0.05 s to live");
    m = started(&a, 32 * SECOND, T, s);
    tell(hear(&b, 32 * SECOND + 50, m, A).answer, KAJAKULM_DONE,
         "A starts again after 16 s; B hears it: its row has died");
    card_free(&a);
    card_free(&b);
}

/* ---- 17 */

/* A discovery of T by A through B, hop by hop: request there, reply back. B's answers to the two. */
static void discovery_through(card *a, card *b, card *t, uint64_t time, uint8_t instance, unsigned answers[2])
{
    kajakulm_start_fields s = {.instance = instance, .h = 1, .l = KAJAKULM_L_16_S};
    kajakulm_outcome o = hear(b, time, started(a, time, T, s), A);
    answers[0] = o.answer;
    answers[1] = KAJAKULM_NO_PARTNER;
    if (o.answer != KAJAKULM_DONE)
        return;
    o = hear(t, time, forwarded(b, &o), B);
    HOLDS(o.answer == KAJAKULM_DONE && o.reply_way == KAJAKULM_NEIGHBOUR && is_same(o.reply_neighbour, fe80(B)));
    o = hear_alone(b, time, replied(t, &o), T);
    answers[1] = o.answer;
    HOLDS(o.forward_way == KAJAKULM_NEIGHBOUR && is_same(o.forward_neighbour, fe80(A)));
    HOLDS(hear_alone(a, time, forwarded(b, &o), B).answer == KAJAKULM_DONE);
}

static void full_of_routes(void)
{
    card a = make(A, 8, 8), b = make(B, 4, 4), t = make(T, 8, 8);
    unsigned answers[2];
    fact("17: endless routes fill the table");
    for (uint8_t instance = 1; instance <= 2; instance++) {
        discovery_through(&a, &b, &t, (uint64_t)20 * SECOND * instance, instance, answers);
        tell(answers[0], KAJAKULM_DONE, "B, with 4 routes, hears the request of discovery %u (H 1, L 1)", instance);
        tell(answers[1], KAJAKULM_DONE, "B hears the reply to it: %u of its routes are in use", used_routes(&b));
    }
    discovery_through(&a, &b, &t, DAY, 3, answers);
    HOLDS(live_rows(&b, DAY) == 0);
    tell(answers[0], KAJAKULM_NO_ROW,
         "a day later B hears the request of discovery 3: no instance row is live, all routes are");
    b.routes[0].kind = KAJAKULM_NOT_IN_USE;
    b.routes[1].kind = KAJAKULM_NOT_IN_USE;
    discovery_through(&a, &b, &t, DAY + 20 * SECOND, 3, answers);
    tell(answers[0], KAJAKULM_DONE,
         "B's host takes two old routes out of use, A starts again, and B hears the request");
    tell(answers[1], KAJAKULM_DONE, "B hears the reply");
    card_free(&a);
    card_free(&b);
    card_free(&t);
}

/* A request of OrigNode fd00::last for T, by an empty vector. */
static message request_of(uint8_t last, uint8_t instance, uint8_t l)
{
    message m = {0};
    put_base(&m, instance, 256, fd(last));
    put_rreq(&m, (discovery){.flag = 1, .l = l, .number = 241}, NULL, 0);
    put_art(&m, 0, 0, fd(T));
    return m;
}

static void few_rows(void)
{
    card t = make(T, 4, 0);
    fact("17: TargNode needs two rows for a request");
    tell(hear(&t, 0, request_of(A, 1, 1), A).answer, KAJAKULM_DONE,
         "T, with 4 instance rows, is asked by A (H 0, L 1)");
    tell(hear(&t, 0, request_of(B, 1, 1), B).answer, KAJAKULM_DONE,
         "T is asked by B: a request row and a reply row each");
    tell(hear(&t, 1, request_of(C, 1, 1), C).answer, KAJAKULM_NO_ROW, "T is asked by C");
    tell(hear(&t, 16 * SECOND, request_of(C, 1, 1), C).answer, KAJAKULM_DONE,
         "16 s later T is asked by C: rows that died are free");
    card_free(&t);
}

/* ---- 14 */

static void one_try(void)
{
    kajakulm_start_fields s = {.instance = 1, .h = 1, .l = KAJAKULM_L_ENDLESS};
    card a = make(A, 4, 4);
    fact("14: with L 0 an RPLInstanceID has one try");
    tell(start_for(&a, 0, T, s).answer, KAJAKULM_DONE, "A starts RPLInstanceID 1 with L 0");
    tell(start_for(&a, DAY, T, s).answer, KAJAKULM_NOTHING_NEW, "a day later A starts RPLInstanceID 1");
    s.instance = 2;
    s.l = KAJAKULM_L_16_S;
    tell(start_for(&a, DAY, T, s).answer, KAJAKULM_DONE, "A starts RPLInstanceID 2 with L 1");
    tell(start_for(&a, DAY + 15999, T, s).answer, KAJAKULM_NOTHING_NEW, "15.999 s later A starts RPLInstanceID 2");
    tell(start_for(&a, DAY + 16000, T, s).answer, KAJAKULM_DONE, "after 16 s A starts RPLInstanceID 2");
    card_free(&a);
}

static void sent_once(void)
{
    const kajakulm_start_fields s = {.instance = 1, .h = 1, .l = KAJAKULM_L_16_S};
    card a = make(A, 4, 4), b = make(B, 4, 4);
    kajakulm_outcome o;
    message m;
    fact("14: nothing is sent twice");
    started(&a, 0, T, s);
    DID("A starts RPLInstanceID 1 with L 1, and the message is lost");
    tell(start_for(&a, 1 * SECOND, T, s).answer, KAJAKULM_NOTHING_NEW, "1 s later A starts again");
    m = started(&a, 16 * SECOND, T, s);
    DID("after 16 s A starts again; its number is %u", a.seq);
    o = hear(&b, 16 * SECOND, m, A);
    tell(o.answer, KAJAKULM_DONE, "B hears it, and sends it on");
    HOLDS(o.forward_way == KAJAKULM_GROUP);
    tell(hear(&b, 17 * SECOND, m, A).answer, KAJAKULM_NOTHING_NEW, "B hears a copy, and sends nothing");
    card_free(&a);
    card_free(&b);
}

/* ---- Usual refusals */

static void usual(void)
{
    kajakulm_start_fields s = {.instance = 0, .l = KAJAKULM_L_16_S};
    card a = make(A, 4, 4), b = make(B, 4, 4), c = make(C, 4, 4);
    kajakulm_outcome o;
    fact("7, 9, 14: what comes back is refused");
    for (uint8_t h = 1; h < 2; h--) {
        const unsigned want = h ? KAJAKULM_NOTHING_NEW : KAJAKULM_LOOP;
        s.instance++;
        s.h = h;
        o = hear(&b, 0, started(&a, 0, T, s), A);
        tell(o.answer, KAJAKULM_DONE, "A starts (H %u), B hears it and sends it on", h);
        tell(hear(&a, 0, forwarded(&b, &o), B).answer, KAJAKULM_OWN_DODAGID, "A hears B");
        o = hear(&c, 0, forwarded(&b, &o), B);
        tell(o.answer, KAJAKULM_DONE, "C hears B and sends it on");
        tell(hear(&b, 0, forwarded(&c, &o), C).answer, want,
             h ? "B hears C: by C its rank would be higher" : "B hears C: its own address stands in the vector");
    }
    card_free(&a);
    card_free(&b);
    card_free(&c);
}

/* ---- 8 */

static void reply_first(void)
{
    const kajakulm_start_fields s = {.instance = 1, .h = 1, .l = KAJAKULM_L_16_S};
    card a = make(A, 4, 4), b = make(B, 4, 4), t = make(T, 8, 4);
    kajakulm_outcome o, r;
    message m;
    fact("8: the reply may come before the request");
    m = started(&a, 0, T, s);
    o = hear_by(&t, 0, m, A, NOT_TO_US, 1);
    tell(o.answer, KAJAKULM_DONE, "T hears the start of A by a link that is not good from A to T");
    HOLDS(o.reply_way == KAJAKULM_GROUP);
    show("so S is 0 and the reply goes to the group");
    r = hear(&b, 10, replied(&t, &o), T);
    tell(r.answer, KAJAKULM_NO_PARTNER, "B hears the reply, but has not heard the request");
    tell(hear(&b, 20, m, A).answer, KAJAKULM_DONE, "B hears the request; nobody sends the reply again");
    m = started(&a, 17 * SECOND, T, s);
    tell(hear(&b, 17 * SECOND, m, A).answer, KAJAKULM_DONE,
         "17 s later A starts again, and this time B hears it first");
    o = hear_by(&t, 17 * SECOND, m, A, NOT_TO_US, 1);
    r = hear(&b, 17 * SECOND, replied(&t, &o), T);
    tell(r.answer, KAJAKULM_DONE, "B hears the reply of T, and sends it on");
    HOLDS(r.forward_way == KAJAKULM_GROUP);
    card_free(&a);
    card_free(&b);
    card_free(&t);
}

/* ---- 9 */

static void lowered_s(void)
{
    const kajakulm_start_fields s = {.instance = 1, .h = 0, .compr = 8, .l = KAJAKULM_L_16_S};
    card a = make(A, 4, 4), b = make(B, 4, 4), c = make(C, 4, 4), t = make(T, 4, 4);
    const message m = started(&a, 0, T, s);
    kajakulm_outcome o = hear(&c, 0, m, A);
    const message by_c = forwarded(&c, &o);
    message back;
    fact("9: S turned to 0 behind a symmetric reply");
    o = hear(&b, 0, by_c, C);
    tell(o.answer, KAJAKULM_DONE, "B hears the request of A (H 0) by way of C: S is 1 and its rank %u",
         b.instances[0].rank);
    o = hear(&t, 0, forwarded(&b, &o), B);
    back = replied(&t, &o);
    tell(o.answer, KAJAKULM_DONE, "T hears B, and replies to B alone");
    o = hear_by(&b, 5, m, A, NOT_TO_US, 1);
    tell(o.answer, KAJAKULM_DONE, "B hears A itself, by a link that is not good from A to B: S is %u and its rank %u",
         b.instances[0].s, b.instances[0].rank);
    tell(hear_alone(&b, 9, back, T).answer, KAJAKULM_LOOP,
         "B hears the reply: S is 0 now, and its address stands in the vector");
    card_free(&b);
    b = make(B, 4, 4);
    hear(&b, 0, by_c, C);
    o = hear_alone(&b, 9, back, T);
    tell(o.answer, KAJAKULM_DONE, "had B not heard A itself, the reply would go on to C");
    HOLDS(o.forward_way == KAJAKULM_NEIGHBOUR && is_same(o.forward_neighbour, fd(C)));
    card_free(&a);
    card_free(&b);
    card_free(&c);
    card_free(&t);
}

/* ---- 12 */

static message with_step(uint16_t step, uint8_t limit)
{
    message m = {0};
    put_base(&m, 0x81, 768, fd(A));
    put_configuration(&m, step, 1, 1);
    put_rreq(&m, (discovery){.flag = 1, .h = 1, .l = 1, .limit = limit, .number = 240}, NULL, 0);
    put_art(&m, 0, 0, fd(T));
    return m;
}

static void step_of(uint16_t step, uint8_t limit, unsigned want, const char *why)
{
    card b = make(B, 4, 4);
    tell(hear(&b, 0, with_step(step, limit), A).answer, want, "step %u, RankLimit %u: %s", step, limit, why);
    card_free(&b);
}

static void wrong_step(void)
{
    fact("12: for everybody at once, a wrong MinHopRankIncrease");
    show("B hears requests of rank 768 by a link with increase 256");
    step_of(256, 7, KAJAKULM_DONE, "3 hops");
    step_of(1, 7, KAJAKULM_RANK_REFUSED, "768 hops");
    step_of(1, 0, KAJAKULM_DONE, "768 hops, which nobody asks");
    step_of(512, 7, KAJAKULM_RANK_REFUSED, "the increase is under the step");
    step_of(512, 0, KAJAKULM_RANK_REFUSED, "the increase is under the step");
}

/* ---- 11 */

static void link_facts(void)
{
    const kajakulm_start_fields s = {.instance = 1, .h = 1, .l = KAJAKULM_L_16_S};
    card a = make(A, 4, 4), b = make(B, 4, 4), t = make(T, 4, 4);
    const message m = started(&a, 0, T, s);
    kajakulm_outcome o;
    message back;
    fact("11: the link from us to the neighbour");
    tell(hear_by(&b, 0, m, A, NOT_FROM_US, 1).answer, KAJAKULM_LINK_NOT_GOOD,
         "B hears a request of A; the link from B to A (upward) is not good");
    tell(hear_by(&b, 0, m, A, NOT_TO_US, 1).answer, KAJAKULM_DONE,
         "B hears it; the link from A to B (downward) is not good: S is %u", b.instances[0].s);
    o = hear_by(&t, 0, m, A, NOT_TO_US, 1);
    back = replied(&t, &o);
    tell(hear_by(&b, 0, back, T, NOT_FROM_US, 1).answer, KAJAKULM_LINK_NOT_GOOD,
         "B hears a reply of T; the link from B to T (downward) is not good");
    tell(hear_by(&b, 0, back, T, NOT_TO_US, 1).answer, KAJAKULM_DONE,
         "B hears it; the link from T to B (upward) is not good");
    card_free(&a);
    card_free(&b);
    card_free(&t);
}

/* ---- 15, 16, 10 */

static void sixty_four(void)
{
    card t = make(T, 200, 0);
    unsigned answer = 0;
    fact("15: a gateway can answer 64 nodes at a time");
    for (uint8_t last = 20; last < 84; last++)
        answer |= hear(&t, 0, request_of(last, 1, KAJAKULM_L_256_S), A).answer;
    tell(answer, KAJAKULM_DONE, "T is asked by 64 nodes, each with RPLInstanceID 1 and L 3");
    tell(hear(&t, 1, request_of(84, 1, KAJAKULM_L_256_S), A).answer, KAJAKULM_NO_DELTA, "T is asked by one more");
    tell(hear(&t, 1, request_of(84, 2, KAJAKULM_L_256_S), A).answer, KAJAKULM_DONE,
         "T is asked by it with RPLInstanceID 2: number 65 is free");
    tell(hear(&t, 1, request_of(85, 100, KAJAKULM_L_256_S), A).answer, KAJAKULM_DONE,
         "T is asked by the next one with RPLInstanceID 100");
    tell(hear(&t, 256 * SECOND, request_of(86, 1, KAJAKULM_L_256_S), A).answer, KAJAKULM_DONE,
         "after 256 s T is asked by the next one with RPLInstanceID 1");
    card_free(&t);
}

/* How many routers in a row take a request with that Compr; the next one answers `last`. */
static unsigned chain(uint8_t compr, int two_addresses, unsigned *last)
{
    card a = make(A, 4, 4);
    message m = started(&a, 0, T, (kajakulm_start_fields){.instance = 1, .compr = compr, .l = KAJAKULM_L_16_S});
    unsigned taken = 0;
    card_free(&a);
    for (;; taken++) {
        card router = make((uint8_t)(20 + taken), 4, 4);
        kajakulm_outcome o;
        if (two_addresses)
            memcpy(router.own.sending, fd((uint8_t)(120 + taken)).octets, KAJAKULM_ADDRESS);
        o = hear(&router, 0, m, (uint8_t)(19 + taken));
        *last = o.answer;
        m = forwarded(&router, &o);
        card_free(&router);
        if (o.answer != KAJAKULM_DONE)
            return taken;
    }
}

static void long_paths(void)
{
    unsigned last, taken;
    fact("16: how long a source route can be");
    taken = chain(0, 0, &last);
    tell(last, KAJAKULM_VECTOR_FULL, "Compr 0: %u routers in a row, and the next one", taken);
    taken = chain(8, 0, &last);
    tell(last, KAJAKULM_VECTOR_FULL, "Compr 8: %u routers in a row, and the next one", taken);
    taken = chain(8, 1, &last);
    tell(last, KAJAKULM_VECTOR_FULL, "Compr 8, routers with two addresses: %u in a row, and the next one", taken);
}

static void one_prefix(void)
{
    kajakulm_start_fields s = {.instance = 1, .h = 0, .compr = 8, .l = KAJAKULM_L_16_S};
    card a = make(A, 4, 4), b = make(B, 4, 4);
    fact("10: Compr is for addresses of one prefix");
    b.own.receiving[7] = 1;
    tell(hear(&b, 0, started(&a, 0, T, s), A).answer, KAJAKULM_CANNOT_ELIDE,
         "A starts with Compr 8; B, whose receiving address is fd00:0:0:1::2, hears it");
    s.instance = 2;
    s.compr = 7;
    tell(hear(&b, 0, started(&a, 0, T, s), A).answer, KAJAKULM_DONE, "A starts with Compr 7, and B hears it");
    s.compr = 8;
    tell(start_for(&b, 0, T, s).answer, KAJAKULM_CANNOT_ELIDE,
         "B itself, whose sending address is fd00::2, starts with Compr 8");
    card_free(&a);
    card_free(&b);
}

/* ---- 0 */

static void empty_path(void)
{
    const kajakulm_start_fields s = {.instance = 1, .h = 0, .compr = 8, .l = KAJAKULM_L_16_S};
    card a = make(A, 4, 4), b = make(B, 4, 4), t = make(T, 4, 4);
    const message m = started(&a, 0, T, s);
    kajakulm_outcome o = hear(&t, 0, m, A), end = hear_alone(&a, 0, replied(&t, &o), T);
    fact("0: a source route to a direct neighbour is empty");
    tell(end.answer, KAJAKULM_DONE, "A starts (H 0), T hears it, A hears the reply: forward length %u, way %u",
         (unsigned)end.forward_length, end.forward_way);
    HOLDS(a.instances[1].kind == KAJAKULM_REPLY && is_same(a.instances[1].dodagid, fd(T)));
    show("A has a reply row with DODAGID fd00::9; nothing else tells of the success");
    card_free(&a);
    card_free(&t);
    a = make(A, 4, 4);
    t = make(T, 4, 4);
    started(&a, 0, T, s);
    o = hear(&b, 0, m, A);
    o = hear(&t, 0, forwarded(&b, &o), B);
    o = hear_alone(&b, 0, replied(&t, &o), T);
    end = hear_alone(&a, 0, forwarded(&b, &o), B);
    tell(end.answer, KAJAKULM_DONE, "the same by way of B: forward length %u, way %u", (unsigned)end.forward_length,
         end.forward_way);
    HOLDS(is_same(a.forward, fd(B)));
    show("A's forward buffer has fd00::2");
    card_free(&a);
    card_free(&b);
    card_free(&t);
}

static void show_routes(const char *who, const card *c)
{
    for (size_t i = 0; i < c->route_count; i++)
        if (c->routes[i].kind == KAJAKULM_ROUTE)
            show("%s: source fd00::%u, destination fd00::%u, RPLInstanceID %u: next hop fe80::%u", who,
                 c->routes[i].source[15], c->routes[i].destination[15], c->routes[i].instance, c->routes[i].next[15]);
}

static void data_packets(void)
{
    card a = make(A, 4, 4), b = make(B, 4, 4), t = make(T, 4, 4);
    unsigned answers[2];
    fact("0: the routes that data packets take");
    discovery_through(&a, &b, &t, 0, 1, answers);
    tell(answers[1], KAJAKULM_DONE, "A (fd00::1) has found T (fd00::9) through B (fd00::2), hop by hop");
    show_routes("A", &a);
    show_routes("B", &b);
    show_routes("T", &t);
    card_free(&a);
    card_free(&b);
    card_free(&t);
}

static void other_address(void)
{
    const kajakulm_start_fields s = {.instance = 1, .h = 1, .l = KAJAKULM_L_16_S};
    card a = make(A, 4, 4), t = make(T, 4, 4);
    kajakulm_outcome o;
    fact("0: TargNode answers by its receiving address");
    memcpy(t.own.sending, fd(8).octets, KAJAKULM_ADDRESS);
    o = hear(&t, 0, started(&a, 0, 8, s), A);
    tell(o.answer, KAJAKULM_DONE, "A asks for fd00::8; T, which sends by fd00::8 and receives by fd00::9, replies");
    o = hear_alone(&a, 0, replied(&t, &o), T);
    tell(o.answer, KAJAKULM_DONE, "A hears the reply");
    show_routes("A", &a);
    card_free(&a);
    card_free(&t);
}

/* ---- 1, 2 */

static void time_kept(void)
{
    const kajakulm_start_fields s = {.instance = 1, .h = 1, .l = KAJAKULM_L_16_S};
    card a = make(A, 4, 4);
    fact("1: the time goes on over a restart");
    tell(start_for(&a, DAY, T, s).answer, KAJAKULM_DONE, "A starts, a day after its time 0");
    tell(start_for(&a, 20 * SECOND, T, s).answer, KAJAKULM_BAD_CALL,
         "A is switched off and on with its tables and clock kept, and its time from 0");
    tell(start_for(&a, a.clock + 20 * SECOND, T, s).answer, KAJAKULM_DONE,
         "the same with the kept clock added to the time");
    card_free(&a);
}

static void written_over(void)
{
    const kajakulm_start_fields s = {.instance = 1, .h = 1, .l = KAJAKULM_L_16_S};
    card a = make(A, 4, 4);
    fact("2: somebody wrote the tables");
    started(&a, 0, T, s);
    a.instances[1] = a.instances[0];
    tell(start_for(&a, 0, B, (kajakulm_start_fields){.instance = 2}).answer, KAJAKULM_WRONG_STATE,
         "a live row of A stands twice in its table; A starts");
    tell(hear(&a, 0, request_of(B, 1, 1), B).answer, KAJAKULM_WRONG_STATE, "A hears a request");
    kajakulm_fresh(a.instances, a.instance_count, a.routes, a.route_count);
    tell(hear(&a, 0, request_of(B, 1, 1), B).answer, KAJAKULM_DONE,
         "the host makes the tables fresh and keeps the own number; A hears it");
    card_free(&a);
}

int main(void)
{
    empty_path();
    data_packets();
    other_address();
    time_kept();
    written_over();
    usual();
    reply_first();
    lowered_s();
    one_prefix();
    link_facts();
    wrong_step();
    old_routes();
    forgotten_number();
    past_127();
    one_try();
    sent_once();
    sixty_four();
    long_paths();
    full_of_routes();
    few_rows();
    return 0;
}
