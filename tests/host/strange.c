/* Strange callers: tables, buffers, messages, addresses, times and starts of every size and with anything in them.
 * card.c checks of every call that a refusal changes nothing, that nothing is written past the lengths, and what the
 * tally counts. */
#include <stdio.h>
#include <stdlib.h>
#include <string.h>

#include "card.h"

enum { OK = KAJAKULM_BUFFER_LEAST, MANY = 4000 };

/* ---- Messages that a card fd00::2 takes */

/* OrigNode fd00::1 asks for fd00::9, and for us (fd00::2) if `ours`. */
static message request(uint8_t instance, uint8_t h, int ours)
{
    const address vector[2] = {fd(20), fd(21)};
    message m = {0};
    put_base(&m, instance, 300, fd(1));
    put_configuration(&m, 256, 3, 4);
    put_rreq(&m, (discovery){.flag = 1, .h = h, .compr = h ? 0 : 8, .l = 1, .limit = 9, .number = 100}, vector,
             h ? 0 : 2);
    put_art(&m, 1, 0, fd(9));
    if (ours)
        put_art(&m, 1, 0, fd(2));
    put_art(&m, 2, 20, (address){{0x20, 0x01, 0xd0}});
    return m;
}

/* The reply of TargNode fd00::9 to that request, with Delta 2. */
static message reply(uint8_t instance, uint8_t h)
{
    const address vector[3] = {fd(20), fd(2), fd(21)};
    message m = {0};
    put_base(&m, (uint8_t)(instance + 2), 256, fd(9));
    put_rrep(&m, (discovery){.h = h, .compr = h ? 0 : 8, .l = 1, .number = 2}, vector, h ? 0 : 3);
    put_art(&m, 1, 0, fd(1));
    return m;
}

static kajakulm_outcome hear(card *c, uint64_t time, const message *m)
{
    return card_hear(c, time, m->octets, m->length, good_link(5));
}

static kajakulm_outcome hear_alone(card *c, uint64_t time, const message *m)
{
    kajakulm_link link = good_link(5);
    link.group = 0;
    return card_hear(c, time, m->octets, m->length, link);
}

static kajakulm_outcome start(card *c, uint64_t time, uint8_t instance)
{
    kajakulm_target t = {.seq = 7};
    memcpy(t.addr, fd(9).octets, KAJAKULM_ADDRESS);
    return card_start(c, time, &t, 1, (kajakulm_start_fields){.instance = instance, .h = 1, .l = 1});
}

/* ---- Tables of every length */

/* How many rows a message needs decides between 0 and 17: a request one, and one more where we reply. */
static void table_lengths(size_t instances, size_t routes)
{
    const message far = request(0x81, 0, 0), near = request(0x82, 1, 1), back = reply(0x82, 1);
    card c = card_make(2, instances, routes, OK, OK);
    size_t left = instances;
    unsigned want = left < 1 ? KAJAKULM_NO_ROW : KAJAKULM_DONE;
    HOLDS(hear(&c, 0, &far).answer == want);
    left -= want == KAJAKULM_DONE;
    want = left < 2 || routes < 1 ? KAJAKULM_NO_ROW : KAJAKULM_DONE;
    HOLDS(hear(&c, 1, &near).answer == want);
    left -= want == KAJAKULM_DONE ? 2 : 0;
    want = want != KAJAKULM_DONE ? KAJAKULM_NO_PARTNER : left < 1 || routes < 2 ? KAJAKULM_NO_ROW : KAJAKULM_DONE;
    HOLDS(hear_alone(&c, 2, &back).answer == want);
    left -= want == KAJAKULM_DONE;
    HOLDS(start(&c, 3, 0x90).answer == (left < 1 ? KAJAKULM_NO_ROW : KAJAKULM_DONE));
    card_free(&c);
}

static void all_table_lengths(void)
{
    static const size_t lengths[] = {0, 1, 2, 3, 4, 5, 16, 17, MANY};
    for (size_t i = 0; i < sizeof lengths / sizeof *lengths; i++)
        for (size_t j = 0; j < sizeof lengths / sizeof *lengths; j++)
            table_lengths(lengths[i], lengths[j]);
}

/* A table of length 0 that is not NULL, and NULL for a message and for targets. */
static void lengths_of_zero(void)
{
    const message far = request(0x81, 1, 0);
    card c = card_make(2, 0, 0, OK, OK);
    kajakulm_outcome o;
    c.instances = block_make(0);
    c.routes = block_make(0);
    HOLDS(hear(&c, 0, &far).answer == KAJAKULM_NO_ROW);
    o = kajakulm_message(NULL, 0, NULL, 0, c.forward, OK, c.reply, OK, NULL, 0, c.own, 0, 240, 0, good_link(5),
                         c.tally);
    HOLDS(o.answer == KAJAKULM_MALFORMED);
    o = kajakulm_start(NULL, 0, NULL, 0, c.forward, OK, c.reply, OK, NULL, 0, c.own, 0, 240, 0,
                       (kajakulm_start_fields){0}, c.tally);
    HOLDS(o.answer == KAJAKULM_BAD_CALL);
    o = kajakulm_message(NULL, 0, NULL, 0, NULL, 0, NULL, 0, NULL, 0, c.own, 0, 240, 0, good_link(5), c.tally);
    HOLDS(o.answer == KAJAKULM_BAD_CALL);
    card_free(&c);
}

/* ---- Tables full of random octets */

/* From wholly random rows to rows that could be a node's: most random ones are refused by 2. */
static void tame(card *c, unsigned tameness)
{
    for (size_t i = 0; i < c->instance_count && tameness > 0; i++) {
        kajakulm_instance_row *row = &c->instances[i];
        row->count %= 9;
        row->deadline >>= 64 - 41;
        for (unsigned k = 0; k < KAJAKULM_TARGETS_MOST; k++)
            row->targets[k].plen %= 128;
        if (tameness > 1) {
            row->kind %= 3;
            row->deadline %= 3000;
            row->endless = row->endless % 8 == 0;
        }
    }
    for (size_t i = 0; i < c->route_count && tameness > 0; i++) {
        c->routes[i].deadline >>= 64 - 41;
        c->routes[i].kind %= tameness > 1 ? 2 : 256;
    }
}

static void fill_card(card *c, unsigned tameness)
{
    if (c->instance_count > 0)
        random_fill(c->instances, c->instance_count * sizeof *c->instances);
    if (c->route_count > 0)
        random_fill(c->routes, c->route_count * sizeof *c->routes);
    random_fill(c->forward, c->forward_size);
    random_fill(c->reply, c->reply_size);
    random_fill(c->tally, sizeof *c->tally);
    tame(c, tameness);
    c->clock = random_next();
    c->clock >>= random_below(64);
    c->seq = (uint8_t)random_next();
}

/* Two calls on a table of random octets: the second is on what the first left. */
static void random_table(size_t instances, size_t routes, unsigned tameness)
{
    const message far = request(0x81, (uint8_t)random_below(2), 0), near = request(0x82, 1, 1);
    card c = card_make(2, instances, routes, OK, OK);
    uint8_t instance;
    fill_card(&c, tameness);
    if (tameness > 1)
        c.clock %= 2000;
    hear(&c, c.clock + random_below(100), &far);
    instance = (uint8_t)random_next();
    if (instance % 2 == 0)
        hear(&c, c.clock + random_below(100), &near);
    else
        start(&c, c.clock + random_below(100), instance);
    card_free(&c);
}

static void random_tables(void)
{
    for (unsigned round = 0; round < 900; round++)
        random_table(round % 41, random_below(41), round % 3);
    for (unsigned round = 0; round < 6; round++)
        random_table(MANY, MANY, round % 3);
}

/* ---- Buffers of every size */

static void buffer_sizes(void)
{
    static const size_t sizes[] = {0, 1, OK - 1, OK, OK + 1, 70000};
    const message near = request(0x82, 0, 1);
    for (size_t i = 0; i < sizeof sizes / sizeof *sizes; i++)
        for (size_t j = 0; j < sizeof sizes / sizeof *sizes; j++) {
            card c = card_make(2, 4, 4, sizes[i], sizes[j]);
            unsigned want = sizes[i] < OK || sizes[j] < OK ? KAJAKULM_BAD_CALL : KAJAKULM_DONE;
            if (c.forward != NULL)
                random_fill(c.forward, c.forward_size);
            if (c.reply != NULL)
                random_fill(c.reply, c.reply_size);
            HOLDS(hear(&c, 0, &near).answer == want);
            HOLDS(start(&c, 0, 1).answer == want);
            card_free(&c);
        }
}

/* ---- Messages of every length */

/* A request that is filled up to `length` by Pad1 or by options of a type that nobody knows. */
static void filled_up(message *m, size_t length, int pad)
{
    while (m->length < length) {
        size_t left = length - m->length, body = left < 2 ? 0 : left - 2 > 255 ? 255 : left - 2;
        m->octets[m->length] = pad || left < 2 ? 0 : 0x77;
        if (pad || left < 2) {
            m->length += 1;
            continue;
        }
        m->octets[m->length + 1] = (uint8_t)body;
        random_fill(m->octets + m->length + 2, body);
        m->length += 2 + body;
    }
}

/* Cut after `length` octets, which may be more than it has. */
static void cut(message *m, size_t length)
{
    if (m->length > length)
        m->length = length;
}

static void message_of_length(size_t length)
{
    message random = {.length = length}, padded = request(0x81, 0, 1), unknown = request(0x82, 0, 1);
    const unsigned want = length > KAJAKULM_MESSAGE_MOST ? KAJAKULM_BAD_CALL
                          : length < 24                  ? KAJAKULM_MALFORMED
                                                         : KAJAKULM_DONE;
    const int is_cut = length < padded.length; /* then 3 or 4, or 0 where a target is left */
    card c = card_make(2, 4, 4, OK, OK);
    random_fill(random.octets, length);
    HOLDS(hear(&c, 0, &random).answer == want || want == KAJAKULM_DONE);
    filled_up(&padded, length, 1);
    cut(&padded, length);
    HOLDS(hear(&c, 0, &padded).answer == want || (want == KAJAKULM_DONE && is_cut));
    c.tally->counts[KAJAKULM_DONE] = UINT32_MAX;
    filled_up(&unknown, length, 0);
    cut(&unknown, length);
    HOLDS(hear(&c, 0, &unknown).answer == want || (want == KAJAKULM_DONE && is_cut));
    card_free(&c);
}

/* Every cut of a reply, to us alone. */
static void cut_replies(void)
{
    const message first = request(0x81, 0, 0), whole = reply(0x81, 0);
    for (size_t length = 0; length <= whole.length; length++) {
        message m = whole;
        card c = card_make(2, 4, 4, OK, OK);
        HOLDS(hear(&c, 0, &first).answer == KAJAKULM_DONE);
        cut(&m, length);
        HOLDS((hear_alone(&c, 0, &m).answer == KAJAKULM_DONE) == (length == whole.length));
        card_free(&c);
    }
}

/* One octet of a good request or reply changed to anything. */
static void damaged(unsigned rounds)
{
    const message first = request(0x81, 0, 0), second = reply(0x81, 0);
    for (unsigned round = 0; round < rounds; round++) {
        card c = card_make(2, 4, 4, OK, OK);
        message m = round % 2 == 0 ? first : second;
        hear(&c, 0, &first);
        m.octets[random_below(m.length)] = (uint8_t)random_next();
        if (random_below(2) == 0)
            hear(&c, 0, &m);
        else
            hear_alone(&c, 0, &m);
        card_free(&c);
    }
}

/* ---- Own addresses of every class */

static void own_address(uint8_t first, uint8_t second, uint8_t last, int is_good)
{
    const message near = request(0x82, 1, 1);
    const unsigned want = is_good ? KAJAKULM_DONE : KAJAKULM_BAD_CALL;
    for (unsigned which = 1; which < 4; which++) {
        card c = card_make(2, 4, 4, OK, OK);
        const uint8_t a[KAJAKULM_ADDRESS] = {first, second, [15] = last};
        if (which & 1)
            memcpy(c.own.receiving, a, sizeof a);
        if (which & 2)
            memcpy(c.own.sending, a, sizeof a);
        HOLDS(hear(&c, 0, &near).answer == want);
        HOLDS(start(&c, 0, 1).answer == want);
        card_free(&c);
    }
}

static void own_addresses(void)
{
    own_address(0xfd, 0x00, 3, 1); /* unique local */
    own_address(0x20, 0x01, 3, 1); /* global */
    own_address(0x00, 0x00, 1, 1); /* loopback: 01 does not refuse it */
    own_address(0x00, 0x00, 0, 0); /* all zero */
    own_address(0xfe, 0x7f, 3, 1); /* just below link-local */
    own_address(0xfe, 0x80, 3, 0); /* link-local, from here ... */
    own_address(0xfe, 0xbf, 3, 0); /* ... to here */
    own_address(0xfe, 0xc0, 3, 1); /* just above */
    own_address(0xff, 0x00, 0, 0); /* multicast */
    own_address(0xff, 0x02, 1, 0);
    own_address(0xff, 0xff, 255, 0);
}

/* ---- Starts */

/* `count` targets of which `different` differ, in any order of repeats. */
static void start_of(size_t count, size_t different)
{
    kajakulm_target targets[20] = {{0}};
    card c = card_make(2, 4, 4, OK, OK);
    const size_t seen = count < different ? count : different;
    const unsigned want = seen == 0 || seen > KAJAKULM_TARGETS_MOST ? KAJAKULM_BAD_CALL : KAJAKULM_DONE;
    kajakulm_outcome o;
    for (size_t i = 0; i < count; i++)
        memcpy(targets[i].addr, fd((uint8_t)(30 + i % different)).octets, KAJAKULM_ADDRESS);
    o = card_start(&c, 5, targets, count, (kajakulm_start_fields){.instance = 4, .compr = 15, .l = 3, .limit = 127});
    HOLDS(o.answer == want);
    HOLDS(want != KAJAKULM_DONE || o.forward_length == 24 + 5 + 20 * seen);
    HOLDS(want != KAJAKULM_DONE || c.instances[0].count == seen);
    card_free(&c);
}

/* Each field of a start at every value, with any octets in the others. */
static void start_fields(void)
{
    for (unsigned value = 0; value < 256; value++)
        for (unsigned field = 0; field < 6; field++) {
            card c = card_make(2, 4, 4, OK, OK);
            kajakulm_start_fields s = {.instance = 4, .h = value & 1, .compr = 15, .l = 3, .limit = 127};
            kajakulm_target t = {0};
            uint8_t *const at[] = {&s.instance, &s.h, &s.compr, &s.l, &s.limit, &t.plen};
            static const unsigned most[] = {
                255, 255, KAJAKULM_COMPR_MOST, 3, KAJAKULM_LIMIT_MOST, KAJAKULM_PREFIX_MOST};
            random_fill(t.addr, sizeof t.addr);
            *at[field] = (uint8_t)value;
            HOLDS(card_start(&c, 0, &t, 1, s).answer == (value <= most[field] ? KAJAKULM_DONE : KAJAKULM_BAD_CALL));
            card_free(&c);
        }
}

static void starts(void)
{
    for (size_t count = 0; count <= 20; count++)
        for (size_t different = 1; different <= 20; different++)
            start_of(count, different);
    start_fields();
}

/* ---- Times, own numbers, link facts */

static void time_of(uint64_t clock, uint64_t time, unsigned want)
{
    const message far = request(0x81, 1, 0);
    card c = card_make(2, 4, 4, OK, OK);
    c.clock = clock;
    HOLDS(hear(&c, time, &far).answer == want);
    card_free(&c);
    c = card_make(2, 4, 4, OK, OK);
    c.clock = clock;
    HOLDS(start(&c, time, 1).answer == want);
    card_free(&c);
}

static void times(void)
{
    const uint64_t last = KAJAKULM_TIME_LAST;
    time_of(0, 0, KAJAKULM_DONE);
    time_of(7, 7, KAJAKULM_DONE);
    time_of(7, 6, KAJAKULM_BAD_CALL);
    time_of(0, last, KAJAKULM_DONE);
    time_of(last, last, KAJAKULM_DONE);
    time_of(0, last + 1, KAJAKULM_BAD_CALL);
    time_of(last + 1, last + 1, KAJAKULM_BAD_CALL);
    time_of(UINT64_MAX, UINT64_MAX, KAJAKULM_BAD_CALL);
    time_of(UINT64_MAX, 0, KAJAKULM_BAD_CALL);
}

/* Every own number, and link facts of every octet: a flag is on when it is not 0. */
static void octets_by_value(void)
{
    const message near = request(0x82, 1, 1);
    for (unsigned value = 0; value < 256; value++) {
        card c = card_make(2, 4, 4, OK, OK);
        kajakulm_link link = good_link(5);
        link.downward = (uint8_t)value;
        link.group = (uint8_t)value;
        c.seq = (uint8_t)value;
        kajakulm_outcome o = card_hear(&c, 0, near.octets, near.length, link);
        HOLDS(o.answer == (value == 0 ? KAJAKULM_WRONG_STATE : KAJAKULM_DONE));
        HOLDS(value == 0 || o.seq == (value == 127 || value == 255 ? 1 : value + 1));
        HOLDS(value == 0 || o.reply_way == KAJAKULM_NEIGHBOUR);
        card_free(&c);
        c = card_make(2, 4, 4, OK, OK);
        link.upward = (uint8_t)value;
        HOLDS(card_hear(&c, 0, near.octets, near.length, link).answer == (value == 0 ? KAJAKULM_LINK_NOT_GOOD : 0));
        card_free(&c);
    }
}

/* ---- Answers that need a certain state */

static void no_delta_free(void)
{
    const message near = request(0x82, 1, 1);
    card c = card_make(2, 80, 4, OK, OK);
    for (unsigned i = 0; i < 64; i++) {
        c.instances[i] = (kajakulm_instance_row){.kind = KAJAKULM_REPLY, .instance = (uint8_t)(0x82 + i), .endless = 9};
        memcpy(c.instances[i].dodagid, fd(2).octets, KAJAKULM_ADDRESS);
    }
    HOLDS(hear(&c, 0, &near).answer == KAJAKULM_NO_DELTA);
    c.instances[63].endless = 0;
    HOLDS(hear(&c, 0, &near).answer == KAJAKULM_DONE);
    HOLDS(c.reply[0] == (uint8_t)(0x82 + 63));
    card_free(&c);
}

/* A DODAGID of every class. */
static void dodagid_of(uint8_t first, uint8_t second, uint8_t last, unsigned want)
{
    message m = request(0x81, 1, 0);
    card c = card_make(2, 4, 4, OK, OK);
    memset(m.octets + 8, 0, KAJAKULM_ADDRESS);
    m.octets[8] = first;
    m.octets[9] = second;
    m.octets[23] = last;
    HOLDS(hear(&c, 0, &m).answer == want);
    card_free(&c);
}

static void dodagids(void)
{
    dodagid_of(0x00, 0x00, 0, KAJAKULM_BAD_DODAGID);
    dodagid_of(0x00, 0x00, 1, KAJAKULM_DONE);
    dodagid_of(0xfe, 0x80, 1, KAJAKULM_BAD_DODAGID);
    dodagid_of(0xfe, 0xc0, 1, KAJAKULM_DONE);
    dodagid_of(0xff, 0x02, 1, KAJAKULM_BAD_DODAGID);
    dodagid_of(0xfd, 0x00, 2, KAJAKULM_OWN_DODAGID);
}

/* 16 addresses of 15 octets fit; none may be added to 16 addresses, nor to 15 whole ones. */
static void full_vector(uint8_t compr, size_t count, unsigned want)
{
    address vector[17];
    message m = {0};
    card c = card_make(2, 4, 4, OK, OK);
    for (size_t i = 0; i < 17; i++)
        vector[i] = fd((uint8_t)(20 + i));
    put_base(&m, 0x81, 256, fd(1));
    put_rreq(&m, (discovery){.flag = 1, .compr = compr, .number = 1}, vector, count);
    put_art(&m, 0, 0, fd(9));
    HOLDS(hear(&c, 0, &m).answer == want);
    card_free(&c);
}

static void full_vectors(void)
{
    full_vector(0, 14, KAJAKULM_DONE);
    full_vector(0, 15, KAJAKULM_VECTOR_FULL);
    full_vector(1, 15, KAJAKULM_DONE);
    full_vector(1, 16, KAJAKULM_VECTOR_FULL);
    full_vector(15, 17, KAJAKULM_TOO_MANY);
}

/* A row that no call leaves, at the last place of a table of `count` rows. */
static void wrong_row(size_t count, kajakulm_instance_row row, unsigned want)
{
    const message far = request(0x81, 0, 0);
    card c = card_make(2, count, count, OK, OK);
    c.instances[count - 1] = row;
    HOLDS(hear(&c, 0, &far).answer == want);
    HOLDS(start(&c, 0, 1).answer == want);
    card_free(&c);
}

static void wrong_rows(size_t count)
{
    const uint64_t last = KAJAKULM_DEADLINE_LAST;
    wrong_row(count, (kajakulm_instance_row){.kind = 1, .count = 8}, KAJAKULM_DONE);
    wrong_row(count, (kajakulm_instance_row){.kind = 1, .count = 9}, KAJAKULM_WRONG_STATE);
    wrong_row(count, (kajakulm_instance_row){.kind = 2, .count = 9}, KAJAKULM_DONE);
    wrong_row(count, (kajakulm_instance_row){.kind = 3, .count = 9}, KAJAKULM_DONE);
    wrong_row(count, (kajakulm_instance_row){.kind = 1, .count = 1, .targets = {{.plen = 128}}}, KAJAKULM_WRONG_STATE);
    wrong_row(count, (kajakulm_instance_row){.kind = 1, .count = 0, .targets = {{.plen = 128}}}, KAJAKULM_DONE);
    wrong_row(count, (kajakulm_instance_row){.kind = 2, .deadline = last}, KAJAKULM_DONE);
    wrong_row(count, (kajakulm_instance_row){.kind = 2, .deadline = last + 1}, KAJAKULM_WRONG_STATE);
    wrong_row(count, (kajakulm_instance_row){.kind = 2, .deadline = last + 1, .endless = 1}, KAJAKULM_DONE);
}

/* Two live rows of one key in a table of `count` rows: the first and the last. */
static void twins(size_t count)
{
    const message far = request(0x81, 0, 0);
    card c = card_make(2, count, count, OK, OK);
    for (size_t i = 0; i < count; i++) {
        c.instances[i] =
            (kajakulm_instance_row){.kind = 1, .deadline = 9, .dodagid = {0xfd, (uint8_t)i, (uint8_t)(i >> 8)}};
        c.routes[i] = (kajakulm_route_row){.kind = 1, .deadline = 9, .source = {0xfd, (uint8_t)i, (uint8_t)(i >> 8)}};
    }
    HOLDS(hear(&c, 0, &far).answer == KAJAKULM_NO_ROW);
    c.instances[count - 1] = c.instances[0];
    HOLDS(hear(&c, 9, &far).answer == KAJAKULM_WRONG_STATE);
    c.instances[count - 1].kind = 2;
    c.routes[count - 1] = c.routes[0];
    HOLDS(hear(&c, 9, &far).answer == KAJAKULM_WRONG_STATE);
    c.routes[count - 1].deadline = 0;
    HOLDS(hear(&c, 9, &far).answer == KAJAKULM_DONE);
    card_free(&c);
}

/* ---- Lists of calls with anything in them, on what the last one left */

static void put_random_arts(message *m)
{
    for (size_t i = random_below(10) + 1; i > 0; i--) {
        const uint8_t plen = (uint8_t)(i % 2 * random_below(128)), last = (uint8_t)random_below(40);
        put_art(m, (uint8_t)random_next(), plen, fd(last));
    }
}

static message random_message(void)
{
    static const uint8_t compr[] = {0, 8, 13, 15};
    const uint8_t bits = (uint8_t)random_next(), number = (uint8_t)(120 + random_below(20));
    const address vector[3] = {fd(20), fd((uint8_t)(2 + random_below(30))), fd(21)};
    const size_t count = random_below(4);
    discovery d = {.flag = bits & 1, .h = bits >> 1 & 1, .l = bits >> 2 & 3, .limit = bits >> 5, .number = number};
    message m = {0};
    d.compr = d.h ? 0 : compr[random_below(4)];
    put_base(&m, (uint8_t)(0x80 + count), (uint16_t)(number * 10), fd((uint8_t)random_below(10)));
    if (random_below(3) == 0)
        put_configuration(&m, number * 2, (uint8_t)(1 + random_below(9)), 1);
    if (random_below(3) == 0) {
        d.number = (uint8_t)random_below(3);
        put_rrep(&m, d, vector, d.h ? 0 : count);
        put_art(&m, number, 0, fd((uint8_t)random_below(3)));
    } else {
        put_rreq(&m, d, vector, d.h ? 0 : count);
        put_random_arts(&m);
    }
    if (random_below(8) == 0)
        m.octets[number % m.length] = (uint8_t)random_next();
    return m;
}

/* From a fresh node, so that no call is ever answered 2. */
static void random_list(size_t rows, size_t routes, unsigned calls)
{
    card c = card_make((uint8_t)(2 + rows % 2 * 7), rows, routes, OK, OK);
    if (routes % 2 == 0)
        memcpy(c.own.sending, fd(22).octets, KAJAKULM_ADDRESS);
    for (unsigned i = 0; i < calls; i++) {
        const uint64_t time = c.clock + random_below(1500);
        const message m = random_message();
        const uint8_t bits = (uint8_t)random_next();
        kajakulm_link link = good_link(bits & 3);
        link.upward = bits >> 2 & 7;
        link.downward = bits >> 3 & 3;
        link.group = bits >> 5 & 1;
        link.increase = (uint16_t)(200 + random_below(400));
        if (bits % 5 == 0)
            HOLDS(start(&c, time, (uint8_t)(0x80 + bits % 4)).answer != KAJAKULM_WRONG_STATE);
        else
            HOLDS(card_hear(&c, time, m.octets, m.length, link).answer != KAJAKULM_WRONG_STATE);
    }
    card_free(&c);
}

int main(void)
{
    lengths_of_zero();
    all_table_lengths();
    random_tables();
    buffer_sizes();
    for (size_t length = 0; length <= 1300; length++)
        message_of_length(length);
    cut_replies();
    damaged(3000);
    own_addresses();
    starts();
    times();
    octets_by_value();
    no_delta_free();
    dodagids();
    full_vectors();
    for (size_t rows = 4; rows <= MANY; rows = rows < 32 ? rows * 2 : MANY + (rows == MANY)) {
        wrong_rows(rows);
        twins(rows);
    }
    for (unsigned round = 0; round < 100; round++)
        random_list(round % 20, round % 7 * 2 + round % 2, 60);
    printf("strange: %lu calls; of each answer:", calls_made);
    for (unsigned i = 0; i < KAJAKULM_ANSWERS; i++) {
        printf(" %lu", answers_seen[i]);
        HOLDS(answers_seen[i] > 0);
    }
    printf("\n");
    return 0;
}
