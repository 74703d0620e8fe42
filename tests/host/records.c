/* Each field of each record stands where kajakulm.h says: the library writes it there and reads it there. The offsets
 * themselves are asserted in the header; here every field of what goes in and out has a value of its own. */
#include <stdio.h>
#include <string.h>

#include "card.h"

enum { ROWS = 4 };

static card make(void)
{
    card c = card_make(2, ROWS, ROWS, KAJAKULM_BUFFER_LEAST, KAJAKULM_BUFFER_LEAST);
    memcpy(c.own.sending, fd(3).octets, KAJAKULM_ADDRESS);
    return c;
}

/* From OrigNode fd00::1 with rank 700: for fd00::9 and fd00::20/127, and for fd00::3, which is ours, if `ours`. */
static message request(uint8_t h, int ours)
{
    const address vector[1] = {fd(40)};
    message m = {0};
    put_base(&m, 0x81, 700, fd(1));
    put_configuration(&m, 200, 3, 5);
    put_rreq(&m, (discovery){.flag = 1, .h = h, .l = 2, .limit = 99, .number = 77}, vector, h ? 0 : 1);
    put_art(&m, 5, 0, fd(9));
    put_art(&m, 6, 127, fd(0x21));
    if (ours)
        put_art(&m, 0, 0, fd(3));
    return m;
}

static kajakulm_link link_with(uint16_t increase, int group)
{
    kajakulm_link link = good_link(5);
    link.increase = increase;
    link.group = group != 0;
    return link;
}

/* ---- What the library writes */

static void written_request_row(void)
{
    card c = make();
    const message m = request(1, 1);
    const kajakulm_outcome o = card_hear(&c, 1000, m.octets, m.length, link_with(301, 1));
    const kajakulm_instance_row *row = &c.instances[0];
    HOLDS(o.answer == KAJAKULM_DONE && o.clock == 1000 && o.seq == 241);
    HOLDS(row->kind == KAJAKULM_REQUEST && row->instance == 0x81 && row->seq == 77);
    HOLDS(row->s == 1 && row->h == 1 && row->replied == 1 && row->endless == 0 && row->count == 2);
    HOLDS(row->rank == 1001 && row->deadline == 65000);
    HOLDS(is_same(row->dodagid, fd(1)) && is_same(row->neighbour, fe80(5)));
    HOLDS(row->targets[0].seq == 5 && row->targets[0].plen == 0 && is_same(row->targets[0].addr, fd(9)));
    HOLDS(row->targets[1].seq == 6 && row->targets[1].plen == 127 && is_same(row->targets[1].addr, fd(0x20)));
    card_free(&c);
}

static void written_reply_row_and_route(void)
{
    card c = make();
    const message m = request(1, 1);
    const kajakulm_outcome o = card_hear(&c, 1000, m.octets, m.length, link_with(301, 1));
    const kajakulm_instance_row *row = &c.instances[1];
    const kajakulm_route_row *route = &c.routes[0];
    HOLDS(row->kind == KAJAKULM_REPLY && row->instance == 0x81 && row->seq == 241 && row->endless == 0);
    HOLDS(row->s == 0 && row->h == 0 && row->replied == 0 && row->count == 0);
    HOLDS(row->rank == 200 && row->deadline == 65000 && is_same(row->dodagid, fd(2)));
    HOLDS(route->kind == KAJAKULM_ROUTE && route->instance == 0x81 && route->seq == 77 && route->endless == 0);
    HOLDS(is_same(route->source, fd(2)) && is_same(route->destination, fd(1)) && is_same(route->next, fe80(5)));
    HOLDS(route->deadline == 16000);
    HOLDS(o.forward_way == KAJAKULM_GROUP && o.forward_length == 24 + 16 + 5 + 20 + 20);
    HOLDS(o.reply_way == KAJAKULM_NEIGHBOUR && o.reply_length == 24 + 16 + 5 + 20);
    HOLDS(is_same(o.reply_neighbour, fe80(5)));
    card_free(&c);
}

/* Both own addresses are added to the vector, the receiving one first; each link fact has its effect. */
static void settings_and_link(void)
{
    card c = make();
    message m = request(0, 0);
    kajakulm_link link = link_with(301, 1);
    HOLDS(card_hear(&c, 0, m.octets, m.length, link).forward_length == 24 + 16 + 5 + 48 + 20 + 20);
    HOLDS(is_same(c.forward + 61, fd(2)) && is_same(c.forward + 77, fd(3)));
    HOLDS(c.forward[2] == 1001 / 256 && c.forward[3] == 1001 % 256);
    m.octets[0] = 0x82;
    link.upward = 0;
    HOLDS(card_hear(&c, 0, m.octets, m.length, link).answer == KAJAKULM_LINK_NOT_GOOD);
    link.upward = 1;
    link.downward = 0;
    HOLDS(card_hear(&c, 0, m.octets, m.length, link).answer == KAJAKULM_DONE && c.instances[1].s == 0);
    m.octets[0] = 0x83;
    link.increase = 199;
    HOLDS(card_hear(&c, 0, m.octets, m.length, link).answer == KAJAKULM_RANK_REFUSED);
    card_free(&c);
}

static void start_fields(void)
{
    const kajakulm_target targets[2] = {{8, 0, {0xfd, [15] = 9}}, {9, 20, {0x20, 0x01, 0xdf}}};
    const uint8_t rreq[] = {0x0b, 3, 0x9f, 0xfb, 241, 0x0d, 18, 8, 0, 0xfd},
                  last[] = {0x0d, 5, 9, 20, 0x20, 0x01, 0xd0};
    card c = make();
    kajakulm_outcome o = card_start(&c, 7, targets, 2, (kajakulm_start_fields){0x77, 0, 15, 3, 123});
    HOLDS(o.answer == KAJAKULM_DONE && o.forward_length == 24 + 5 + 20 + 7 && o.forward_way == KAJAKULM_GROUP);
    HOLDS(c.forward[0] == 0x77 && is_same(c.forward + 8, fd(2)));
    HOLDS(memcmp(c.forward + 24, rreq, sizeof rreq) == 0 && memcmp(c.forward + 49, last, sizeof last) == 0);
    o = card_start(&c, 7, targets, 2, (kajakulm_start_fields){0x78, 200, 15, 3, 123});
    HOLDS(c.forward[26] == 0xc1 && c.instances[1].h == 1);
    card_free(&c);
}

/* ---- What the library reads */

/* A request row of every field as the host wrote it, updated by a better copy of the same request. */
static void read_request_row(void)
{
    const message m = request(0, 0);
    const kajakulm_instance_row old = {.kind = KAJAKULM_REQUEST,
                                       .instance = 0x81,
                                       .seq = 77,
                                       .s = 1,
                                       .h = 1,
                                       .count = 2,
                                       .rank = 1002,
                                       .dodagid = {0xfd, [15] = 1},
                                       .deadline = 4321,
                                       .targets = {{0, 0, {0xfd, [15] = 8}}, {0, 0, {0xfd, [15] = 9}}}};
    card c = make();
    c.instances[2] = old;
    HOLDS(card_hear(&c, 9, m.octets, m.length, link_with(302, 1)).answer == KAJAKULM_NOTHING_NEW);
    c.instances[2].replied = 1;
    HOLDS(card_hear(&c, 9, m.octets, m.length, link_with(301, 1)).answer == KAJAKULM_NOTHING_NEW);
    c.instances[2].replied = 0;
    c.instances[2].seq = 78;
    HOLDS(card_hear(&c, 9, m.octets, m.length, link_with(301, 1)).answer == KAJAKULM_STALE);
    c.instances[2].seq = 77;
    HOLDS(card_hear(&c, 9, m.octets, m.length, link_with(301, 1)).answer == KAJAKULM_DONE);
    HOLDS(c.instances[2].rank == 1001 && c.instances[2].deadline == 4321 && c.instances[2].h == 0);
    HOLDS(c.instances[2].count == 1 && is_same(c.instances[2].targets[0].addr, fd(9)));
    HOLDS(c.instances[0].kind == KAJAKULM_NOT_IN_USE);
    card_free(&c);
}

/* A partner row and a route as the host wrote them, and a symmetric hop-by-hop reply of fd00::9. */
static void read_partner_and_route(void)
{
    message m = {0};
    card c = make();
    kajakulm_outcome o;
    put_base(&m, 0x83, 256, fd(9));
    put_rrep(&m, (discovery){.h = 1, .l = 1, .number = 2}, NULL, 0);
    put_art(&m, 50, 0, fd(1));
    c.instances[3] = (kajakulm_instance_row){.kind = KAJAKULM_REQUEST,
                                             .instance = 0x81,
                                             .s = 7,
                                             .h = 7,
                                             .endless = 7,
                                             .dodagid = {0xfd, [15] = 1},
                                             .neighbour = {0xfe, 0x80, [15] = 66}};
    c.routes[2] = (kajakulm_route_row){.kind = KAJAKULM_ROUTE,
                                       .instance = 0x81,
                                       .seq = 51,
                                       .deadline = 10,
                                       .source = {0xfd, [15] = 1},
                                       .destination = {0xfd, [15] = 9}};
    HOLDS(card_hear(&c, 9, m.octets, m.length, link_with(0, 0)).answer == KAJAKULM_STALE);
    c.routes[2].seq = 50;
    o = card_hear(&c, 9, m.octets, m.length, link_with(0, 0));
    HOLDS(o.answer == KAJAKULM_DONE && o.forward_way == KAJAKULM_NEIGHBOUR && is_same(o.forward_neighbour, fe80(66)));
    HOLDS(c.routes[2].endless == 1 && c.routes[2].deadline == 0 && is_same(c.routes[2].next, fe80(5)));
    HOLDS(c.routes[0].kind == KAJAKULM_NOT_IN_USE);
    card_free(&c);
}

int main(void)
{
    written_request_row();
    written_reply_row_and_route();
    settings_and_link();
    start_fields();
    read_request_row();
    read_partner_and_route();
    printf("records: %lu calls, every field at its place\n", calls_made);
    return 0;
}
