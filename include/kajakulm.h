/* Kajakulm: an AODV-RPL node (RFC 9854) as a C library, libkajakulm.a.
 *
 * One call handles one event: kajakulm_message a received DIO body, kajakulm_start the start of our own discovery. The
 * library keeps nothing between two calls, allocates nothing and calls nothing but memcpy, memmove and memset. All that
 * a node remembers stands in records that the host owns and lends for the time of one call:
 *
 *     two tables      instance rows (who asks for whom) and routes, each of any length from 0
 *     two numbers     the clock (the time of the last accepted call) and the own sequence number
 *     a tally         how often each answer was given; the node itself never reads it
 *
 * What the host does for one event:
 *
 *     1. take the time in ms, from a source that never runs backwards
 *     2. make the call, with the tables and the two numbers that the last call left
 *     3. keep outcome.clock and outcome.seq for the next call, whatever the answer
 *     4. if outcome.forward_length is not 0, send forward[0 .. forward_length) where forward_way says;
 *        if outcome.reply_length is not 0, send reply[0 .. reply_length) where reply_way says
 *
 * A host with a radio puts the ICMPv6 header before what it sends and takes it off what it receives. Timers of the
 * Trickle kind, keys and checksums are the host's too.
 *
 * docs/HOST.md says what is proved up to this header and what is not, how to keep a node over a restart, and what the
 * rules mean in the field. Words in capitals (RREQ, DODAGID, RPLInstanceID, ...) are those of RFC 9854 and RFC 6550. */
#ifndef KAJAKULM_H
#define KAJAKULM_H

#include <stddef.h>
#include <stdint.h>

#ifdef __cplusplus
extern "C" {
#endif

/* ---- Limits */

#define KAJAKULM_ADDRESS 16 /* octets of an IPv6 address */

#define KAJAKULM_MESSAGE_MOST 1236 /* a longer message is answer 1 */
#define KAJAKULM_BUFFER_LEAST 1236 /* a smaller buffer is answer 1, whether or not the call would use it */

#define KAJAKULM_TARGETS_MOST 8         /* targets of a request, a start or a row, repeats counted once */
#define KAJAKULM_VECTOR_MOST 16         /* addresses in a vector: those of the routers on the way */
#define KAJAKULM_VECTOR_OCTETS_MOST 252 /* octets that they may take, after Compr */
#define KAJAKULM_PREFIX_MOST 127        /* Prefix Length of a target; 0 is a whole address */
#define KAJAKULM_COMPR_MOST 15
#define KAJAKULM_LIMIT_MOST 127         /* RankLimit; 0 is no limit */

#define KAJAKULM_TIME_LAST (UINT64_C(1) << 40)     /* ms, some 34 years; a later time is answer 1 */
#define KAJAKULM_DEADLINE_LAST (UINT64_C(1) << 41) /* ms; a row in use with a later deadline is answer 2 */

#define KAJAKULM_FRESH_CLOCK 0 /* the clock of a fresh node */
#define KAJAKULM_FRESH_SEQ 240 /* the own sequence number of a fresh node */
#define KAJAKULM_RANK_STEP 256 /* MinHopRankIncrease where a message has no Configuration, and the rank of a start */

/* L, and how long an instance row with it lasts */
#define KAJAKULM_L_ENDLESS 0
#define KAJAKULM_L_16_S 1
#define KAJAKULM_L_64_S 2
#define KAJAKULM_L_256_S 3
#define KAJAKULM_L_16_S_MS 16000
#define KAJAKULM_L_64_S_MS 64000
#define KAJAKULM_L_256_S_MS 256000

/* ---- Answers
 *
 * Each call ends with one answer: the first line below that holds, so a higher number says that no lower line holds.
 * After 1 to 17 nothing is changed but the tally: tables, buffers, clock and own number are as they were handed in,
 * both lengths are 0 and both ways KAJAKULM_NOWHERE. docs/HOST.md, "In the field", has more on most of them. */
enum kajakulm_answer {
    /* Accepted. Keep clock and seq, and send what the lengths and ways say. Both lengths can be 0. */
    KAJAKULM_DONE = 0,

    /* A mistake in the call: a time before `clock` or above KAJAKULM_TIME_LAST; a buffer under
     * KAJAKULM_BUFFER_LEAST; a message above KAJAKULM_MESSAGE_MOST; an own address that is link-local (fe80::/10),
     * multicast (ff00::/8) or all zero; a start with no target, over KAJAKULM_TARGETS_MOST targets, or a field out
     * of its range. Correct the host. */
    KAJAKULM_BAD_CALL = 1,

    /* The state that was handed in is none that calls leave: own number 0; a row in use with over 8 targets, a
     * target's Prefix Length over 127 or a deadline above KAJAKULM_DEADLINE_LAST; two request rows, two reply rows
     * or two routes of one key, both live at `clock`. Somebody else wrote that memory. Every call is 2 until it is
     * repaired: put a good copy back, or make the tables fresh and keep the own number (if that is not 0). */
    KAJAKULM_WRONG_STATE = 2,

    /* The message is cut or malformed. One is noise; many from one neighbour are a fault there. */
    KAJAKULM_MALFORMED = 3,

    /* MOP is not 4, or the options are neither one RREQ and one ART or more, nor one RREP and one ART. DIOs of other
     * RPL networks on the same radio are 4: nothing to do. */
    KAJAKULM_UNFIT = 4,

    /* The DODAGID is link-local, multicast or all zero: a fault of the node that sent the message first. */
    KAJAKULM_BAD_DODAGID = 5,

    /* Over 16 vector addresses or over 8 targets: the node that sent the message first wants more than we can hold. */
    KAJAKULM_TOO_MANY = 6,

    /* The DODAGID is one of our addresses: our own request or reply came back. Usual; nothing to do. If it is none
     * of ours, another node has our address. */
    KAJAKULM_OWN_DODAGID = 7,

    /* A reply to a request that we have not heard, or whose row has died. Nothing to do here; OrigNode starts again. */
    KAJAKULM_NO_PARTNER = 8,

    /* One of our addresses stands in the vector where it must not, or not exactly once where it must. Usual for
     * requests that come back; nothing to do. */
    KAJAKULM_LOOP = 9,

    /* H is 0 and one of our addresses differs from the DODAGID in the first Compr octets, so that the vector cannot
     * name us. Start with a smaller Compr, or give all nodes one prefix. */
    KAJAKULM_CANNOT_ELIDE = 10,

    /* The link from us to the neighbour is not good: see kajakulm_link. Usual at the edge of a radio's reach. */
    KAJAKULM_LINK_NOT_GOOD = 11,

    /* The increase is under MinHopRankIncrease, our rank would be 65,535 or more, or the RankLimit is reached. The
     * last is usual far from OrigNode. 12 for everybody at once is a wrong MinHopRankIncrease in the Configuration,
     * or increases that do not fit it. */
    KAJAKULM_RANK_REFUSED = 12,

    /* The sequence number is older than the one that a live row or route holds, or not comparable with it. Usual for
     * late copies. 13 for all that one node sends: it forgot its own number, or an old route of it stands in our
     * table. */
    KAJAKULM_STALE = 13,

    /* A message: a copy of what we have, by a path that is not better. Usual; nothing to do.
     * A start: a request row of ours with that RPLInstanceID is live. Wait for its deadline, or use another. */
    KAJAKULM_NOTHING_NEW = 14,

    /* All 64 numbers for a reply of ours to this RPLInstanceID are taken by live reply rows. They come free as the
     * rows die. Let nodes that ask use RPLInstanceIDs 64 apart, or a shorter L. */
    KAJAKULM_NO_DELTA = 15,

    /* With our addresses the vector would be past 16 addresses or 252 octets. The path is too long for a source
     * route: start with a larger Compr, or with H 1. */
    KAJAKULM_VECTOR_FULL = 16,

    /* A table has too few rows that are not live. Rows with a deadline come free by themselves. Lend longer tables,
     * or take old endless rows out of use. */
    KAJAKULM_NO_ROW = 17,

    KAJAKULM_ANSWERS = 18 /* how many answers there are */
};

/* ---- Records
 *
 * All numbers are in the machine's own order; an address is 16 octets as on the air. Every value of every field has a
 * meaning, so there is no octet that a host must not hand in; what is not usable is refused by its number. Octets of a
 * row that are no field (padding) mean nothing, and may hold anything after a call wrote the row. */

/* A target with its Dest SeqNo. */
typedef struct {
    uint8_t seq;  /* Dest SeqNo; 0 if none is known */
    uint8_t plen; /* Prefix Length, 0 .. 127; 0 is a whole address */
    uint8_t addr[KAJAKULM_ADDRESS]; /* bits past the prefix are ignored, stored and sent as zero */
} kajakulm_target;

/* One row of the instance table. The host zeroes it before the first call and may read it between two calls. `kind` is
 * the only field that matters in a row that is not in use.
 *
 * A row is live at a time if it is in use and `endless` is not 0 or `deadline` is later than that time. Rows that are
 * not live are free for new ones: the host does not have to clear them. */
typedef struct {
    uint8_t kind;     /* KAJAKULM_REQUEST, KAJAKULM_REPLY; every other value: not in use */
    uint8_t instance; /* RPLInstanceID; with `dodagid` the key of the row */
    uint8_t seq;      /* request: Orig SeqNo; reply: Dest SeqNo */
    uint8_t s;        /* request: S, not 0 if every link so far is good both ways */
    uint8_t h;        /* request: H, not 0 for hop-by-hop routes, 0 for source routes */
    uint8_t replied;  /* request: not 0 if we are TargNode and have replied */
    uint8_t endless;  /* not 0: the row has no deadline */
    uint8_t count;    /* request: how many of `targets` are the row's */
    uint16_t rank;    /* our own rank */
    uint8_t dodagid[KAJAKULM_ADDRESS];   /* request: OrigNode; reply: TargNode */
    uint8_t neighbour[KAJAKULM_ADDRESS]; /* request: from whom it came; all zero in a row of our own start */
    kajakulm_target targets[KAJAKULM_TARGETS_MOST];
    uint64_t deadline; /* ms */
} kajakulm_instance_row;

enum kajakulm_kind { KAJAKULM_NOT_IN_USE = 0, KAJAKULM_REQUEST = 1, KAJAKULM_REPLY = 2 };

/* One row of the route table: made for hop-by-hop routes (H 1) alone. Live as above.
 *
 *     towards TargNode: source is OrigNode, destination is TargNode
 *     towards OrigNode: source is our own receiving address, destination is OrigNode */
typedef struct {
    uint8_t kind;     /* KAJAKULM_ROUTE; every other value: not in use */
    uint8_t instance; /* RPLInstanceID of the request; with `source` and `destination` the key of the route */
    uint8_t seq;      /* the number that it was made with */
    uint8_t endless;  /* not 0: no deadline, as where the message had no Configuration or Default Lifetime 255 */
    uint8_t source[KAJAKULM_ADDRESS];
    uint8_t destination[KAJAKULM_ADDRESS];
    uint8_t next[KAJAKULM_ADDRESS]; /* the next hop: kajakulm_link.neighbour of the message that made it */
    uint64_t deadline;              /* ms */
} kajakulm_route_row;

enum kajakulm_route_kind { KAJAKULM_ROUTE = 1 };

/* Our two addresses; they may be the same. Neither may be link-local, multicast or all zero (answer 1). They are the
 * node's settings: a node whose tables are kept keeps them too. */
typedef struct {
    uint8_t receiving[KAJAKULM_ADDRESS];
    uint8_t sending[KAJAKULM_ADDRESS];
} kajakulm_settings;

/* What the host knows of the link that a message came by.
 *
 * Upward is towards OrigNode, downward is towards TargNode. A request comes from OrigNode's side and a reply from
 * TargNode's side, so which of the two is "from us to the neighbour" depends on the message:
 *
 *     a request (it has an RREQ option)
 *
 *         OrigNode ....... neighbour ==== RREQ ====> us ........ TargNode
 *                          neighbour <--- upward --- us          from us to the neighbour: not good is answer 11
 *                          neighbour -- downward --> us          from the neighbour to us: not good makes S 0
 *
 *     a reply (it has an RREP option)
 *
 *         OrigNode ....... us <==== RREP ==== neighbour ........ TargNode
 *                          us <--- upward --- neighbour          from the neighbour to us: never asked
 *                          us -- downward --> neighbour          from us to the neighbour: not good is answer 11,
 *                                                                unless the reply came to us alone and S of its
 *                                                                request is 1
 *
 * kajakulm_link_facts below puts the two in their places. */
typedef struct {
    uint8_t neighbour[KAJAKULM_ADDRESS]; /* who sent it: what a route's next hop and a reply's way back shall be */
    uint8_t upward;    /* not 0: the link is good upward */
    uint8_t downward;  /* not 0: the link is good downward */
    uint16_t increase; /* rank increase: our rank is the message's plus this. Under MinHopRankIncrease: answer 12 */
    uint8_t group;     /* not 0: the message came to the group; 0: to us alone */
} kajakulm_link;

/* What a start of our own discovery asks. */
typedef struct {
    uint8_t instance; /* RPLInstanceID: any octet without a live request row of ours (answer 14) */
    uint8_t h;        /* not 0: hop-by-hop routes; 0: a source route, handed to the caller when the reply comes */
    uint8_t compr;    /* 0 .. 15: leading octets that all addresses share and the vector leaves out; H 1 sends 0 */
    uint8_t l;        /* KAJAKULM_L_...: how long routers keep the request. With 0 this RPLInstanceID has one try */
    uint8_t limit;    /* RankLimit in hops, 0 .. 127; 0 is no limit */
} kajakulm_start_fields;

/* How many calls had each answer, modulo 2^32. Cleared by the host, raised by each call, read and cleared by the host
 * at any time between two calls. No part of the node's state: clearing it changes no answer. */
typedef struct {
    uint32_t counts[KAJAKULM_ANSWERS];
} kajakulm_tally;

/* What a call comes to. */
typedef struct {
    uint8_t answer;      /* KAJAKULM_DONE, ... */
    uint8_t seq;         /* the own sequence number for the next call */
    uint8_t forward_way; /* KAJAKULM_NOWHERE, ... */
    uint8_t reply_way;
    uint64_t forward_length; /* octets written at the front of the forward buffer */
    uint64_t reply_length;   /* octets written at the front of the reply buffer */
    uint64_t clock;          /* the clock for the next call */
    uint8_t forward_neighbour[KAJAKULM_ADDRESS]; /* all zero unless the way is KAJAKULM_NEIGHBOUR */
    uint8_t reply_neighbour[KAJAKULM_ADDRESS];
} kajakulm_outcome;

/* Where a buffer's octets are to go. */
enum kajakulm_way {
    KAJAKULM_NOWHERE = 0,   /* exactly where the length is 0 */
    KAJAKULM_GROUP = 1,     /* a DIO body, to the group all-AODV-RPL-nodes */
    KAJAKULM_NEIGHBOUR = 2, /* a DIO body, to the address beside the length, alone */
    KAJAKULM_CALLER = 3     /* no message: the source route that we asked for. Length / 16 whole addresses, the router
                             * next to us first, without ourselves and without TargNode; a router with two addresses
                             * stands there with both. The forward buffer only */
};

/* ---- Calls
 *
 * What is lent, and for how long. All pointers are read and written during the call alone; the library keeps none.
 *
 *     instances, routes   The host's. Read, and written by an accepted call. A count of 0 is allowed, also with NULL.
 *     forward, reply      The host's. At least KAJAKULM_BUFFER_LEAST octets each, whatever stands in them. An accepted
 *                         call writes as many octets as the lengths say, at the front; all others keep what they held.
 *                         The host may use them for something else between two calls.
 *     octets              The host's. Only read. The DIO body: what follows the four octets of the ICMPv6 header. A
 *                         count of 0 is allowed, also with NULL. All octets are allowed: this is what came by radio.
 *     targets             The host's. Only read. A count of 0 is allowed, also with NULL (answer 1).
 *     tally               The host's. One count is raised by one. Must not be NULL.
 *     all others          By value.
 *
 *     own                 our addresses
 *     clock, seq          of the last outcome, or KAJAKULM_FRESH_CLOCK and KAJAKULM_FRESH_SEQ
 *     time                now, in ms; not before `clock`. The host chooses where its 0 is, once for the tables' life
 *     link, start         see there; any values are allowed
 *
 * What the library asks of the host and cannot check itself: each pointer leads to as many records or octets as its
 * count says, aligned as its type; what is written (tables, buffers, tally) overlaps with nothing else that is lent;
 * and during the call nobody else writes what is lent or reads what the call writes. Two nodes with records of their
 * own may be called at the same time; one node may not. */

kajakulm_outcome kajakulm_message(kajakulm_instance_row *instances, size_t instance_count,
                                  kajakulm_route_row *routes, size_t route_count,
                                  uint8_t *forward, size_t forward_size,
                                  uint8_t *reply, size_t reply_size,
                                  const uint8_t *octets, size_t octet_count,
                                  kajakulm_settings own, uint64_t clock, uint8_t seq, uint64_t time,
                                  kajakulm_link link, kajakulm_tally *tally);

/* An accepted start writes a request for the group into the forward buffer, steps the own number and takes one instance
 * row. Its answers are 0, 1, 2, 10, 14 and 17. */
kajakulm_outcome kajakulm_start(kajakulm_instance_row *instances, size_t instance_count,
                                kajakulm_route_row *routes, size_t route_count,
                                uint8_t *forward, size_t forward_size,
                                uint8_t *reply, size_t reply_size,
                                const kajakulm_target *targets, size_t target_count,
                                kajakulm_settings own, uint64_t clock, uint8_t seq, uint64_t time,
                                kajakulm_start_fields start, kajakulm_tally *tally);

/* ---- Small helpers. They are plain C and not part of what is proved. */

/* The tables of a fresh node: no row in use. Its clock is KAJAKULM_FRESH_CLOCK, its own number KAJAKULM_FRESH_SEQ.
 * Tables of zeros, as static ones are at the start of a program, are fresh already. */
static inline void kajakulm_fresh(kajakulm_instance_row *instances, size_t instance_count,
                                  kajakulm_route_row *routes, size_t route_count)
{
    for (size_t i = 0; i < instance_count; i++)
        instances[i].kind = KAJAKULM_NOT_IN_USE;
    for (size_t i = 0; i < route_count; i++)
        routes[i].kind = KAJAKULM_NOT_IN_USE;
}

static inline void kajakulm_clear(kajakulm_tally *tally)
{
    for (size_t i = 0; i < KAJAKULM_ANSWERS; i++)
        tally->counts[i] = 0;
}

/* Whether an option of a DIO body is an RREP: not 0, then it is a reply. Of what is no message at all (answers 3 and 4)
 * either may come out. */
static inline int kajakulm_is_reply(const uint8_t *octets, size_t octet_count)
{
    size_t at = 24; /* the options stand behind the base object */
    while (at < octet_count) {
        if (octets[at] == 0x0c)
            return 1;
        if (octets[at] == 0) /* Pad1 has no length octet */
            at += 1;
        else if (octet_count - at < 2)
            return 0;
        else
            at += (size_t)2 + octets[at + 1];
    }
    return 0;
}

/* The link facts of a message, from what a radio knows: is the link good from us to the neighbour, is it good from the
 * neighbour to us. */
static inline kajakulm_link kajakulm_link_facts(const uint8_t *octets, size_t octet_count,
                                                const uint8_t neighbour[KAJAKULM_ADDRESS], int to_neighbour,
                                                int from_neighbour, uint16_t increase, int group)
{
    kajakulm_link link;
    int reply = kajakulm_is_reply(octets, octet_count);
    for (size_t i = 0; i < KAJAKULM_ADDRESS; i++)
        link.neighbour[i] = neighbour[i];
    link.upward = (reply ? from_neighbour : to_neighbour) != 0;
    link.downward = (reply ? to_neighbour : from_neighbour) != 0;
    link.increase = increase;
    link.group = group != 0;
    return link;
}

/* ---- Layout: what the library was built for. A compiler that lays a record out otherwise stops here. */

#ifdef __cplusplus
#define KAJAKULM_HOLDS(fact) static_assert(fact, #fact)
#else
#define KAJAKULM_HOLDS(fact) _Static_assert(fact, #fact)
#endif
#define KAJAKULM_SIZE(type, octets) KAJAKULM_HOLDS(sizeof(type) == (octets))
#define KAJAKULM_AT(type, field, octets) KAJAKULM_HOLDS(offsetof(type, field) == (octets))

KAJAKULM_SIZE(kajakulm_target, 18);
KAJAKULM_AT(kajakulm_target, seq, 0);
KAJAKULM_AT(kajakulm_target, plen, 1);
KAJAKULM_AT(kajakulm_target, addr, 2);

KAJAKULM_SIZE(kajakulm_instance_row, 200);
KAJAKULM_AT(kajakulm_instance_row, kind, 0);
KAJAKULM_AT(kajakulm_instance_row, instance, 1);
KAJAKULM_AT(kajakulm_instance_row, seq, 2);
KAJAKULM_AT(kajakulm_instance_row, s, 3);
KAJAKULM_AT(kajakulm_instance_row, h, 4);
KAJAKULM_AT(kajakulm_instance_row, replied, 5);
KAJAKULM_AT(kajakulm_instance_row, endless, 6);
KAJAKULM_AT(kajakulm_instance_row, count, 7);
KAJAKULM_AT(kajakulm_instance_row, rank, 8);
KAJAKULM_AT(kajakulm_instance_row, dodagid, 10);
KAJAKULM_AT(kajakulm_instance_row, neighbour, 26);
KAJAKULM_AT(kajakulm_instance_row, targets, 42);
KAJAKULM_AT(kajakulm_instance_row, deadline, 192);

KAJAKULM_SIZE(kajakulm_route_row, 64);
KAJAKULM_AT(kajakulm_route_row, kind, 0);
KAJAKULM_AT(kajakulm_route_row, instance, 1);
KAJAKULM_AT(kajakulm_route_row, seq, 2);
KAJAKULM_AT(kajakulm_route_row, endless, 3);
KAJAKULM_AT(kajakulm_route_row, source, 4);
KAJAKULM_AT(kajakulm_route_row, destination, 20);
KAJAKULM_AT(kajakulm_route_row, next, 36);
KAJAKULM_AT(kajakulm_route_row, deadline, 56);

KAJAKULM_SIZE(kajakulm_settings, 32);
KAJAKULM_AT(kajakulm_settings, receiving, 0);
KAJAKULM_AT(kajakulm_settings, sending, 16);

KAJAKULM_SIZE(kajakulm_link, 22);
KAJAKULM_AT(kajakulm_link, neighbour, 0);
KAJAKULM_AT(kajakulm_link, upward, 16);
KAJAKULM_AT(kajakulm_link, downward, 17);
KAJAKULM_AT(kajakulm_link, increase, 18);
KAJAKULM_AT(kajakulm_link, group, 20);

KAJAKULM_SIZE(kajakulm_start_fields, 5);
KAJAKULM_AT(kajakulm_start_fields, instance, 0);
KAJAKULM_AT(kajakulm_start_fields, h, 1);
KAJAKULM_AT(kajakulm_start_fields, compr, 2);
KAJAKULM_AT(kajakulm_start_fields, l, 3);
KAJAKULM_AT(kajakulm_start_fields, limit, 4);

KAJAKULM_SIZE(kajakulm_tally, 72);
KAJAKULM_AT(kajakulm_tally, counts, 0);

KAJAKULM_SIZE(kajakulm_outcome, 64);
KAJAKULM_AT(kajakulm_outcome, answer, 0);
KAJAKULM_AT(kajakulm_outcome, seq, 1);
KAJAKULM_AT(kajakulm_outcome, forward_way, 2);
KAJAKULM_AT(kajakulm_outcome, reply_way, 3);
KAJAKULM_AT(kajakulm_outcome, forward_length, 8);
KAJAKULM_AT(kajakulm_outcome, reply_length, 16);
KAJAKULM_AT(kajakulm_outcome, clock, 24);
KAJAKULM_AT(kajakulm_outcome, forward_neighbour, 32);
KAJAKULM_AT(kajakulm_outcome, reply_neighbour, 48);

#undef KAJAKULM_AT
#undef KAJAKULM_SIZE
#undef KAJAKULM_HOLDS

#ifdef __cplusplus
}
#endif

#endif
