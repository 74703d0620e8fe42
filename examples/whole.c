/* Paper 01's whole example through the library, and then the fault that led to this work: a calibration sheet that gave
 * the rank step as 1 where the card wanted 256, and a radio that went deaf. tools/host builds and runs it, and compares
 * what it prints with whole.out. */
#include <stdio.h>
#include <string.h>

#include "kajakulm.h"

/* All that one card keeps: the tables, clock and own number are the node; the buffers are used anew in each call. */
enum { ROWS = 4 };
struct card {
    kajakulm_settings own;
    kajakulm_instance_row instances[ROWS];
    kajakulm_route_row routes[ROWS];
    uint64_t clock;
    uint8_t seq;
    uint8_t forward[KAJAKULM_BUFFER_LEAST];
    uint8_t reply[KAJAKULM_BUFFER_LEAST];
    kajakulm_tally tally;
};

/* fd00::1 asks for a route to fd00::9: rank 768, S 1, H 1, L 1, RankLimit 7, Orig SeqNo 240. */
static const uint8_t request[49] = {
    0x81, 0, 0x03, 0x00, 0x20, 0, 0, 0,
    0xfd, 0, 0, 0, 0, 0, 0, 0, 0, 0, 0, 0, 0, 0, 0, 1,
    0x0b, 3, 0xc0, 0x87, 0xf0,
    0x0d, 18, 0, 0, 0xfd, 0, 0, 0, 0, 0, 0, 0, 0, 0, 0, 0, 0, 0, 0, 9,
};

/* What the sheet gave: a DODAG Configuration with MinHopRankIncrease 1 (and routes that last 10 s). */
static const uint8_t sheet[16] = {0x04, 14, 0, 0, 0, 0, 0, 0, 0, 1, 0, 0, 0, 10, 0, 1};
enum { STEP_AT = 24 + 8 }; /* where MinHopRankIncrease stands when the sheet follows the base object */

/* A fresh card, fd00::2. */
static void make_card(struct card *card)
{
    memset(card, 0, sizeof *card);
    card->own.receiving[0] = 0xfd;
    card->own.receiving[15] = 2;
    card->own.sending[0] = 0xfd;
    card->own.sending[15] = 2;
    card->clock = KAJAKULM_FRESH_CLOCK;
    card->seq = KAJAKULM_FRESH_SEQ;
}

/* One event: the message came to the group from the neighbour fe80::`last`, and the increase of that link is 256. */
static kajakulm_outcome hear(struct card *card, uint64_t time, uint8_t last, int to_neighbour, int from_neighbour,
                             const uint8_t *octets, size_t count)
{
    const uint8_t neighbour[KAJAKULM_ADDRESS] = {0xfe, 0x80, [15] = last};
    kajakulm_link link = kajakulm_link_facts(octets, count, neighbour, to_neighbour, from_neighbour, 256, 1);
    kajakulm_outcome outcome = kajakulm_message(card->instances, ROWS, card->routes, ROWS, card->forward,
                                                sizeof card->forward, card->reply, sizeof card->reply, octets, count,
                                                card->own, card->clock, card->seq, time, link, &card->tally);
    card->clock = outcome.clock;
    card->seq = outcome.seq;
    return outcome;
}

static void print_outcome(const struct card *card, const kajakulm_outcome *outcome)
{
    static const char *const ways[] = {"nowhere", "to the group", "to a neighbour", "to the caller"};
    printf("answer %u; forward %u octets %s; reply %u octets %s\n", outcome->answer, (unsigned)outcome->forward_length,
           ways[outcome->forward_way], (unsigned)outcome->reply_length, ways[outcome->reply_way]);
    for (size_t i = 0; i < outcome->forward_length; i++)
        printf("%02X%s", card->forward[i], i % 16 == 15 || i + 1 == outcome->forward_length ? "\n" : " ");
}

static void whole_example(void)
{
    struct card card;
    kajakulm_outcome outcome;

    printf("Paper 01's whole example: fd00::2 hears the request of fd00::1 from fe80::5.\n");
    make_card(&card);
    outcome = hear(&card, 0, 5, 1, 1, request, sizeof request);
    print_outcome(&card, &outcome);

    printf("\nThe same where the link is not good from fe80::5 to us (downward): C0 becomes 40, since S is 0.\n");
    make_card(&card);
    outcome = hear(&card, 0, 5, 1, 0, request, sizeof request);
    print_outcome(&card, &outcome);

    printf("\nThe same where the link is not good from us to fe80::5 (upward).\n");
    make_card(&card);
    outcome = hear(&card, 0, 5, 0, 1, request, sizeof request);
    print_outcome(&card, &outcome);
}

/* Ten requests, RPLInstanceIDs 0x81 to 0x8A, one every 20 s, with the Configuration of a sheet of that step. */
static void ten_requests(struct card *card, uint16_t step)
{
    uint8_t octets[sizeof request + sizeof sheet];
    memcpy(octets, request, 24);
    memcpy(octets + 24, sheet, sizeof sheet);
    memcpy(octets + 24 + sizeof sheet, request + 24, sizeof request - 24);
    octets[STEP_AT] = (uint8_t)(step >> 8);
    octets[STEP_AT + 1] = (uint8_t)step;
    for (uint8_t i = 0; i < 10; i++) {
        octets[0] = (uint8_t)(0x81 + i);
        kajakulm_outcome outcome = hear(card, (uint64_t)20000 * i, 5, 1, 1, octets, sizeof octets);
        printf("%u%s", outcome.answer, i < 9 ? " " : "\n");
    }
}

static void print_tally(const kajakulm_tally *tally)
{
    printf("tally:");
    for (unsigned i = 0; i < KAJAKULM_ANSWERS; i++)
        if (tally->counts[i] != 0)
            printf(" %u of answer %u", (unsigned)tally->counts[i], i);
    printf("\n");
}

static void deaf_radio(void)
{
    struct card card;

    printf("\nThe deaf radio: MinHopRankIncrease 1, rank 768, RankLimit 7. Ten requests, one every 20 s:\n");
    make_card(&card);
    ten_requests(&card, 1);
    print_tally(&card.tally);
    printf("12 is rank. With a step of 1, rank 768 reads as 768 hops, and RankLimit is 7: no request can pass.\n");
    printf("12 for every request at once, and no 3 or 11, is the Configuration; the radio is well.\n");

    printf("\nThe same with the sheet put right: the step is %d, and rank 768 reads as 3 hops.\n", KAJAKULM_RANK_STEP);
    make_card(&card);
    ten_requests(&card, KAJAKULM_RANK_STEP);
    print_tally(&card.tally);
}

int main(void)
{
    whole_example();
    deaf_radio();
    return 0;
}
