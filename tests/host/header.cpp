// The header in C++: it is read twice without harm, its asserts hold, and its names link as C's.
#include "kajakulm.h"
#include "kajakulm.h"

#include <cstdio>

int main()
{
    static kajakulm_instance_row instances[1];
    static kajakulm_route_row routes[1];
    static uint8_t forward[KAJAKULM_BUFFER_LEAST], reply[KAJAKULM_BUFFER_LEAST];
    const uint8_t neighbour[KAJAKULM_ADDRESS] = {0xfe, 0x80};
    kajakulm_settings own = {{0xfd}, {0xfd}};
    kajakulm_tally tally;
    kajakulm_clear(&tally);
    kajakulm_fresh(instances, 1, routes, 1);
    kajakulm_link link = kajakulm_link_facts(nullptr, 0, neighbour, 1, 1, KAJAKULM_RANK_STEP, 1);
    kajakulm_outcome o = kajakulm_message(instances, 1, routes, 1, forward, sizeof forward, reply, sizeof reply,
                                          nullptr, 0, own, KAJAKULM_FRESH_CLOCK, KAJAKULM_FRESH_SEQ, 0, link, &tally);
    std::printf("header: from C++, an empty message is answer %u\n", o.answer);
    return o.answer == KAJAKULM_MALFORMED && tally.counts[KAJAKULM_MALFORMED] == 1 ? 0 : 1;
}
