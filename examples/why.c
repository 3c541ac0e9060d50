/*
 * Why is the lamp dark? The book of the listing in docs/RULES.md (9.2), from C: five links, two questions, and the chain that
 * answers them.
 */
#include <stdio.h>

#include "kerb.h"

static uint16_t the_log[KERB_LOG_PLACES];
static uint16_t the_chain[KERB_CHAIN_PLACES];
static struct kerb_book book;

static void ask(uint16_t one, uint16_t other)
{
    const struct kerb_joined_answer joined = kerb_joined(&book, one, other);
    const struct kerb_chain_answer chain = kerb_chain(&book, KERB_PLACES(the_log), one, other, KERB_PLACES(the_chain));
    unsigned place;

    printf("%u and %u: %s, %u steps;", (unsigned)one, (unsigned)other, joined.yes ? "joined" : "not joined",
           (unsigned)joined.steps);
    if (chain.number == KERB_NO_TRAIL) {
        printf(" no trail\n");
        return;
    }
    printf(" chain");
    for (place = 0; place < chain.cells; place++)
        printf(" %u", (unsigned)the_chain[place]);
    printf(", from slide %llu on, hold %u\n", (unsigned long long)chain.newest, (unsigned)chain.hold);
}

static void link_at(uint32_t tick, uint16_t one, uint16_t other)
{
    const uint8_t number = kerb_link(&book, KERB_PLACES(the_log), tick, one, other);

    printf("link %u %u at tick %lu: number %u\n", (unsigned)one, (unsigned)other, (unsigned long)tick, (unsigned)number);
}

int main(void)
{
    static const struct kerb_record links[] = { { 0, 1, 2 }, { 10, 2, 3 }, { 20, 3, 4 }, { 30, 5, 6 }, { 45, 4, 5 } };
    const struct kerb_settings settings = { 0, 10, 3, KERB_PLAIN };
    size_t i;

    book = kerb_never_opened();
    link_at(0, 1, 2);
    printf("opening: number %u\n", (unsigned)kerb_opening(&book, KERB_PLACES(the_log), settings));
    for (i = 0; i < sizeof links / sizeof links[0]; i++)
        link_at(links[i].tick, links[i].one, links[i].other);
    link_at(44, 4, 5);
    ask(3, 6);
    ask(2, 3);
    printf("clock 50: number %u\n", (unsigned)kerb_clock(&book, KERB_PLACES(the_log), 50));
    ask(3, 6);
    ask(4, 6);
    ask(6, 6);
    return 0;
}
