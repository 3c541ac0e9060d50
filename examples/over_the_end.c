/*
 * A lorry is left powered at the depot, and the unit's counter passes its end: after tick 4,294,967,295 comes 0. The book counts on:
 * links from before the end and after it are one window, each in the slide of its total. Then a silence that is too long: the next
 * tick is refused, and the panel opens the book anew. With a clock call a day it does not come to that.
 */
#include <stdio.h>

#include "kerb.h"

static struct kerb_book book;
static uint16_t the_log[KERB_LOG_PLACES];
static uint16_t the_chain[KERB_CHAIN_PLACES];

static const uint32_t day = 24u * 60 * 60 * 1000; /* in ticks */

static void show(const char *what, uint8_t number)
{
    printf("%s: number %u; tick %lu, total %llu, slide %llu\n", what, (unsigned)number, (unsigned long)kerb_time(&book),
           (unsigned long long)book.clock.total, (unsigned long long)kerb_open_slide(&book));
}

/* Opens the book at this tick. */
static bool open_at(uint32_t tick)
{
    struct kerb_settings settings = { 0, 100, 5, KERB_PLAIN };

    settings.t0 = tick;
    return kerb_opening(&book, KERB_PLACES(the_log), settings) == KERB_DONE;
}

/* The clock call of a panel. A number 4 is a clock that was set back, or a silence that was too long: nobody knows what the book still
   has in common with what is there, so it is opened anew. */
static uint8_t clock_at(uint32_t tick)
{
    const uint8_t number = kerb_clock(&book, KERB_PLACES(the_log), tick);

    if (number == KERB_EARLY && !open_at(tick))
        return KERB_SETTINGS;
    return number;
}

int main(void)
{
    /* 96 and 161 before the end; 95 and 96, 161 and 162 after it */
    static const struct kerb_record links[] = { { 4294967250u, 96, 161 }, { 104, 95, 96 }, { 154, 161, 162 } };
    struct kerb_chain_answer why;
    struct kerb_slide_answer slide;
    uint32_t tick;
    size_t i;

    if (!open_at(4294967000u))
        return 1;
    show("opened", KERB_DONE);
    for (i = 0; i < sizeof links / sizeof links[0]; i++)
        show("link", kerb_link(&book, KERB_PLACES(the_log), links[i].tick, links[i].one, links[i].other));

    why = kerb_chain(&book, KERB_PLACES(the_log), 95, 162, KERB_PLACES(the_chain));
    printf("95 and 162: number %u, from slide %llu on, hold %u, chain", (unsigned)why.number,
           (unsigned long long)why.newest, (unsigned)why.hold);
    for (i = 0; i < why.cells; i++)
        printf(" %u", (unsigned)the_chain[i]);
    slide = kerb_slide_ticks(&book, why.newest);
    printf("\nslide %llu: ticks %lu to %lu, totals %llu to %llu\n", (unsigned long long)why.newest, (unsigned long)slide.first,
           (unsigned long)slide.last, (unsigned long long)slide.first_total, (unsigned long long)slide.last_total);

    /* a tick before the book's time is refused, on either side of the end */
    show("clock 153", kerb_clock(&book, KERB_PLACES(the_log), 153));
    show("clock 4294967295", kerb_clock(&book, KERB_PLACES(the_log), 4294967295u));

    /* sixty days on end, with a clock call a day: the counter goes round once more, and the total goes on */
    tick = kerb_time(&book);
    for (i = 0; i < 60; i++) {
        tick += day;
        if (clock_at(tick) != KERB_DONE)
            return 1;
    }
    show("sixty days on", KERB_DONE);

    /* thirty days without a call */
    tick += 30 * day;
    show("after thirty days of silence", clock_at(tick));
    return 0;
}
