/*
 * The two lamps of a lorry, in C. The unit is fitted mirrored: it sends links in its own numbers, and the mask of the bodywork and
 * the cells of the answer are in the lorry's, where sector s of the unit is sector (64 - s) mod 64. A thing that hangs together
 * with the bodywork leaves the lamps dark; anything else that is seen in a zone lights its lamp, and a number lights both: a panel
 * that does not know lights the lamps.
 */
#include <stdio.h>

#include "kerb.h"

static struct kerb_book book;
static uint16_t the_log[KERB_LOG_PLACES];
static uint8_t body[KERB_CELLS]; /* 1 for each cell of the lorry's own bodywork */

/* Says a number that is not 0. */
static bool done(const char *call, uint8_t number)
{
    if (number != KERB_DONE)
        printf("%s: number %u, %s\n", call, (unsigned)number, kerb_status_text(number));
    return number == KERB_DONE;
}

static void show(const char *name, bool lit, uint16_t cell)
{
    printf("%s %s", name, lit ? "lit" : "dark");
    if (cell != 0) /* cell 0, dead ahead, is in no zone: it lights no lamp */
        printf(" by cell %u (ring %u, sector %u)", (unsigned)cell, (unsigned)kerb_ring(cell), (unsigned)kerb_sector(cell));
}

/* Asks for the lamps with this many bytes of the mask, and shows them. */
static void show_lamps(size_t mask_bytes)
{
    const struct kerb_lamps_answer lamps = kerb_lamps(&book, KERB_PLACES(the_log), body, mask_bytes);
    const bool unknown = !done("lamps", lamps.number);

    printf("tick %lu, slide %llu: ", (unsigned long)kerb_time(&book), (unsigned long long)kerb_open_slide(&book));
    show("left", unknown || lamps.left, lamps.left_cell);
    show(", right", unknown || lamps.right, lamps.right_cell);
    printf("\n");
}

/* The tail lift's cells are bodywork. */
static void set_body(void)
{
    static const uint16_t lift[] = { 0, 1, 2 }; /* in the unit's numbers */
    size_t i;

    for (i = 0; i < sizeof lift / sizeof lift[0]; i++) {
        const uint16_t cell = kerb_lorry_cell(KERB_MIRRORED, lift[i]);

        body[cell] = 1;
        printf("bodywork: the unit's %u, the lorry's %u\n", (unsigned)lift[i], (unsigned)cell);
    }
}

int main(void)
{
    /* the lift; a walker beside it, on the left; one link that ties the two; a post on the right; the walker again */
    static const struct kerb_record links[] = { { 1000, 0, 1 },   { 1003, 1, 2 },   { 1040, 66, 67 }, { 1050, 2, 66 },
                                                { 1110, 61, 62 }, { 1130, 66, 67 }, { 1210, 66, 67 } };
    const struct kerb_settings settings = { 1000, 100, 2, KERB_MIRRORED };
    struct kerb_settings never_set = settings;
    struct kerb_slide_answer ticks;
    size_t i;

    never_set.mounting = 0;
    if (done("opening without a mounting", kerb_opening(&book, KERB_PLACES(the_log), never_set)))
        return 1;
    show_lamps(sizeof body);
    if (!done("opening", kerb_opening(&book, KERB_PLACES(the_log), settings)))
        return 1;
    set_body();
    for (i = 0; i < sizeof links / sizeof links[0]; i++) {
        if (!done("link", kerb_link(&book, KERB_PLACES(the_log), links[i].tick, links[i].one, links[i].other)))
            return 1;
        show_lamps(sizeof body);
    }
    ticks = kerb_slide_ticks(&book, kerb_open_slide(&book));
    printf("the open slide has ticks %lu to %lu\n", (unsigned long)ticks.first, (unsigned long)ticks.last);
    if (done("clock", kerb_clock(&book, KERB_PLACES(the_log), 1209)))
        return 1;
    /* the post is passed: its link leaves the window with the clock */
    if (!done("clock", kerb_clock(&book, KERB_PLACES(the_log), 1300)))
        return 1;
    show_lamps(sizeof body);
    show_lamps(sizeof body - 1);
    return 0;
}
