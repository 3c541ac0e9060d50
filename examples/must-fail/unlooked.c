/* A number that nobody looks at. The compiler has to warn, at each of the lines marked so, and nowhere else. */
#include "kerb.h"

static struct kerb_book book;
static uint16_t the_log[KERB_LOG_PLACES];
static uint16_t cells[KERB_CELLS], sizes[KERB_CELLS];
static uint8_t bytes[KERB_LISTING_BYTES];

int main(void)
{
    const struct kerb_settings settings = { 0, 10, 3, KERB_PLAIN };

    kerb_opening(&book, KERB_PLACES(the_log), settings);                                           /* warns */
    kerb_link(&book, KERB_PLACES(the_log), 0, 1, 2);                                               /* warns */
    kerb_clock(&book, KERB_PLACES(the_log), 1);                                                    /* warns */
    kerb_joined(&book, 1, 2);                                                                      /* warns */
    kerb_chain(&book, KERB_PLACES(the_log), 1, 2, KERB_PLACES(cells));                             /* warns */
    kerb_groups(&book, KERB_PLACES(the_log), KERB_PLACES(cells), KERB_PLACES(sizes), KERB_PLACES(bytes)); /* warns */
    kerb_lamps(&book, KERB_PLACES(the_log), KERB_PLACES(bytes));                                   /* warns */
    kerb_play(&book, KERB_PLACES(the_log), bytes, 24);                                             /* warns */
    kerb_read(bytes, 24);                                                                          /* warns */
    kerb_write(settings, bytes, 8, KERB_PLACES(bytes));                                            /* warns */
    kerb_list(bytes, 24, KERB_PLACES(bytes));                                                      /* warns */
    kerb_pack(0, 1, 2, KERB_PLACES(bytes));                                                        /* warns */
    kerb_unpack(bytes, 24, 0);                                                                     /* warns */
    kerb_text_in(settings, bytes, 24, KERB_PLACES(bytes));                                         /* warns */
    kerb_text_out(bytes, 24, KERB_PLACES(bytes));                                                  /* warns */
    return kerb_version() == KERB_VERSION ? 0 : 1;
}
