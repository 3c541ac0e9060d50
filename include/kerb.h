/*
 * The book of links for one blind-spot lidar, for C (C99 and later) and C++.
 *
 *     static struct kerb_book book;                      (all zero bytes: a book that was never opened)
 *     static uint16_t log[KERB_LOG_PLACES];
 *     static uint8_t body[KERB_CELLS];                   (1 for each cell of the lorry's own bodywork)
 *     struct kerb_settings settings = {.t0 = now, .b = 100, .n = 8, .mounting = KERB_PLAIN};
 *
 *     uint8_t number = kerb_opening(&book, KERB_PLACES(log), settings);
 *     number = kerb_link(&book, KERB_PLACES(log), tick, one, other);
 *     struct kerb_lamps_answer lamps = kerb_lamps(&book, KERB_PLACES(log), KERB_PLACES(body));
 *     if (lamps.left || lamps.number != KERB_DONE) ...   (light the left lamp)
 *
 * TICKS GO ROUND: the unit counts milliseconds in 32 bits, and after 4,294,967,295 comes 0. The book keeps the total, the ticks
 * since T0 with every pass of the counter's end counted; its time is the latest tick that it has taken. A tick's difference is how
 * far it is ahead of the time as the counter goes: (tick - time) mod 4,294,967,296. Below 2,147,483,648 it is added to the total;
 * any other tick is refused with 4, as one before the time. The slide of a tick is the total that it makes, divided by B. So A
 * TICK'S SLIDE DOES NOT FOLLOW FROM THE TICK ALONE: it comes from the total of all that the book has taken since T0.
 *
 * CALL kerb_clock AT LEAST ONCE A DAY, while nothing is seen too. After a silence of 24.9 to 49.7 days (2,147,483,648 to
 * 4,294,967,295 ms) the next tick is refused with 4, and the book has to be opened anew. After a longer one the counter has gone
 * all the way round, and nothing can see it: a link from before the silence may then count as if it were just seen.
 *
 * Link with libkerb.a, which wants no more of the C library than memcpy, memmove and memset. Every function answers every input.
 * What it cannot do it refuses by a number of `enum kerb_number`, and then the book and all lent places are as they were and
 * the other fields of the answer are 0 (kerb_play alone keeps the records before the one that it refuses, and kerb_text_in alone
 * says which line it refuses). Beside each function stand its refusals in the order in which they are asked, and the stack that
 * it takes at most, below its caller's frame.
 *
 * What the proofs take for granted of a caller in C:
 *   - a pointer is not NULL (not even where its length is 0), is aligned for its type, and stands for as many places as the
 *     length beside it says. LENGTHS COUNT PLACES, NOT BYTES: `sizeof log` compiles and is wrong. KERB_PLACES(log) hands
 *     over an array and its length in one;
 *   - what a call writes to overlaps nothing else that the call is lent;
 *   - the stack has room;
 *   - two threads do not use one book at once, unless both only ask.
 *
 * A book has no padding and no pointer in it: its bytes can be copied, stored over a battery swap and compared. One that was stored
 * by an earlier version is worth nothing to this one: it has another size and layout. So a panel stores KERB_VERSION beside the
 * book, and opens a book anew where another version comes back, or none.
 */
#ifndef KERB_H
#define KERB_H

#include <stdbool.h>
#include <stddef.h>
#include <stdint.h>

/* The version of this header. A library of another version does not link: see kerb_opening. */
#define KERB_VERSION 3u

/* A number that nobody looks at is an alarm that nobody hears: the compiler warns where it can. */
#if defined(__GNUC__) || defined(__clang__)
#define KERB_LOOK_AT __attribute__((warn_unused_result))
#elif defined(_MSC_VER)
#define KERB_LOOK_AT _Check_return_
#else
#define KERB_LOOK_AT
#endif

/* An array and how many places it has, for two neighbouring arguments. For arrays alone: of a pointer it would be wrong. */
#define KERB_PLACES(array) (array), (sizeof(array) / sizeof((array)[0]))

#ifdef __cplusplus
extern "C" {
#endif

enum {
    KERB_CELLS = 1024,
    /* places that a log and a chain buffer need */
    KERB_LOG_PLACES = 16384,
    KERB_CHAIN_PLACES = 1024,
    /* bytes of a record, of the longest link file, of the text that kerb_list needs room for, and of the longest text that
       kerb_text_out gives: 8,000 lines of 23 bytes */
    KERB_RECORD_BYTES = 8,
    KERB_FILE_BYTES = 64024,
    KERB_LISTING_BYTES = 20480,
    KERB_TEXT_BYTES = 184000
};

/* The numbers that a call can give. kerb_status_text has them in words. */
enum kerb_number {
    KERB_DONE = 0,
    KERB_NO_BOOK = 1,     /* the book was never opened, or was altered beyond its ranges */
    KERB_SETTINGS = 2,    /* n, B or the mounting is outside its values */
    KERB_NO_CELL = 3,     /* a cell is 1024 or more */
    KERB_EARLY = 4,       /* the tick is 2,147,483,648 or more ahead of the book's time as the counter goes, which is how a tick
                             before the time looks; or the total would pass 9,223,372,036,854,775,807 */
    KERB_FULL = 5,        /* the link's slide already holds 256 links */
    KERB_SHORT = 6,       /* a lent buffer is too short */
    KERB_NO_TRAIL = 7,    /* no links of the window chain the two cells */
    /* 8 is unassigned: no call gives it */
    KERB_LENGTH = 9,      /* the length is that of no link file, or of no records */
    KERB_LETTERS = 10,    /* the last four bytes of the file are not KERB */
    KERB_OFFSET = 11,     /* the file's offset and count do not agree with its length */
    KERB_PAD = 12,        /* a pad byte of the file is not zero */
    KERB_LINE = 13,       /* a line of the text breaks the form */
    KERB_APART = 14,      /* the link's two cells do not touch */
    KERB_MASK = 15        /* the body mask is under 1,024 bytes, or has a byte that is neither 0 nor 1 among the first 1,024 */
};

enum kerb_mounting { KERB_PLAIN = 1, KERB_MIRRORED = 2 };

/* What a book opens with and a link file carries. */
struct kerb_settings {
    uint32_t t0;      /* the first tick */
    uint32_t b;       /* the slide length in ticks, from 1 */
    uint8_t n;        /* the window width in slides, 1 to 16 */
    uint8_t mounting; /* enum kerb_mounting; there is no default */
};

/* The total, and the settings that a book keeps of its time; kerb_time gives the time. */
struct kerb_clock_state {
    uint64_t total; /* the ticks since t0, every pass of the counter's end counted; at most 9,223,372,036,854,775,807 */
    uint32_t t0;
    uint32_t b;
    uint8_t n;
    uint8_t pad[7];
};

/* How the unit is fitted. */
struct kerb_fitting {
    uint8_t mounting;
    uint8_t pad[7];
};

/* The book. docs/BOOK.md has each field's range; a caller has no need to read or write them. */
struct kerb_book {
    uint16_t forward_parent[KERB_CELLS];
    uint16_t forward_size[KERB_CELLS];
    uint16_t backward_parent[KERB_CELLS];
    uint16_t backward_size[KERB_CELLS];
    uint16_t counts[32];
    struct kerb_clock_state clock;
    uint8_t backward_label[KERB_CELLS];
    struct kerb_fitting fitting;
};

struct kerb_joined_answer {
    uint8_t number;
    bool yes;
    uint8_t steps; /* the sum of the four walks, at most 40 */
};

struct kerb_chain_answer {
    uint64_t newest; /* L: links of this slide and later ones chain the two, and those of the next slide on do not;
                        one above the open slide for a cell and itself, which need no link. A link is in the slide of the
                        total that its tick made, which the tick alone does not tell */
    uint16_t cells;  /* how many cells stand at the front of the chain buffer */
    uint8_t hold;    /* for how many further closings the two stay joined; n for a cell and itself: always */
    uint8_t number;
};

struct kerb_read_answer {
    struct kerb_settings settings;
    uint32_t m; /* how many records: they are the first 8m bytes of the file */
    uint8_t number;
};

struct kerb_play_answer {
    uint32_t taken; /* how many records were taken; with a number of the link call it is the place of the one refused */
    uint8_t number;
};

struct kerb_list_answer {
    size_t length; /* how many bytes of text stand at the front of the output */
    uint8_t number;
};

struct kerb_text_in_answer {
    size_t length; /* how many bytes of link file stand at the front of the output */
    uint64_t line; /* with KERB_LINE the number of the first line that breaks the form, counted from 0; else 0 */
    uint8_t number;
};

struct kerb_text_out_answer {
    size_t length; /* how many bytes of text stand at the front of the output */
    uint8_t number;
};

struct kerb_groups_answer {
    uint32_t links; /* how many links the window holds, repeats counted */
    uint8_t number;
};

struct kerb_lamps_answer {
    uint16_t left_cell; /* of a lit lamp the smallest cell that lights it, in the lorry's numbers; of a dark one 0 */
    uint16_t right_cell;
    bool left; /* whether the lamp is lit */
    bool right;
    uint8_t number;
};

/* A link as the unit sends it, for tables of the caller's own. */
struct kerb_record {
    uint32_t tick;
    uint16_t one; /* in the unit's numbers */
    uint16_t other;
};

struct kerb_record_answer {
    uint32_t tick;
    uint16_t one; /* in the unit's numbers */
    uint16_t other;
    uint8_t number;
};

struct kerb_slide_answer {
    uint64_t first_total; /* the totals at the slide's first tick and at its last */
    uint64_t last_total;
    uint32_t first; /* these two ticks; `last` is below `first` where the counter passes its end in the slide */
    uint32_t last;
    bool exists; /* whether any total reaches the slide; else all are 0 */
};

/*
 * The layout that the library was built with, byte by byte. Where one of these lines fails to compile, the compiler lays structs
 * out in another way (packed, say, or for another machine), and every call would go wrong.
 */
#if defined(__cplusplus) && __cplusplus >= 201103L
#define KERB_CERTAIN(name, what) static_assert(what, #name)
#elif !defined(__cplusplus) && defined(__STDC_VERSION__) && __STDC_VERSION__ >= 201112L
#define KERB_CERTAIN(name, what) _Static_assert(what, #name)
#else
#define KERB_CERTAIN(name, what) typedef char kerb_certain_##name[(what) ? 1 : -1]
#endif
#define KERB_SIZE(type, bytes) KERB_CERTAIN(size_of_##type, sizeof(struct type) == (bytes))
#define KERB_AT(type, field, place) KERB_CERTAIN(type##_##field, offsetof(struct type, field) == (place))

KERB_SIZE(kerb_settings, 12);
KERB_AT(kerb_settings, t0, 0);
KERB_AT(kerb_settings, b, 4);
KERB_AT(kerb_settings, n, 8);
KERB_AT(kerb_settings, mounting, 9);

KERB_SIZE(kerb_clock_state, 24);
KERB_AT(kerb_clock_state, total, 0);
KERB_AT(kerb_clock_state, t0, 8);
KERB_AT(kerb_clock_state, b, 12);
KERB_AT(kerb_clock_state, n, 16);
KERB_AT(kerb_clock_state, pad, 17);

KERB_SIZE(kerb_fitting, 8);
KERB_AT(kerb_fitting, mounting, 0);
KERB_AT(kerb_fitting, pad, 1);

KERB_SIZE(kerb_book, 9312);
KERB_AT(kerb_book, forward_parent, 0);
KERB_AT(kerb_book, forward_size, 2048);
KERB_AT(kerb_book, backward_parent, 4096);
KERB_AT(kerb_book, backward_size, 6144);
KERB_AT(kerb_book, counts, 8192);
KERB_AT(kerb_book, clock, 8256);
KERB_AT(kerb_book, backward_label, 8280);
KERB_AT(kerb_book, fitting, 9304);

KERB_SIZE(kerb_joined_answer, 3);
KERB_AT(kerb_joined_answer, number, 0);
KERB_AT(kerb_joined_answer, yes, 1);
KERB_AT(kerb_joined_answer, steps, 2);

KERB_SIZE(kerb_chain_answer, 16);
KERB_AT(kerb_chain_answer, newest, 0);
KERB_AT(kerb_chain_answer, cells, 8);
KERB_AT(kerb_chain_answer, hold, 10);
KERB_AT(kerb_chain_answer, number, 11);

KERB_SIZE(kerb_read_answer, 20);
KERB_AT(kerb_read_answer, settings, 0);
KERB_AT(kerb_read_answer, m, 12);
KERB_AT(kerb_read_answer, number, 16);

KERB_SIZE(kerb_play_answer, 8);
KERB_AT(kerb_play_answer, taken, 0);
KERB_AT(kerb_play_answer, number, 4);

KERB_SIZE(kerb_list_answer, 16);
KERB_AT(kerb_list_answer, length, 0);
KERB_AT(kerb_list_answer, number, 8);

KERB_SIZE(kerb_text_in_answer, 24);
KERB_AT(kerb_text_in_answer, length, 0);
KERB_AT(kerb_text_in_answer, line, 8);
KERB_AT(kerb_text_in_answer, number, 16);

KERB_SIZE(kerb_text_out_answer, 16);
KERB_AT(kerb_text_out_answer, length, 0);
KERB_AT(kerb_text_out_answer, number, 8);

KERB_SIZE(kerb_groups_answer, 8);
KERB_AT(kerb_groups_answer, links, 0);
KERB_AT(kerb_groups_answer, number, 4);

KERB_SIZE(kerb_lamps_answer, 8);
KERB_AT(kerb_lamps_answer, left_cell, 0);
KERB_AT(kerb_lamps_answer, right_cell, 2);
KERB_AT(kerb_lamps_answer, left, 4);
KERB_AT(kerb_lamps_answer, right, 5);
KERB_AT(kerb_lamps_answer, number, 6);

KERB_SIZE(kerb_record, 8);
KERB_AT(kerb_record, tick, 0);
KERB_AT(kerb_record, one, 4);
KERB_AT(kerb_record, other, 6);

KERB_SIZE(kerb_record_answer, 12);
KERB_AT(kerb_record_answer, tick, 0);
KERB_AT(kerb_record_answer, one, 4);
KERB_AT(kerb_record_answer, other, 6);
KERB_AT(kerb_record_answer, number, 8);

KERB_SIZE(kerb_slide_answer, 32);
KERB_AT(kerb_slide_answer, first_total, 0);
KERB_AT(kerb_slide_answer, last_total, 8);
KERB_AT(kerb_slide_answer, first, 16);
KERB_AT(kerb_slide_answer, last, 20);
KERB_AT(kerb_slide_answer, exists, 24);

#undef KERB_AT
#undef KERB_SIZE
#undef KERB_CERTAIN

/*
 * THE BOOK. The cells of links are in the unit's numbers, those of questions and answers in the lorry's; kerb_lorry_cell leads
 * from the one to the other. `log_places` is the number of 16-bit places of the log, at least KERB_LOG_PLACES.
 */

/* A book that was never opened: 0 in every byte. kerb_link, kerb_clock, kerb_joined, kerb_chain, kerb_groups and kerb_lamps give 1
   for it, and so does kerb_play at the first record of a file that the reader takes; its time and its open slide are 0.
   Stack: 1 KB, and 9.3 KB more where the compiler copies the book. */
KERB_LOOK_AT struct kerb_book kerb_never_opened(void);

/*
 * A fresh history, whatever the book was: the time is settings.t0, the total is 0, and nothing is stored. Clears the first
 * KERB_LOG_PLACES places of the log and no others. Every byte of the book is written.
 * Refuses, in this order: 2, 6. Never 1: the book may be any memory. Stack: 5 KB.
 */
KERB_LOOK_AT uint8_t kerb_opening(struct kerb_book *book, uint16_t *log, size_t log_places, struct kerb_settings settings);

/*
 * A link of two cells that touch, IN THE UNIT'S NUMBERS: different cells, whose rings differ by at most 1 and whose sectors differ by
 * at most 1 round the circle, 63 and 0 being next to each other. Both mountings judge alike. A later tick first moves the time to
 * it, as kerb_clock does; a link that is refused moves nothing. A link may be repeated: each time it is stored and counts. It is
 * stored in the slide that is then open. Which one that is does not follow from the tick alone: it is the slide of the total.
 * Refuses, in this order: 1, 6, 3, 14, 4, 5. Stack: 5 KB.
 */
KERB_LOOK_AT uint8_t kerb_link(struct kerb_book *book, uint16_t *log, size_t log_places, uint32_t tick, uint16_t one,
                               uint16_t other);

/*
 * The time moves to the tick, and nothing is logged. The tick's difference is added to the total, and the open slide is that of the
 * total: which one does not follow from the tick alone. Slides that are jumped over are empty ones. To be called at least once a
 * day (see the top): a call reaches 2,147,483,647 ticks ahead at most, not quite 24.9 days.
 * Refuses, in this order: 1, 6, 4. Stack: 5 KB.
 */
KERB_LOOK_AT uint8_t kerb_clock(struct kerb_book *book, const uint16_t *log, size_t log_places, uint32_t tick);

/*
 * Whether links of the window chain the two cells, IN THE LORRY'S NUMBERS. A cell is always joined with itself.
 * Refuses, in this order: 1, 3; then `yes` is false. Stack: 128 KB, the most of all calls.
 */
KERB_LOOK_AT struct kerb_joined_answer kerb_joined(const struct kerb_book *book, uint16_t one, uint16_t other);

/*
 * Why the two cells are joined, IN THE LORRY'S NUMBERS, and for how long. The chain goes to the front of the buffer, from `one` to
 * `other`, 1 to 1,024 cells and none twice; later places keep what they had. `chain_places` is the number of 16-bit places of the
 * buffer, at least KERB_CHAIN_PLACES. For a cell and itself the chain is that cell, `newest` is one above the open slide and `hold`
 * is n, read as "always". For two cells `hold` is 0 to n - 1.
 * Refuses, in this order: 1, 6 (the log or the buffer), 3, 7. Stack: 50 KB.
 */
KERB_LOOK_AT struct kerb_chain_answer kerb_chain(const struct kerb_book *book, const uint16_t *log, size_t log_places,
                                                 uint16_t one, uint16_t other, uint16_t *chain, size_t chain_places);

/*
 * The groups of the window: at place c of the three arrays stands, of the group of cell c, its smallest cell, how many cells it
 * has, and its least hold, for how many further closings any two of them stay joined. Cell c in the lorry's numbers. A cell that
 * no link holds to another is alone: its own number, 1, and n, read as "always". Each length is that of its array in places, at
 * least KERB_CELLS; later places keep what they had.
 * Refuses, in this order: 1, 6 (the log or an array). Stack: 58 KB.
 */
KERB_LOOK_AT struct kerb_groups_answer kerb_groups(const struct kerb_book *book, const uint16_t *log, size_t log_places,
                                                   uint16_t *first, size_t first_places, uint16_t *size, size_t size_places,
                                                   uint8_t *hold, size_t hold_places);

/*
 * The lamps. The left zone is sectors 33 to 63 and the right zone sectors 1 to 31, both in rings 0 to 5; sectors 0 and 32, dead
 * ahead and dead astern, are in no zone. A lamp is lit exactly when its zone has a cell that is an end of a link of the window and
 * is joined to no body cell. `mask` has a byte for each cell, IN THE LORRY'S NUMBERS: 1 for the lorry's own bodywork, 0 for any
 * other; KERB_CELLS of them, and later bytes are not looked at. A mask without a 1 is allowed. A body cell is joined to itself, so
 * it lights no lamp. The call changes nothing and moves no time: kerb_clock lets old links leave the window.
 * Refuses, in this order: 1, 6 (the log), 15; then both lamps are false, WHICH IS NOT DARK: a panel that does not know lights them.
 * Stack: 11 KB.
 */
KERB_LOOK_AT struct kerb_lamps_answer kerb_lamps(const struct kerb_book *book, const uint16_t *log, size_t log_places,
                                                 const uint8_t *mask, size_t mask_bytes);

/* The book's time, the latest tick that it has taken: (T0 + total) mod 4,294,967,296. The total itself is book->clock.total. 0 for
   a book that was never opened. Stack: 1 KB. */
KERB_LOOK_AT uint32_t kerb_time(const struct kerb_book *book);

/* The open slide k, that of the total: it does not follow from the book's time alone. 0 for a book that was never opened.
   Stack: 1 KB. */
KERB_LOOK_AT uint64_t kerb_open_slide(const struct kerb_book *book);

/* The totals of a slide, from the first to the last, as far as totals reach, and the ticks that make them. The same tick makes
   another total in every turn of the counter, so a tick between these two can be in another slide too. For an opened book.
   Stack: 1 KB. */
KERB_LOOK_AT struct kerb_slide_answer kerb_slide_ticks(const struct kerb_book *book, uint64_t slide);

/*
 * CELLS. On a mirrored unit sector s of the unit is sector (64 - s) % 64 of the lorry, in the same ring: 0, dead ahead, and 32,
 * dead astern, stay. A number that is no cell, 1024 or more, has no mirror and comes back as it is. Stack: 1 KB each.
 */

/* The lorry's number of a cell of the unit: mirrored for KERB_MIRRORED, the same for any other number. */
KERB_LOOK_AT uint16_t kerb_lorry_cell(uint8_t mounting, uint16_t cell);

/* The unit's number of a cell of the lorry, the other way round. */
KERB_LOOK_AT uint16_t kerb_unit_cell(uint8_t mounting, uint16_t cell);

/* The ring of a cell, cell / 64, and its sector, cell % 64; in the unit's numbers as in the lorry's. */
KERB_LOOK_AT uint16_t kerb_ring(uint16_t cell);
KERB_LOOK_AT uint16_t kerb_sector(uint16_t cell);

/*
 * LINK FILES. m records of 8 bytes, m from 0 to 8,000, then 24 bytes of settings and trailer. The cells of records are in the
 * unit's numbers. Lengths of files, records, outputs and texts count bytes.
 */

/*
 * The settings of a link file, and how many records it has. The records are not judged: playing them does.
 * Refuses, in this order: 9, 10, 11, 12, 2. Stack: 1 KB.
 */
KERB_LOOK_AT struct kerb_read_answer kerb_read(const uint8_t *file, size_t file_bytes);

/*
 * A link file of these settings and record bytes, 8m + 24 bytes at the front of the output; no byte beyond is touched. What the
 * records say is not judged.
 * Refuses, in this order: 2, 9 (the records have over 64,000 bytes, or no multiple of 8), 6 (the output). Stack: 1 KB.
 */
KERB_LOOK_AT uint8_t kerb_write(struct kerb_settings settings, const uint8_t *records, size_t records_bytes, uint8_t *out,
                                size_t out_bytes);

/*
 * The records of a link file into a book, one after the other, each by the link call: into the slide of the total that its tick
 * makes, which does not follow from the tick alone, since the records before it count too. Does not open the book: who plays a
 * file opens one first, with the settings that kerb_read gives. Stops at the first record that is refused: `taken` is then its
 * place from 0, and THE RECORDS BEFORE IT STAY in the book.
 * Refuses, in this order: 9, 10, 11, 12, 2 as kerb_read, with nothing played; then for each record 1, 6, 3, 14, 4, 5.
 * Stack: 5 KB.
 */
KERB_LOOK_AT struct kerb_play_answer kerb_play(struct kerb_book *book, uint16_t *log, size_t log_places, const uint8_t *file,
                                               size_t file_bytes);

/*
 * The text that the program kerblist prints for a link file, at the front of the output; no byte beyond is touched, and no zero
 * byte ends it. A file that is refused is a line of the text ("refused 9 file"), and the number is 0 all the same. The open slide
 * in it is that of the total, and does not follow from the last tick alone.
 * Refuses: 6, an output under KERB_LISTING_BYTES. Stack: 101 KB.
 */
KERB_LOOK_AT struct kerb_list_answer kerb_list(const uint8_t *file, size_t file_bytes, uint8_t *out, size_t out_bytes);

/*
 * One record, 8 bytes at the front of the output; cells in the unit's numbers, not judged. m of them are what kerb_write takes.
 * Refuses: 6, an output under KERB_RECORD_BYTES. Stack: 1 KB.
 */
KERB_LOOK_AT uint8_t kerb_pack(uint32_t tick, uint16_t one, uint16_t other, uint8_t *out, size_t out_bytes);

/*
 * Record i, counted from 0, of record bytes or of a link file; of a file i below the m that kerb_read gives, since settings and
 * trailer are bytes as well. Its cells are not judged.
 * Refuses: 9, no 8 bytes from 8i on. Stack: 1 KB.
 */
KERB_LOOK_AT struct kerb_record_answer kerb_unpack(const uint8_t *records, size_t records_bytes, uint32_t i);

/*
 * TEXT LISTS. One link a line: two cells and a tick, in decimal, one blank between, a line feed after each, as in "94 95 400". No
 * sign, and no leading zero except 0 itself. A cell is at most 65,535, a tick at most 4,294,967,295; the cells are in the unit's
 * numbers and not judged further, as in link files. A line runs to its line feed: bytes after the last one are a line that breaks
 * the form. Empty text is no lines.
 */

/*
 * A link file of these settings and the links of a text, a record for each line: 8m + 24 bytes at the front of the output; no byte
 * beyond is touched.
 * Refuses, in this order: 13 (the first line that breaks the form, past the 8,000th too), 2, 9 (more than 8,000 lines), 6 (the
 * output). Stack: 65 KB.
 */
KERB_LOOK_AT struct kerb_text_in_answer kerb_text_in(struct kerb_settings settings, const uint8_t *text, size_t text_bytes,
                                                     uint8_t *out, size_t out_bytes);

/*
 * The links of a link file as text, at the front of the output; no byte beyond is touched, and no zero byte ends it. Of this text
 * and the settings that kerb_read gives, kerb_text_in makes the same file.
 * Refuses, in this order: 9, 10, 11, 12, 2 as kerb_read; then 6, an output shorter than the text: KERB_TEXT_BYTES are always
 * enough. Stack: 1 KB.
 */
KERB_LOOK_AT struct kerb_text_out_answer kerb_text_out(const uint8_t *file, size_t file_bytes, uint8_t *out, size_t out_bytes);

/*
 * THE VERSION. A library has the function of its own version and of no other, and opening a book calls it: a program that was
 * compiled with this header does not link with a library of another version ("undefined reference to kerb_version_3").
 * kerb_version() gives KERB_VERSION, kerb_book_size() sizeof(struct kerb_book).
 */
uint32_t kerb_version_3(void);
#define kerb_version kerb_version_3

size_t kerb_book_size(void);

KERB_LOOK_AT static inline uint8_t kerb_opening_3(struct kerb_book *book, uint16_t *log, size_t log_places,
                                                  struct kerb_settings settings)
{
    (void)kerb_version_3();
    return kerb_opening(book, log, log_places, settings);
}
#define kerb_opening kerb_opening_3

/* A number in words. */
static inline const char *kerb_status_text(uint8_t number)
{
    switch (number) {
    case KERB_DONE:
        return "done";
    case KERB_NO_BOOK:
        return "the book was never opened, or was altered beyond its ranges";
    case KERB_SETTINGS:
        return "n, B or the mounting is outside its values";
    case KERB_NO_CELL:
        return "a cell is 1024 or more";
    case KERB_EARLY:
        return "the tick is before the book's time, or 2,147,483,648 or more after it, which looks the same; or the total has run out";
    case KERB_FULL:
        return "the link's slide already holds 256 links";
    case KERB_SHORT:
        return "a lent buffer is too short";
    case KERB_NO_TRAIL:
        return "no links of the window chain the two cells";
    case KERB_LENGTH:
        return "the length is that of no link file, or of no records";
    case KERB_LETTERS:
        return "the last four bytes of the file are not KERB";
    case KERB_OFFSET:
        return "the file's offset and count do not agree with its length";
    case KERB_PAD:
        return "a pad byte of the file is not zero";
    case KERB_LINE:
        return "a line of the text breaks the form";
    case KERB_APART:
        return "the link's two cells do not touch";
    case KERB_MASK:
        return "the body mask is under 1,024 bytes, or has a byte that is neither 0 nor 1 among the first 1,024";
    default:
        return "no number of this library";
    }
}

#ifdef __cplusplus
}
#endif

#endif
