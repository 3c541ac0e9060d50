/*
 * A battery swap. The book and its log are stored with a checksum over every byte of them; what comes back is compared before
 * it is used. That works since a book has no byte that a call leaves undefined: two books that were opened and fed alike
 * are equal, whatever their memory held before.
 */
#include <stdio.h>
#include <string.h>

#include "kerb.h"

/* What a panel stores: the two together are the state. */
struct state {
    struct kerb_book book;
    uint16_t log[KERB_LOG_PLACES];
};

struct stored {
    uint32_t version; /* a book of another version of the library has another layout */
    struct state state;
    uint32_t sum_of_book;
    uint32_t sum_of_log;
};

static struct state panel, twin;
static struct stored flash;

/* CRC-32, which finds every flipped bit. */
static uint32_t checksum(const void *memory, size_t bytes)
{
    static uint32_t table[256];
    const unsigned char *byte = (const unsigned char *)memory;
    uint32_t sum = 0xFFFFFFFFu;
    size_t i;

    if (table[1] == 0)
        for (i = 0; i < 256; i++) {
            int bit;
            table[i] = (uint32_t)i;
            for (bit = 0; bit < 8; bit++)
                table[i] = table[i] >> 1 ^ (table[i] & 1 ? 0xEDB88320u : 0);
        }
    for (i = 0; i < bytes; i++)
        sum = sum >> 8 ^ table[(sum ^ byte[i]) & 0xFF];
    return ~sum;
}

/* Opens a book in whatever memory it is, and logs links of a thing that drifts over cells that touch. */
static uint8_t open_and_feed(struct state *state)
{
    const struct kerb_settings settings = { 0, 100, 4, KERB_MIRRORED };
    uint8_t number = kerb_opening(&state->book, KERB_PLACES(state->log), settings);
    uint32_t tick;

    for (tick = 0; number == KERB_DONE && tick < 1000; tick += 7) {
        const uint16_t cell = (uint16_t)(tick / 10);
        number = kerb_link(&state->book, KERB_PLACES(state->log), tick, cell, (uint16_t)(cell + 64));
        if (number == KERB_DONE)
            number = kerb_link(&state->book, KERB_PLACES(state->log), tick, (uint16_t)(cell + 64), (uint16_t)(cell + 128));
    }
    return number;
}

static void store(const struct state *state)
{
    flash.version = KERB_VERSION;
    flash.state = *state;
    flash.sum_of_book = checksum(&state->book, sizeof state->book);
    flash.sum_of_log = checksum(state->log, sizeof state->log);
}

/* Whether what was stored is what comes back, and a book of today. */
static bool is_whole(void)
{
    return flash.version == KERB_VERSION &&
           flash.sum_of_book == checksum(&flash.state.book, sizeof flash.state.book) &&
           flash.sum_of_log == checksum(flash.state.log, sizeof flash.state.log);
}

int main(void)
{
    unsigned char *bytes = (unsigned char *)&flash.state.book;
    unsigned found = 0, unnoticed = 0;
    const uint16_t one = kerb_lorry_cell(KERB_MIRRORED, 95), other = kerb_lorry_cell(KERB_MIRRORED, 95 + 128);
    struct kerb_joined_answer before, after;
    size_t i;

    memset(&panel, 0xA5, sizeof panel);
    memset(&twin, 0x5A, sizeof twin);
    if (open_and_feed(&panel) != KERB_DONE || open_and_feed(&twin) != KERB_DONE)
        return 1;
    printf("a book has %lu bytes, and the library says %lu\n", (unsigned long)sizeof panel.book,
           (unsigned long)kerb_book_size());
    printf("two books, opened over other bytes and fed alike: %s\n",
           memcmp(&panel.book, &twin.book, sizeof panel.book) == 0 ? "equal, byte for byte" : "NOT EQUAL");
    printf("their logs: %s\n", memcmp(panel.log, twin.log, sizeof panel.log) == 0 ? "equal" : "NOT EQUAL");

    before = kerb_joined(&panel.book, one, other);
    store(&panel);
    memset(&panel, 0xEE, sizeof panel); /* the battery is out */
    printf("after the swap the stored book is %s\n", is_whole() ? "whole" : "DAMAGED");
    panel = flash.state;
    after = kerb_joined(&panel.book, one, other);
    printf("joined, before and after: %s, %s\n", before.yes ? "yes" : "no", after.yes ? "yes" : "no");
    flash.version = KERB_VERSION - 1;
    printf("one that an earlier version has stored is %s\n", is_whole() ? "TAKEN" : "to be opened anew");
    flash.version = KERB_VERSION;
    if (kerb_link(&panel.book, KERB_PLACES(panel.log), 1000, 100, 164) != KERB_DONE)
        return 1;

    for (i = 0; i < sizeof flash.state.book; i++) {
        const unsigned char bit = (unsigned char)(1u << i % 8);
        bytes[i] ^= bit;
        found += !is_whole();
        unnoticed += kerb_joined(&flash.state.book, one, other).number == KERB_DONE;
        bytes[i] ^= bit;
    }
    printf("a flipped bit in each of %lu bytes: the checksum finds %u\n", (unsigned long)sizeof flash.state.book, found);
    printf("number 1 finds %u of them; the others leave a book in range\n", (unsigned)sizeof flash.state.book - unnoticed);
    return 0;
}
