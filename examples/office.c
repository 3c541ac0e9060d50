/*
 * The depot's office keeps old recordings as text, one link a line: two cells and a tick. Here such a text becomes a link file and
 * is put out again, the same text; and of a text with a slip in it the library says which line it is.
 */
#include <stdio.h>
#include <string.h>

#include "kerb.h"

static uint8_t file[KERB_FILE_BYTES];
static uint8_t out[KERB_TEXT_BYTES];

/* Brings a text into the file and gives the file's length; says a number that is not 0, and the line. */
static size_t bring_in(const char *text)
{
    const struct kerb_settings settings = { 0, 100, 5, KERB_PLAIN };
    const struct kerb_text_in_answer answer = kerb_text_in(settings, (const uint8_t *)text, strlen(text), KERB_PLACES(file));

    if (answer.number != KERB_DONE)
        printf("number %u, %s: line %lu, counted from 0\n", (unsigned)answer.number, kerb_status_text(answer.number),
               (unsigned long)answer.line);
    return answer.length;
}

int main(void)
{
    static const char *const recording = "94 95 400\n95 96 400\n96 161 20\n";
    /* the letter O for the digit 0; the last line without its line feed; a leading zero */
    static const char *const slips[] = { "94 95 400\n95 96 4O0\n", "94 95 400\n95 96 400", "094 95 400\n" };
    const size_t length = bring_in(recording);
    const struct kerb_read_answer head = kerb_read(file, length);
    const struct kerb_record_answer last = kerb_unpack(file, length, 2);
    const struct kerb_text_out_answer text = kerb_text_out(file, length, KERB_PLACES(out));
    size_t i;

    if (head.number != KERB_DONE || last.number != KERB_DONE || text.number != KERB_DONE)
        return 1;
    printf("%lu bytes of text are a link file of %lu bytes and %lu records\n", (unsigned long)strlen(recording),
           (unsigned long)length, (unsigned long)head.m);
    printf("the last has tick %lu and cells %u and %u\n", (unsigned long)last.tick, (unsigned)last.one, (unsigned)last.other);
    printf("put out again, %s:\n",
           text.length == strlen(recording) && memcmp(out, recording, text.length) == 0 ? "the same text" : "ANOTHER TEXT");
    fwrite(out, 1, text.length, stdout);
    for (i = 0; i < sizeof slips / sizeof slips[0]; i++)
        if (bring_in(slips[i]) != 0)
            return 1;
    return 0;
}
