/*
 * Draws a picture of two rows, prints its index bytes, clicks on it, and is refused.
 *
 *     tools/archive.sh spacetime
 *     cc -std=c11 -Iinclude examples/worked.c target/staticlib/libspacetime.a -o worked && ./worked
 */
#include <inttypes.h>
#include <stdio.h>

#include "spacetime.h"

enum { WIDTH = 8, HEIGHT = 4, ROWS = 2, COUNT = 4 };

/* Says what a call answered; nothing where it was accepted. */
static void say(const char *call, uint32_t answer)
{
    if (answer != SPACETIME_ACCEPTED)
        printf("%s is refused by %" PRIu32 "\n", call, answer);
}

static void click(const uint64_t record[SPACETIME_RECORD_WORDS], const uint8_t *store, uint32_t x, uint32_t y)
{
    uint64_t found[4];
    int64_t cells[2];
    say("the click", spacetime_locate(record, store, ROWS * COUNT, x, y, found, cells));
    printf("(%" PRIu32 ", %" PRIu32 ") shows cell %" PRId64 " at step %" PRIu64 ", symbol %" PRIu64 "\n",
           x, y, cells[0], found[1], found[3]);
}

int main(void)
{
    uint64_t record[SPACETIME_RECORD_WORDS];
    uint8_t index[WIDTH * HEIGHT];
    uint8_t store[ROWS * COUNT];
    uint64_t tallies[1]; /* a picture in cells has none: its length below is 0 */
    uint64_t units[1];
    const uint8_t symbols[1] = {1};
    const uint64_t lengths[1] = {1};
    const int64_t heads[ROWS] = {0, 1};

    /* Cells of 2 pixels, from step 0 on, of a machine with 2 symbols that wrote on cell 0 alone. */
    say("the fit", spacetime_fit_exact(WIDTH, HEIGHT, 2, 0, true, 2, heads, ROWS, true, 0, 0, false, record));
    say("opening", spacetime_open(record, index, sizeof index, store, sizeof store));

    /* Row 0: the head on cell 0, which has a 1. Row 1: the head on cell 1, blank, and a run of one 1 left of it. */
    say("row 0", spacetime_row(record, index, sizeof index, store, sizeof store, tallies, 0, 0, 1,
                               symbols, 0, lengths, 0, symbols, 0, lengths, 0, false, 0, 0, units));
    say("row 1", spacetime_row(record, index, sizeof index, store, sizeof store, tallies, 0, 1, 0,
                               symbols, 1, lengths, 1, symbols, 0, lengths, 0, false, 0, 0, units));

    for (int y = 0; y < HEIGHT; y++)
        for (int x = 0; x < WIDTH; x++)
            printf("%d%c", index[y * WIDTH + x], x + 1 < WIDTH ? ' ' : '\n');

    click(record, store, 0, 3);
    click(record, store, 2, 0);

    /* Both rows are drawn. */
    say("row 2", spacetime_row(record, index, sizeof index, store, sizeof store, tallies, 0, 1, 0,
                               symbols, 1, lengths, 1, symbols, 0, lengths, 0, false, 0, 0, units));
    return 0;
}
