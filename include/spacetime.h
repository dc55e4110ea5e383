/*
 * spacetime: space-time pictures of Turing machines, proved.
 *
 * libspacetime.a (x86-64, ELF) defines the functions below. Each is total: any numbers and any slices get a result or a refusal,
 * and a refusal changes nothing. A function answers 0, or the refusal's number; an output is written only where the answer is 0.
 * docs/RULES.md says what every answer is.
 *
 * A slice is a pointer and a length in elements. A pointer is not null and is aligned for its type, also where the length is 0. A
 * slice that is written overlaps no other argument.
 *
 * A tape is its head's position, the symbol under the head, and the runs of its left and right side: symbols and lengths, two
 * slices a side, nearest the head last. Symbol 0 is blank, and so is all that lies outside the runs; `symbols` is the count of the
 * alphabet, blank included.
 *
 * A picture is width * height index bytes, line by line from the top:
 *
 *    0        paper: nothing is written there
 *    1..64    ink: the darker the more of the pixel's cells are written, or the higher the cell's symbol; rows write 8..64
 *    65..253  spare: no row writes them
 *    254      swept: blank, and the head passed there since the row before
 *    255      the head
 *
 * In cells each tape cell has a column of some pixels, and its symbol is kept in a store. In bins each pixel column covers an
 * equal share of the window's cells. A row reports units, in which ink can be added up: in cells the written cells of the window, in
 * bins their overlaps with the bins, width units for each written cell.
 */
#ifndef SPACETIME_H
#define SPACETIME_H

#include <stdbool.h>
#include <stddef.h>
#include <stdint.h>

#ifdef __cplusplus
extern "C" {
#endif

#define SPACETIME_VERSION "0.1.0"

/* The limits of an order. */
#define SPACETIME_MAX_SIDE 4096                        /* width and height, in pixels */
#define SPACETIME_MAX_SYMBOLS 64                       /* the alphabet's count, blank included */
#define SPACETIME_MAX_CELLS (UINT64_C(1) << 50)        /* the cells of a window in bins */
#define SPACETIME_MAX_POSITION (INT64_C(1) << 62)      /* positions of orders and tapes are within plus and minus this */

/* What a function answers: 0, or the number of the first check that failed. */
enum spacetime_refusal {
    SPACETIME_ACCEPTED = 0,
    SPACETIME_SIZE = 1,          /* width or height is not 1..4096 */
    SPACETIME_SYMBOLS = 2,       /* the alphabet's count is not 1..64 */
    SPACETIME_POSITION = 3,      /* a position of an order is beyond +-2^62 */
    SPACETIME_PAIR = 4,          /* a pair of an order is reversed */
    SPACETIME_HEADS = 5,         /* no heads, or more than height, or than height / cell size where one is given */
    SPACETIME_BINS = 6,          /* bins over more than 2^50 cells */
    SPACETIME_INDEX = 7,         /* the index has not width * height bytes */
    SPACETIME_STORE = 8,         /* the store has not rows * count bytes, in bins none */
    SPACETIME_TALLIES = 9,       /* the tallies are not width words, in cells none */
    SPACETIME_OUTPUT = 10,       /* the output has not 4 bytes for each byte of the index */
    SPACETIME_RUNS = 11,         /* a side's two slices differ in length, a run is empty, or a symbol is not below the count */
    SPACETIME_REACH = 12,        /* the head, or the head and a side's runs, are beyond +-2^62 */
    SPACETIME_SWEPT = 13,        /* a swept pair is reversed, beyond +-2^62, or given in an exact picture */
    SPACETIME_ALL_DRAWN = 14,    /* all rows are drawn */
    SPACETIME_RECORD = 15,       /* the record is unsound: no call answered it */
    SPACETIME_UPRIGHT = 16,      /* a column beyond the width, or rows that are reversed or not all done */
    SPACETIME_PAGE_WIDTH = 17,   /* a page of a picture that is wider than 59 pixels */
    SPACETIME_PAGE = 18,         /* the page has not 81 bytes for each row done */
    SPACETIME_JOINED = 19        /* a side has neighbouring runs of one symbol, or its outermost run is blank */
};

/*
 * A picture's record, as its caller keeps it:
 *
 *    0 width         5 first position + 2^63           10 rows              15 written cells left of the window
 *    1 height        6 cells: count; bins: cells       11 first step           in the last row that was drawn
 *    2 symbols       7 p (bins: 0)                     12 stride            16 those right of it
 *    3 1 exact,      8 left margin (bins: 0)           13 last step
 *      0 overview    9 row height                      14 rows done
 *    4 0 cells, 1 bins
 *
 * Words that stand for no record (word 3 or 4 above 1; word 7 or 8 not 0 in bins) are unsound. Words 15
 * and 16 say what the picture leaves out; each is at most 2^63 + 1 in a sound record.
 */
#define SPACETIME_RECORD_WORDS 17

enum spacetime_record_word {
    SPACETIME_WORD_WIDTH = 0,
    SPACETIME_WORD_HEIGHT = 1,
    SPACETIME_WORD_SYMBOLS = 2,
    SPACETIME_WORD_EXACT = 3,
    SPACETIME_WORD_BINS = 4,
    SPACETIME_WORD_FIRST = 5,       /* a position, plus 2^63 */
    SPACETIME_WORD_CELLS = 6,       /* the cells of the window */
    SPACETIME_WORD_CELL_PX = 7,
    SPACETIME_WORD_MARGIN = 8,
    SPACETIME_WORD_ROW_PX = 9,
    SPACETIME_WORD_ROWS = 10,
    SPACETIME_WORD_FIRST_STEP = 11,
    SPACETIME_WORD_STRIDE = 12,
    SPACETIME_WORD_LAST_STEP = 13,
    SPACETIME_WORD_DONE = 14,
    SPACETIME_WORD_LEFT = 15,       /* written cells of the last row left of the window */
    SPACETIME_WORD_RIGHT = 16       /* and right of it */
};

/* Fits an exact picture: row r shows step first_step + r, `heads` has the head's position in each row. A cell size and the
   written pair may be missing. Refusals: 1, 2, 3, 4, 5, 6. */
uint32_t spacetime_fit_exact(uint32_t width, uint32_t height, uint32_t symbols, uint64_t first_step,
                             bool has_cell_px, uint32_t cell_px, const int64_t *heads, size_t n_heads,
                             bool has_written, int64_t written_low, int64_t written_high, bool halted,
                             uint64_t record[SPACETIME_RECORD_WORDS]);

/* Fits an overview of a run of `total` steps over the cells extent_low to extent_high. Refusals: 1, 2, 3, 4, 6. */
uint32_t spacetime_fit_overview(uint32_t width, uint32_t height, uint32_t symbols, uint64_t total,
                                int64_t extent_low, int64_t extent_high, uint64_t record[SPACETIME_RECORD_WORDS]);

/* Opens a picture: rows done, words 15 and 16, index and store become 0. The index has width * height bytes; the store has rows * count, in
   bins none. Refusals: 15, 7, 8. */
uint32_t spacetime_open(uint64_t record[SPACETIME_RECORD_WORDS], uint8_t *index, size_t n_index,
                        uint8_t *store, size_t n_store);

/* Draws the next row onto its lines of the index: `tallies` then has one for each bin (cells: n_tallies is 0), the store the
   row's symbols, units[0] what the row counts, words 15 and 16 what it leaves out. A swept pair may be missing. Each side has to be
   joined, as spacetime_join leaves it. Refusals: 15, 14, 7, 8, 9, 11, 19, 12, 13. */
uint32_t spacetime_row(uint64_t record[SPACETIME_RECORD_WORDS], uint8_t *index, size_t n_index,
                       uint8_t *store, size_t n_store, uint64_t *tallies, size_t n_tallies,
                       int64_t head, uint8_t cur,
                       const uint8_t *left_symbols, size_t n_left_symbols,
                       const uint64_t *left_lengths, size_t n_left_lengths,
                       const uint8_t *right_symbols, size_t n_right_symbols,
                       const uint64_t *right_lengths, size_t n_right_lengths,
                       bool has_swept, int64_t swept_low, int64_t swept_high, uint64_t units[1]);

/* A row's step and lines: found is 1 or 0, step, first line, line past the last; all 0 from `rows` on. Refusal: 15. */
uint32_t spacetime_row_lines(const uint64_t record[SPACETIME_RECORD_WORDS], uint32_t row, uint64_t found[4]);

/* The positions at the window's two ends. Refusal: 15. */
uint32_t spacetime_range(const uint64_t record[SPACETIME_RECORD_WORDS], int64_t cells[2]);

/* What pixel (x, y) shows: found is 1 or 0, step, 1 where it has a symbol, symbol; cells is from, to. All are 0 where it shows
   nothing: in a row not done, in a margin, outside the picture. The store has rows * count bytes, in bins none. Refusals: 15, 8. */
uint32_t spacetime_locate(const uint64_t record[SPACETIME_RECORD_WORDS], const uint8_t *store, size_t n_store,
                          uint32_t x, uint32_t y, uint64_t found[4], int64_t cells[2]);

/* Whether a column is upright in the rows first_row to last_row: answer is 1 for yes, 0 for no, 2 for unknown. Ink says yes; paper,
   swept and spare say no. A head says, in cells, yes exactly if the symbol stored for its cell is written, in a margin no, in bins
   unknown. The column: no if any of its pixels says no, else unknown if any does, else yes. Refusals: 15, 7, 8, 16. */
uint32_t spacetime_upright(const uint64_t record[SPACETIME_RECORD_WORDS], const uint8_t *index, size_t n_index,
                           const uint8_t *store, size_t n_store,
                           uint32_t column, uint32_t first_row, uint32_t last_row, uint64_t answer[1]);

/* Writes the rows done as text, a line of 81 bytes each: the step right-aligned in 20, a space, a character for each pixel of
   the band's first line, spaces and a line feed. Paper is `.`, ink i the digit (i - 1) / 16 + 1, spare `4`, swept `-`, head `@`.
   Refusals: 15, 7, 17, 18. */
uint32_t spacetime_page(const uint64_t record[SPACETIME_RECORD_WORDS], const uint8_t *index, size_t n_index,
                        uint8_t *page, size_t n_page);

/* Whether two pictures are equal: answer is 1 or 0. They are if width, height and all index bytes are, both ends of the window, the
   number of rows done, the step of each of these rows and, in cells, each symbol stored for them. What the stores hold for rows
   not done does not matter. Refusals: 15, 7, 8 of the first, then of the second. */
uint32_t spacetime_equal(const uint64_t record_a[SPACETIME_RECORD_WORDS], const uint8_t *index_a, size_t n_index_a,
                         const uint8_t *store_a, size_t n_store_a,
                         const uint64_t record_b[SPACETIME_RECORD_WORDS], const uint8_t *index_b, size_t n_index_b,
                         const uint8_t *store_b, size_t n_store_b, uint64_t answer[1]);

/* The symbol at a position. Refusals: 2, 11, 12. */
uint32_t spacetime_get(uint32_t symbols, int64_t head, uint8_t cur,
                       const uint8_t *left_symbols, size_t n_left_symbols,
                       const uint64_t *left_lengths, size_t n_left_lengths,
                       const uint8_t *right_symbols, size_t n_right_symbols,
                       const uint64_t *right_lengths, size_t n_right_lengths,
                       int64_t position, uint8_t symbol[1]);

/* The symbols at the n_out positions from `from` on; places past 2^63 - 1 are blank. Refusals: 2, 11, 12. */
uint32_t spacetime_window(uint32_t symbols, int64_t head, uint8_t cur,
                          const uint8_t *left_symbols, size_t n_left_symbols,
                          const uint64_t *left_lengths, size_t n_left_lengths,
                          const uint8_t *right_symbols, size_t n_right_symbols,
                          const uint64_t *right_lengths, size_t n_right_lengths,
                          int64_t from, uint8_t *out, size_t n_out);

/* Joins the runs of both sides within their slices: neighbours of one symbol become one run, a blank run at the outer end goes,
   and the runs that remain stand at the front of each side's slices. freed is how many places came free, left and right; these hold
   symbol 0 and length 0. Refusals: 2, 11, 12. */
uint32_t spacetime_join(uint32_t symbols, int64_t head, uint8_t cur,
                        uint8_t *left_symbols, size_t n_left_symbols,
                        uint64_t *left_lengths, size_t n_left_lengths,
                        uint8_t *right_symbols, size_t n_right_symbols,
                        uint64_t *right_lengths, size_t n_right_lengths,
                        uint64_t freed[2]);

/* Colours: red, green, blue and 255 for each index byte; n_out is 4 * n_index. The palette is background, ink, accent,
   three bytes each. Refusal: 10. */
uint32_t spacetime_rgba(const uint8_t *index, size_t n_index, const uint8_t palette[9], uint8_t *out, size_t n_out);

/* The colour t of the way from one colour to another, t held to 0..1; a NaN counts as 0. */
void spacetime_mix(const uint8_t from[3], const uint8_t to[3], double t, uint8_t out[3]);

#ifdef __cplusplus
}
#endif

#endif
