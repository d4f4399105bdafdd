/* Searching for patterns by tables: the calls that libterntrolley.a exports.
 *
 * A table of `rows` rows is 257 numbers to a row: the bits of the patterns that end there, then for each byte the row
 * to go to. No pointer is kept after a call; `ends` and `next` overlap neither each other nor anything else.
 * A pointer whose length is 0 isn't read. */
#ifndef TERNTROLLEY_H
#define TERNTROLLEY_H

#include <stddef.h>
#include <stdint.h>

#ifdef __cplusplus
extern "C" {
#endif

enum {
    TERNTROLLEY_READ = 0,     /* the piece was read, and *next is the row after it */
    TERNTROLLEY_NO_TABLE = 1, /* the numbers aren't a table of so many rows, or it has no such row */
    TERNTROLLEY_FULL = 2      /* `ends` has fewer numbers than the piece has bytes */
};

/* Reads a piece from a row of any numbers lent as a table, and writes the bits after each byte to the front of `ends`.
 * It looks at the whole table each time. Whatever it answers but TERNTROLLEY_READ, `ends` and *next stay as they were. */
uint32_t terntrolley_feed(const uint32_t *table, size_t table_len, size_t rows, size_t row, const uint8_t *piece,
                          size_t piece_len, uint32_t *ends, size_t ends_len, size_t *next);

/* Looks at a table once: 0 if the numbers are a table of so many rows, TERNTROLLEY_NO_TABLE if they aren't. */
uint32_t terntrolley_validate(const uint32_t *table, size_t table_len, size_t rows);

/* The same as terntrolley_feed at a cost that depends on the piece alone. The caller owes that terntrolley_validate
 * answered 0 for these numbers, unchanged since, and that row < rows; then it answers TERNTROLLEY_READ or
 * TERNTROLLEY_FULL. */
uint32_t terntrolley_feed_valid(const uint32_t *table, size_t table_len, size_t rows, size_t row, const uint8_t *piece,
                                size_t piece_len, uint32_t *ends, size_t ends_len, size_t *next);

#ifdef __cplusplus
}
#endif

#endif
