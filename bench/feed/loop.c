/* Feeding as one writes it in C, checking nothing: what the exported feed is measured against. */
#include "loop.h"

size_t loop_feed(const uint32_t *table, size_t row, const uint8_t *piece, size_t piece_len, uint32_t *ends)
{
    size_t at = row;
    for (size_t i = 0; i < piece_len; i++) {
        at = table[257 * at + 1 + piece[i]];
        ends[i] = table[257 * at];
    }
    return at;
}
