#ifndef LOOP_H
#define LOOP_H

#include <stddef.h>
#include <stdint.h>

size_t loop_feed(const uint32_t *table, size_t row, const uint8_t *piece, size_t piece_len, uint32_t *ends);

#endif
