/* Throughput of the exported validated feed beside the same loop in C, on the same table and text, in turns. */
#include <stdio.h>
#include <stdlib.h>
#include <string.h>
#include <time.h>

#include "../../include/terntrolley.h"
#include "loop.h"

#define TEXT ((size_t)16 << 20)
#define TURNS 25

static uint64_t state = 1;

/* splitmix64: the same numbers in every run */
static uint64_t random_number(void)
{
    uint64_t z = (state += 0x9e3779b97f4a7c15);
    z = (z ^ (z >> 30)) * 0xbf58476d1ce4e5b9;
    z = (z ^ (z >> 27)) * 0x94d049bb133111eb;
    return z ^ (z >> 31);
}

/* the processor's time, so that other programs on the machine count for neither side */
static double now(void)
{
    struct timespec t;
    clock_gettime(CLOCK_PROCESS_CPUTIME_ID, &t);
    return (double)t.tv_sec + 1e-9 * (double)t.tv_nsec;
}

static void *room(size_t bytes)
{
    void *p = malloc(bytes);
    if (!p) {
        fputs("no memory\n", stderr);
        exit(1);
    }
    memset(p, 0, bytes);
    return p;
}

struct work {
    const uint32_t *table;
    size_t rows;
    const uint8_t *text;
    size_t piece;
};

/* the whole text in pieces, bits into `ends`; the last row */
static size_t by_loop(const struct work *w, uint32_t *ends)
{
    size_t row = 0;
    for (size_t from = 0; from < TEXT; from += w->piece)
        row = loop_feed(w->table, row, w->text + from, w->piece, ends + from);
    return row;
}

static size_t by_export(const struct work *w, uint32_t *ends)
{
    size_t row = 0;
    for (size_t from = 0; from < TEXT; from += w->piece)
        if (terntrolley_feed_valid(w->table, 257 * w->rows, w->rows, row, w->text + from, w->piece, ends + from, w->piece, &row) != TERNTROLLEY_READ)
            exit(1);
    return row;
}

static double timed(size_t (*run)(const struct work *, uint32_t *), const struct work *w, uint32_t *ends, size_t *row)
{
    double from = now();
    *row = run(w, ends);
    return now() - from;
}

/* the least time of each side, the two taking turns, and which begins changing from turn to turn */
static int measure(const struct work *w, uint32_t *ends, uint32_t *same)
{
    double loop = 1e9, export = 1e9;
    size_t row_loop = 0, row_export = 0;
    for (int turn = 0; turn < TURNS; turn++) {
        for (int side = 0; side < 2; side++) {
            int exported = (side + turn) % 2;
            double t = exported ? timed(by_export, w, ends, &row_export) : timed(by_loop, w, same, &row_loop);
            if (exported && t < export)
                export = t;
            if (!exported && t < loop)
                loop = t;
        }
    }
    if (row_loop != row_export || memcmp(ends, same, 4 * TEXT) != 0) {
        fputs("the two sides differ\n", stderr);
        return 1;
    }
    double mib = (double)(TEXT >> 20);
    printf("| %zu | %zu | %.0f | %.0f | %.2f |\n", w->rows, w->piece, mib / export, mib / loop, loop / export);
    fflush(stdout);
    return 0;
}

int main(void)
{
    static const size_t rows[] = {2, 64, 1024};
    static const size_t pieces[] = {TEXT, 64, 1};
    uint8_t *text = room(TEXT);
    uint32_t *ends = room(4 * TEXT), *same = room(4 * TEXT);
    for (size_t i = 0; i < TEXT; i++)
        text[i] = (uint8_t)random_number();
    puts("| rows | bytes a piece | exported feed, MiB/s | loop in C, MiB/s | ratio |\n|---:|---:|---:|---:|---:|");
    for (size_t r = 0; r < 3; r++) {
        uint32_t *table = room(4 * 257 * rows[r]);
        for (size_t p = 0; p < 257 * rows[r]; p++)
            table[p] = p % 257 == 0 ? (uint32_t)random_number() : (uint32_t)(random_number() % rows[r]);
        if (terntrolley_validate(table, 257 * rows[r], rows[r]) != 0)
            return 1;
        for (size_t p = 0; p < 3; p++) {
            struct work w = {table, rows[r], text, pieces[p]};
            if (measure(&w, ends, same) != 0)
                return 1;
        }
        free(table);
    }
    return 0;
}
