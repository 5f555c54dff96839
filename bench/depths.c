#include "depths.h"

#include <stdlib.h>
#include <string.h>

#include "calls.h"
#include "ferghulta.h"

struct blocks {
    uint32_t target;
    size_t bytes, count;
    const uint8_t *from;
    uint8_t *to;
};

// A byte of the result goes here, so that no copy can be left out.
static volatile uint8_t sink;

static void change_depth(struct blocks b)
{
    uint32_t refusals = 0;
    for (size_t at = 0; at < b.count * b.bytes; at += b.bytes)
        refusals |= ferghulta_change_depth(b.target, b.from + at, b.bytes, b.to + at, b.bytes);
    if (refusals)
        stop("a block was refused in the other depth");
}

static void copy(struct blocks b)
{
    for (size_t at = 0; at < b.count * b.bytes; at += b.bytes)
        memcpy(b.to + at, b.from + at, b.bytes);
}

uint32_t other_depth(const struct system *system)
{
    static const uint32_t OTHERS[SYSTEM_COUNT] = {2, 1, 4, 3};
    return OTHERS[system->number - 1];
}

// The words of lights are nominal, so that none gives a timing code.
void time_changes(const struct system *system, size_t width, size_t count, int rounds, struct change changes[CHANGES])
{
    static const struct {
        const char *name;
        void (*run)(struct blocks b);
    } OF[CHANGES] = {{"change_depth", change_depth}, {"memcpy", copy}};
    struct rows *rows = rows_new(system, width, count);
    struct blocks b = {other_depth(system), FERGHULTA_BLOCK_BYTES(width), count, rows->blocks, NULL};
    b.to = aligned_zero(b.bytes * count);
    for (int c = 0; c < CHANGES; c++)
        changes[c] = (struct change){OF[c].name, 1e18};
    for (int round = 0; round < rounds; round++)
        for (int c = 0; c < CHANGES; c++) {
            OF[c].run(b); // so that all blocks are in the cache
            double start = now();
            OF[c].run(b);
            double each = (now() - start) / (double)count;
            sink = b.to[(size_t)round % (b.bytes * count)];
            if (each < changes[c].nanoseconds)
                changes[c].nanoseconds = each;
        }
    free(b.to);
    rows_free(rows);
}
