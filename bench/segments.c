#include "segments.h"

#include <emmintrin.h>
#include <stdlib.h>
#include <string.h>

#include "calls.h"
#include "ferghulta.h"
#include "rows.h"

struct buffers {
    size_t length;
    uint8_t *from, *to;
};

// A byte of the result goes here, so that no copy can be left out.
static volatile uint8_t sink;

static void to_segmented(struct buffers b)
{
    if (ferghulta_to_segmented(b.from, b.length, b.to, b.length))
        stop("rows were refused");
}

static void to_progressive(struct buffers b)
{
    if (ferghulta_to_progressive(b.from, b.length, b.to, b.length))
        stop("rows were refused");
}

static void copy(struct buffers b)
{
    memcpy(b.to, b.from, b.length);
}

// Takes a buffer out of every cache: a processor may have one that is longer than both buffers together.
static void flush(const uint8_t *bytes, size_t length)
{
    for (size_t at = 0; at < length; at += ALIGN)
        _mm_clflush(bytes + at);
    _mm_mfence();
}

void time_moves(size_t bytes, int rounds, struct move moves[MOVES])
{
    static const struct {
        const char *name;
        void (*run)(struct buffers b);
    } OF[MOVES] = {{"to_segmented", to_segmented}, {"to_progressive", to_progressive}, {"memcpy", copy}};
    struct buffers b = {.length = FERGHULTA_SEGMENTED_LINES * bytes};
    b.from = aligned_zero(b.length);
    b.to = aligned_zero(b.length);
    for (size_t at = 0; at < b.length; at++)
        b.from[at] = (uint8_t)random_number();
    for (int m = 0; m < MOVES; m++)
        moves[m] = (struct move){OF[m].name, 1e18};
    for (int round = 0; round < rounds; round++)
        for (int m = 0; m < MOVES; m++) {
            flush(b.from, b.length);
            flush(b.to, b.length);
            double start = now();
            OF[m].run(b);
            double each = (now() - start) / 1e6;
            sink = b.to[(size_t)round % b.length];
            if (each < moves[m].milliseconds)
                moves[m].milliseconds = each;
        }
    free(b.from);
    free(b.to);
}
