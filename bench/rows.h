// The rows that every contestant is given, in the layout that each likes, and the exact results to compare with.
#ifndef ROWS_H
#define ROWS_H

#include <stddef.h>
#include <stdint.h>

enum { PLANES = 3, ALIGN = 64, SYSTEM_COUNT = 4 };

struct system {
    uint32_t number;
    int bits;
    int64_t kr, kg, kb;
};

extern const struct system SYSTEMS[SYSTEM_COUNT];

struct rows {
    const struct system *system;
    size_t width, count;
    uint16_t *lights;         // R, G, B of each sample, row after row
    float *linear[PLANES];    // the same lights in planes, from 0 to 1
    uint16_t *codes[PLANES];  // their exact codes
    uint16_t *words[PLANES];  // the exact words of these codes
    uint16_t *back[PLANES];   // the exact codes of these words
    uint8_t *byte_words[PLANES];
    uint8_t *blocks;          // row blocks, one after the other
    uint16_t *read;           // R, G, B of each sample of these blocks
    uint16_t *result[PLANES]; // what the contestant made
    uint8_t *byte_result[PLANES];
};

// Random lights, a different row each, and everything that follows from them.
struct rows *rows_new(const struct system *system, size_t width, size_t count);
void rows_free(struct rows *rows);

static inline size_t samples(const struct rows *rows)
{
    return rows->width * rows->count;
}

static inline int scale(const struct system *system)
{
    return 1 << (system->bits - 8);
}

// Memory at a multiple of 64 bytes, all zero, since vector code is fastest there.
void *aligned_zero(size_t bytes);

// The next of a fixed list of random numbers.
uint32_t random_number(void);

_Noreturn void stop(const char *why);

#endif
