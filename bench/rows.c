#include "rows.h"

#include <stdio.h>
#include <stdlib.h>
#include <string.h>

#include "exact.h"
#include "ferghulta.h"

const struct system SYSTEMS[SYSTEM_COUNT] = {
    {1, 8, 2126, 7152, 722},
    {2, 10, 2126, 7152, 722},
    {3, 10, 2627, 6780, 593},
    {4, 12, 2627, 6780, 593},
};

void stop(const char *why)
{
    fprintf(stderr, "bench: %s\n", why);
    exit(1);
}

void *aligned_zero(size_t bytes)
{
    size_t whole = (bytes + ALIGN - 1) / ALIGN * ALIGN;
    void *memory = aligned_alloc(ALIGN, whole);
    if (!memory)
        stop("no memory");
    return memset(memory, 0, whole);
}

// Marsaglia's xorshift: the same rows in every run.
uint32_t random_number(void)
{
    static uint64_t x = 88172645463325252u;
    x ^= x << 13;
    x ^= x >> 7;
    x ^= x << 17;
    return (uint32_t)(x >> 32);
}

static void fill_sample(struct rows *rows, size_t at)
{
    uint16_t codes[PLANES], words[PLANES], back[PLANES];
    for (int p = 0; p < PLANES; p++) {
        uint16_t light = (uint16_t)random_number();
        rows->lights[PLANES * at + p] = light;
        rows->linear[p][at] = (float)light / 65535.0f;
        codes[p] = ferghulta_code_of_light(rows->system->number, light).code;
    }
    exact_words(rows->system, codes, words);
    exact_codes(rows->system, words, back);
    for (int p = 0; p < PLANES; p++) {
        rows->codes[p][at] = codes[p];
        rows->words[p][at] = words[p];
        rows->byte_words[p][at] = (uint8_t)words[p];
        rows->back[p][at] = back[p];
    }
}

// The blocks are made once here, so that reading does not depend on what was timed before it.
static void fill_blocks(struct rows *rows)
{
    size_t bytes = FERGHULTA_BLOCK_BYTES(rows->width);
    for (size_t row = 0; row < rows->count; row++) {
        uint8_t *block = rows->blocks + row * bytes;
        uint16_t width = (uint16_t)rows->width, number = (uint16_t)row;
        block[0] = (uint8_t)rows->system->number;
        memcpy(block + 1, &number, 2);
        for (int p = 0; p < PLANES; p++) {
            uint8_t *section = block + 3 + p * (2 + 2 * rows->width);
            memcpy(section, &width, 2);
            memcpy(section + 2, rows->words[p] + row * rows->width, 2 * rows->width);
        }
    }
}

struct rows *rows_new(const struct system *system, size_t width, size_t count)
{
    struct rows *rows = aligned_zero(sizeof *rows);
    rows->system = system;
    rows->width = width;
    rows->count = count;
    size_t n = width * count;
    rows->lights = aligned_zero(2 * PLANES * n);
    rows->read = aligned_zero(2 * PLANES * n);
    rows->blocks = aligned_zero(FERGHULTA_BLOCK_BYTES(width) * count);
    for (int p = 0; p < PLANES; p++) {
        rows->linear[p] = aligned_zero(4 * n);
        rows->codes[p] = aligned_zero(2 * n);
        rows->words[p] = aligned_zero(2 * n);
        rows->back[p] = aligned_zero(2 * n);
        rows->byte_words[p] = aligned_zero(n);
        rows->result[p] = aligned_zero(2 * n);
        rows->byte_result[p] = aligned_zero(n);
    }
    for (size_t at = 0; at < n; at++)
        fill_sample(rows, at);
    fill_blocks(rows);
    return rows;
}

void rows_free(struct rows *rows)
{
    for (int p = 0; p < PLANES; p++) {
        free(rows->linear[p]);
        free(rows->codes[p]);
        free(rows->words[p]);
        free(rows->back[p]);
        free(rows->byte_words[p]);
        free(rows->result[p]);
        free(rows->byte_result[p]);
    }
    free(rows->lights);
    free(rows->read);
    free(rows->blocks);
    free(rows);
}
