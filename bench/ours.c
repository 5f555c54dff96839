#include <string.h>

#include "contestants.h"
#include "ferghulta.h"

static void write_rows(void *state)
{
    struct rows *rows = state;
    size_t lights = FERGHULTA_ROW_CODES(rows->width), bytes = FERGHULTA_BLOCK_BYTES(rows->width);
    ferghulta_picture_answer a =
        ferghulta_open(ferghulta_new(), rows->system->number, (uint32_t)rows->width, (uint32_t)rows->count);
    for (size_t row = 0; row < rows->count; row++)
        a = ferghulta_row(a.picture, rows->lights + row * lights, lights, rows->blocks + row * bytes, bytes);
    if (ferghulta_close(a.picture).refusal)
        stop("a row was refused");
}

static void collect_words(void *state)
{
    struct rows *rows = state;
    for (size_t row = 0; row < rows->count; row++)
        for (int p = 0; p < PLANES; p++) {
            const uint8_t *section = rows->blocks + row * FERGHULTA_BLOCK_BYTES(rows->width) + 3 + p * (2 + 2 * rows->width);
            memcpy(rows->result[p] + row * rows->width, section + 2, 2 * rows->width);
        }
}

static void read_blocks(void *state)
{
    struct rows *rows = state;
    size_t codes = FERGHULTA_ROW_CODES(rows->width), bytes = FERGHULTA_BLOCK_BYTES(rows->width);
    uint32_t refusals = 0;
    for (size_t row = 0; row < rows->count; row++)
        refusals |= ferghulta_read_block(rows->blocks + row * bytes, bytes, rows->read + row * codes, codes).refusal;
    if (refusals)
        stop("a block was refused");
}

static void read_metered_blocks(void *state)
{
    struct rows *rows = state;
    size_t codes = FERGHULTA_ROW_CODES(rows->width), bytes = FERGHULTA_BLOCK_BYTES(rows->width);
    ferghulta_meter meter = ferghulta_empty_meter();
    uint32_t refusals = 0;
    for (size_t row = 0; row < rows->count; row++)
        refusals |=
            ferghulta_read_metered_of(&meter, rows->blocks + row * bytes, bytes, rows->read + row * codes, codes).refusal;
    if (refusals || ferghulta_meter_figures(meter).rows == 0)
        stop("a metered block was refused");
}

static void read_blocks_in_turn(void *state)
{
    struct rows *rows = state;
    size_t codes = FERGHULTA_ROW_CODES(rows->width), bytes = FERGHULTA_BLOCK_BYTES(rows->width);
    ferghulta_reader reader = ferghulta_open_reader(ferghulta_new_reader(), (uint32_t)rows->count).reader;
    uint32_t refusals = 0;
    for (size_t row = 0; row < rows->count; row++)
        refusals |= ferghulta_read_next_of(&reader, rows->blocks + row * bytes, bytes, rows->read + row * codes, codes).refusal;
    if (refusals || reader.phase != FERGHULTA_COMPLETE)
        stop("a block was refused in turn");
}

static void collect_codes(void *state)
{
    struct rows *rows = state;
    for (size_t at = 0; at < samples(rows); at++)
        for (int p = 0; p < PLANES; p++)
            rows->result[p][at] = rows->read[PLANES * at + p];
}

static void nothing(void *state)
{
    (void)state;
}

struct contestant our_rows(struct rows *rows)
{
    return (struct contestant){LIGHT_TO_WORDS, "ours", write_rows, collect_words, nothing, rows};
}

struct contestant our_reads(struct rows *rows)
{
    return (struct contestant){WORDS_TO_CODES, "ours", read_blocks, collect_codes, nothing, rows};
}

struct contestant our_metered_reads(struct rows *rows)
{
    return (struct contestant){WORDS_TO_CODES, "ours with a meter", read_metered_blocks, collect_codes, nothing, rows};
}

struct contestant our_reads_in_turn(struct rows *rows)
{
    return (struct contestant){WORDS_TO_CODES, "ours through a reader", read_blocks_in_turn, collect_codes, nothing, rows};
}
