/* What both fuzz programs use: fenced memory, and counts of the answers by call and refusal. */
#ifndef HARNESS_H
#define HARNESS_H

#include "exact.h"
#include <stdio.h>
#include <stdlib.h>
#include <string.h>
#include <sys/mman.h>

enum { FENCED_PAGES = 16, PAGE = 4096, REFUSALS = 37 };

enum call {
    OPEN,
    ROW,
    CLOSE,
    READ_BLOCK,
    READ_METERED,
    METER_FIGURES,
    CODE_OF_LIGHT,
    SPAN_OF_CODE,
    CODES_OF_SIGNALS,
    SIGNALS_OF_CODES,
    WORDS_OF_CODES,
    TRIMMED_WORDS_OF_CODES,
    CODES_OF_WORDS,
    CONSTANT_WORDS_OF_LIGHTS,
    CONSTANT_CODES_OF_WORDS,
    LEVEL_OF_CODE,
    LEVEL_OF_DIFFERENCE,
    TOTAL_BYTES,
    CHANGE_DEPTH,
    OPEN_READER,
    READ_NEXT,
    CALLS
};

static const char *const names[CALLS] = { "open", "row", "close", "read_block", "read_metered", "meter_figures", "code_of_light",
    "span_of_code", "codes_of_signals", "signals_of_codes", "words_of_codes", "trimmed_words_of_codes", "codes_of_words",
    "constant_words_of_lights", "constant_codes_of_words", "level_of_code", "level_of_difference", "total_bytes", "change_depth",
    "open_reader", "read_next" };

/* The library is not instrumented, so its refusals are told to libFuzzer as counters of their own. */
__attribute__((section("__libfuzzer_extra_counters"))) static uint8_t refused[CALLS][REFUSALS];
static unsigned long compared[CALLS][REFUSALS];

static inline void note(enum call call, uint32_t refusal)
{
    refused[call][refusal % REFUSALS] = 1;
    compared[call][refusal % REFUSALS]++;
}

static inline void print_compared(void)
{
    for (int call = 0; call < CALLS; call++) {
        unsigned long all = 0;
        for (int refusal = 0; refusal < REFUSALS; refusal++)
            all += compared[call][refusal];
        if (all == 0)
            continue;
        printf("%s %lu compared, 0 differ; by refusal", names[call], all);
        for (int refusal = 0; refusal < REFUSALS; refusal++)
            if (compared[call][refusal] > 0)
                printf(" %d: %lu", refusal, compared[call][refusal]);
        printf("\n");
    }
}

/* A difference ends the program; libFuzzer keeps the input. */
static inline void agree(enum call call, const char *what, const void *got, const void *wanted, size_t size)
{
    if (memcmp(got, wanted, size) == 0)
        return;
    fprintf(stderr, "%s differs: %s\n", names[call], what);
    abort();
}

/* Compares the figures of a meter. */
static inline void agree_on_figures(ferghulta_meter meter)
{
    ferghulta_figures got = ferghulta_meter_figures(meter), wanted = exact_meter_figures(meter);
    note(METER_FIGURES, 0);
    agree(METER_FIGURES, "the figures", &got, &wanted, sizeof got);
}

/* Makes the sums of a meter those of its first counts, so many as it has rows. */
static inline void sum_up(ferghulta_meter *meter)
{
    meter->low = meter->high = 0;
    for (uint32_t at = 0; at < meter->rows && at < FERGHULTA_METER_ROWS; at++) {
        meter->low += meter->lows[at];
        meter->high += meter->highs[at];
    }
}

/* The end of fresh pages that are filled with a pattern; a call that reads or writes behind it is ended there. */
static inline uint8_t *fenced_end(void)
{
    size_t size = FENCED_PAGES * PAGE;
    uint8_t *first = mmap(NULL, size + PAGE, PROT_READ | PROT_WRITE, MAP_PRIVATE | MAP_ANONYMOUS, -1, 0);
    if (first == MAP_FAILED || mprotect(first + size, PAGE, PROT_NONE) != 0)
        abort();
    memset(first, 0xA5, size);
    return first + size;
}

#endif
