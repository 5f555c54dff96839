#include "calls.h"

#include <time.h>

#include "contestants.h"
#include "ferghulta.h"

// A picture has no more rows than 4320, and so many different arguments are beyond what a branch predictor learns.
enum { ARGUMENTS = 4096 };

// The sum of the answers goes here, so that no call can be left out.
static volatile uint32_t sink;

double now(void)
{
    struct timespec t;
    clock_gettime(CLOCK_MONOTONIC, &t);
    return 1e9 * (double)t.tv_sec + (double)t.tv_nsec;
}

static ferghulta_codes codes_at(const struct rows *rows, size_t i)
{
    return (ferghulta_codes){rows->codes[0][i], rows->codes[1][i], rows->codes[2][i]};
}

static ferghulta_words words_at(const struct rows *rows, size_t i)
{
    return (ferghulta_words){rows->words[0][i], rows->words[1][i], rows->words[2][i]};
}

static void code_of_light(const struct rows *rows)
{
    uint32_t sum = 0;
    for (size_t i = 0; i < ARGUMENTS; i++)
        sum += ferghulta_code_of_light(rows->system->number, rows->lights[i]).code;
    sink = sum;
}

static void span_of_code(const struct rows *rows)
{
    uint32_t sum = 0;
    for (size_t i = 0; i < ARGUMENTS; i++)
        sum += ferghulta_span_of_code(rows->system->number, rows->codes[0][i]).span.least;
    sink = sum;
}

static void codes_of_signals(const struct rows *rows)
{
    uint32_t sum = 0;
    for (size_t i = 0; i < ARGUMENTS; i++) {
        ferghulta_signals signals = {rows->linear[0][i], rows->linear[1][i], rows->linear[2][i]};
        sum += ferghulta_codes_of_signals(rows->system->number, signals).codes.g;
    }
    sink = sum;
}

static void signals_of_codes(const struct rows *rows)
{
    float sum = 0;
    for (size_t i = 0; i < ARGUMENTS; i++)
        sum += ferghulta_signals_of_codes(rows->system->number, codes_at(rows, i)).signals.g;
    sink = (uint32_t)sum;
}

static void words_of_codes(const struct rows *rows)
{
    uint32_t sum = 0;
    for (size_t i = 0; i < ARGUMENTS; i++)
        sum += ferghulta_words_of_codes(rows->system->number, codes_at(rows, i)).words.cb;
    sink = sum;
}

static void trimmed_words_of_codes(const struct rows *rows)
{
    uint32_t sum = 0;
    for (size_t i = 0; i < ARGUMENTS; i++)
        sum += ferghulta_trimmed_words_of_codes(rows->system->number, codes_at(rows, i)).words.cb;
    sink = sum;
}

static void codes_of_words(const struct rows *rows)
{
    uint32_t sum = 0;
    for (size_t i = 0; i < ARGUMENTS; i++)
        sum += ferghulta_codes_of_words(rows->system->number, words_at(rows, i)).codes.g;
    sink = sum;
}

static void level_of_code(const struct rows *rows)
{
    uint32_t sum = 0;
    for (size_t i = 0; i < ARGUMENTS; i++)
        sum += ferghulta_level_of_code(rows->system->number, rows->codes[0][i]).level.remainder;
    sink = sum;
}

static void level_of_difference(const struct rows *rows)
{
    uint32_t sum = 0;
    for (size_t i = 0; i < ARGUMENTS; i++)
        sum += ferghulta_level_of_difference(rows->system->number, rows->words[1][i]).level.remainder;
    sink = sum;
}

// Codes of every system are widths and heights that are accepted.
static void total_bytes(const struct rows *rows)
{
    uint32_t sum = 0;
    for (size_t i = 0; i < ARGUMENTS; i++)
        sum += ferghulta_total_bytes(rows->codes[0][i], rows->codes[1][i]).bytes;
    sink = sum;
}

// Full meters: a meter as it is after 65 rows, after 66, and so on.
static void fill_meters(const struct rows *rows, ferghulta_meter meters[FERGHULTA_METER_ROWS])
{
    ferghulta_meter meter = ferghulta_empty_meter();
    uint16_t codes[PLANES];
    size_t bytes = FERGHULTA_BLOCK_BYTES(1);
    for (size_t row = 0; row < 2 * FERGHULTA_METER_ROWS; row++) {
        if (ferghulta_read_metered_of(&meter, rows->blocks + row * bytes, bytes, codes, PLANES).refusal)
            stop("a metered block was refused");
        meters[row % FERGHULTA_METER_ROWS] = meter;
    }
}

static void meter_figures(const struct rows *rows)
{
    static ferghulta_meter meters[FERGHULTA_METER_ROWS];
    if (meters[0].rows == 0)
        fill_meters(rows, meters); // in the first round
    uint32_t sum = 0;
    for (size_t i = 0; i < ARGUMENTS; i++)
        sum += ferghulta_meter_figures(meters[i % FERGHULTA_METER_ROWS]).rows;
    sink = sum;
}

// Codes are heights that a reader is opened with, too.
static void open_reader(const struct rows *rows)
{
    const ferghulta_reader reader = ferghulta_new_reader();
    uint32_t sum = 0;
    for (size_t i = 0; i < ARGUMENTS; i++)
        sum += ferghulta_open_reader(reader, rows->codes[0][i]).reader.height;
    sink = sum;
}

static void row_of_one(const struct rows *rows)
{
    our_rows((struct rows *)rows).run((void *)rows);
}

static void block_of_one(const struct rows *rows)
{
    our_reads((struct rows *)rows).run((void *)rows);
}

static void constant_words_of_lights(const struct rows *rows)
{
    const uint32_t system = constant_system(rows->system);
    uint32_t sum = 0;
    for (size_t i = 0; i < ARGUMENTS; i++) {
        const uint16_t *light = rows->lights + PLANES * i;
        sum += ferghulta_constant_words_of_lights(system, (ferghulta_lights){light[0], light[1], light[2]}).words.cb;
    }
    sink = sum;
}

// The words of the same lights without constant luminance: both sides of the middle, as at random.
static void constant_codes_of_words(const struct rows *rows)
{
    const uint32_t system = constant_system(rows->system);
    uint32_t sum = 0;
    for (size_t i = 0; i < ARGUMENTS; i++)
        sum += ferghulta_constant_codes_of_words(system, words_at(rows, i)).codes.b;
    sink = sum;
}

struct timed {
    const char *name;
    void (*run)(const struct rows *rows);
};

static void time_in_turn(const struct system *system, int rounds, int count, const struct timed *of, struct call *calls)
{
    struct rows *rows = rows_new(system, 1, ARGUMENTS);
    for (int c = 0; c < count; c++)
        calls[c] = (struct call){of[c].name, 1e18};
    for (int round = 0; round < rounds; round++)
        for (int c = 0; c < count; c++) {
            double start = now();
            of[c].run(rows);
            double each = (now() - start) / ARGUMENTS;
            if (each < calls[c].nanoseconds)
                calls[c].nanoseconds = each;
        }
    rows_free(rows);
}

void time_calls(const struct system *system, int rounds, struct call calls[CALLS])
{
    static const struct timed OF[CALLS] = {
        {"row (width 1)", row_of_one},           {"read_block (width 1)", block_of_one},
        {"code_of_light", code_of_light},        {"span_of_code", span_of_code},
        {"codes_of_signals", codes_of_signals},  {"signals_of_codes", signals_of_codes},
        {"words_of_codes", words_of_codes},      {"trimmed_words_of_codes", trimmed_words_of_codes},
        {"codes_of_words", codes_of_words},      {"level_of_code", level_of_code},
        {"level_of_difference", level_of_difference}, {"total_bytes", total_bytes},
        {"meter_figures", meter_figures},        {"open_reader", open_reader},
    };
    time_in_turn(system, rounds, CALLS, OF, calls);
}

uint32_t constant_system(const struct system *system)
{
    return system->number >= 3 ? system->number + 2 : 0;
}

void time_constant_calls(const struct system *system, int rounds, struct call calls[CONSTANT_CALLS])
{
    static const struct timed OF[CONSTANT_CALLS] = {
        {"code_of_light", code_of_light},
        {"constant_words_of_lights", constant_words_of_lights},
        {"constant_codes_of_words", constant_codes_of_words},
    };
    time_in_turn(system, rounds, CONSTANT_CALLS, OF, calls);
}
