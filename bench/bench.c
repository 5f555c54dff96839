// Times the library's rows and blocks beside zimg's and swscale's, and counts the words that each gets wrong.
//
//     bench [--csv FILE] [--rounds N]    all tables
//     bench --list                       the contestants and their numbers
//     bench --count CONTESTANT SYSTEM    one run of one contestant, in the function `counted`, for a tool that counts instructions
#include <stdio.h>
#include <stdlib.h>
#include <string.h>

#include "calls.h"
#include "contestants.h"
#include "depths.h"
#include "exact.h"
#include "readings.h"
#include "segments.h"

// What is done just before a contestant is timed: nothing, so that it meets the rows as its turn finds them; a run of its own, so
// that few rows are in the cache and the work alone is timed; or a sweep through other memory, so that rows come from far away.
enum before { NOTHING, WARM_UP, SWEEP };

struct set {
    const char *name;
    size_t width, count;
    enum before before;
};

static const struct set SETS[] = {
    {"a picture", 1920, 256, NOTHING},
    {"a picture", 7680, 64, NOTHING},
    {"cache", 1920, 32, WARM_UP},
    {"cache", 7680, 8, WARM_UP},
    {"memory", 7680, 8, SWEEP},
};
enum { SET_COUNT = sizeof SETS / sizeof *SETS, COUNTED_SET = 2 };
static const struct set COMPARED = {"compared", 7680, 128, NOTHING};

// One set of rows of one system, with all who are timed on it.
struct heat {
    const struct set *set;
    struct rows *rows;
    struct contestant contestants[CONTESTANTS];
    double best[CONTESTANTS]; // the least ns a sample
};

static const char *const WAY_NAMES[] = {"light to words", "codes to words", "words to codes"};

static FILE *csv;

static void contestants_of(struct rows *rows, struct contestant c[CONTESTANTS])
{
    int n = 0;
    c[n++] = our_rows(rows);
    c[n++] = zimg_of_light(rows, "zimg exact gamma", 0);
    c[n++] = zimg_of_light(rows, "zimg approximate gamma", 1);
    c[n++] = zimg_of_codes(rows, "zimg");
    c[n++] = our_reads(rows);
    c[n++] = zimg_of_words(rows, "zimg", 0);
    c[n++] = zimg_of_words(rows, "zimg 64-byte vectors", 1);
    c[n++] = swscale_of_words(rows, "swscale");
}

static struct heat heat_of(const struct set *set, const struct system *system)
{
    struct heat heat = {.set = set, .rows = rows_new(system, set->width, set->count)};
    contestants_of(heat.rows, heat.contestants);
    for (int i = 0; i < CONTESTANTS; i++)
        heat.best[i] = 1e18;
    return heat;
}

static void end_heat(struct heat *heat)
{
    for (int i = 0; i < CONTESTANTS; i++)
        heat->contestants[i].end(heat->contestants[i].state);
    rows_free(heat->rows);
}

static void put_csv(const char *table, const struct set *set, uint32_t system, const char *way, const char *name, double value)
{
    if (csv)
        fprintf(csv, "%s,%zu,%s,%u,%s,%s,%.6g\n", table, set->width, set->name, (unsigned)system, way, name, value);
}

// Reads so much else that a contestant's rows leave the caches near the processor.
static void sweep(void)
{
    enum { BYTES = 32 << 20 };
    static volatile uint8_t *other;
    if (!other)
        other = memset(aligned_zero(BYTES), 1, BYTES);
    for (size_t at = 0; at < BYTES; at += ALIGN)
        (void)other[at];
}

static void prepare(const struct heat *heat, const struct contestant *c)
{
    if (heat->set->before == SWEEP)
        sweep();
    if (heat->set->before == WARM_UP)
        c->run(c->state);
}

// Contestants take turns, so that a slow moment of the machine meets all of them.
static void time_once(struct heat *heat)
{
    for (int i = 0; i < CONTESTANTS; i++) {
        const struct contestant *c = &heat->contestants[i];
        prepare(heat, c);
        double start = now();
        c->run(c->state);
        double each = (now() - start) / (double)samples(heat->rows);
        if (each < heat->best[i])
            heat->best[i] = each;
    }
}

// The library's own time for the same way; codes to words stands beside the row, which has the curve to do as well.
static double ours_of(const struct heat *heat, enum way way)
{
    if (way == CODES_TO_WORDS)
        way = LIGHT_TO_WORDS;
    for (int i = 0; i < CONTESTANTS; i++)
        if (heat->contestants[i].way == way && !strcmp(heat->contestants[i].name, "ours"))
            return heat->best[i];
    return 0;
}

static void print_times(const struct heat *heat)
{
    uint32_t system = heat->rows->system->number;
    for (int i = 0; i < CONTESTANTS; i++) {
        const struct contestant *c = &heat->contestants[i];
        printf("%-8u%-16s%-26s%8.2f%16.2f\n", (unsigned)system, WAY_NAMES[c->way], c->name, heat->best[i],
               heat->best[i] / ours_of(heat, c->way));
        put_csv("time", heat->set, system, WAY_NAMES[c->way], c->name, heat->best[i]);
    }
}

// The round is the outer loop, so that every figure is the least of moments spread over the whole run.
static void time_all(int rounds)
{
    static struct heat heats[SET_COUNT][SYSTEM_COUNT];
    for (int i = 0; i < SET_COUNT; i++)
        for (int s = 0; s < SYSTEM_COUNT; s++)
            heats[i][s] = heat_of(&SETS[i], &SYSTEMS[s]);
    for (int round = 0; round < rounds; round++)
        for (int i = 0; i < SET_COUNT; i++)
            for (int s = 0; s < SYSTEM_COUNT; s++)
                time_once(&heats[i][s]);
    for (int i = 0; i < SET_COUNT; i++) {
        printf("\nns a sample, rows of %zu, %zu rows, from %s\n", SETS[i].width, SETS[i].count, SETS[i].name);
        printf("%-8s%-16s%-26s%8s%16s\n", "system", "way", "contestant", "ns", "ns / ours");
        for (int s = 0; s < SYSTEM_COUNT; s++) {
            print_times(&heats[i][s]);
            end_heat(&heats[i][s]);
        }
    }
}

struct misses {
    size_t off;
    int worst;
};

// A peer's code beyond video data is brought to its end first, as in the library; the peers do not clip there.
static struct misses misses_of(const struct rows *rows, const struct contestant *c)
{
    struct misses m = {0, 0};
    for (int p = 0; p < PLANES; p++)
        for (size_t at = 0; at < samples(rows); at++) {
            int to_codes = c->way == WORDS_TO_CODES;
            int wanted = to_codes ? rows->back[p][at] : rows->words[p][at];
            int made = to_codes ? clipped(rows->system, rows->result[p][at]) : rows->result[p][at];
            int distance = abs(made - wanted);
            m.off += distance != 0;
            m.worst = distance > m.worst ? distance : m.worst;
        }
    return m;
}

static void compare(struct heat *heat)
{
    uint32_t system = heat->rows->system->number;
    for (int i = 0; i < CONTESTANTS; i++) {
        const struct contestant *c = &heat->contestants[i];
        c->run(c->state);
        c->collect(c->state);
        struct misses m = misses_of(heat->rows, c);
        double percent = 100.0 * (double)m.off / (double)(PLANES * samples(heat->rows));
        printf("%-8u%-16s%-26s%12.4f%8d\n", (unsigned)system, WAY_NAMES[c->way], c->name, percent, m.worst);
        put_csv("off", heat->set, system, WAY_NAMES[c->way], c->name, percent);
        put_csv("worst", heat->set, system, WAY_NAMES[c->way], c->name, m.worst);
    }
}

static void compare_all(const struct set *set)
{
    printf("\nwords or codes that are not the exact ones, of %zu in each system\n", PLANES * set->width * set->count);
    printf("%-8s%-16s%-26s%12s%8s\n", "system", "way", "contestant", "percent", "worst");
    for (int s = 0; s < SYSTEM_COUNT; s++) {
        struct heat heat = heat_of(set, &SYSTEMS[s]);
        compare(&heat);
        end_heat(&heat);
    }
}

static void time_single_calls(int rounds)
{
    static const struct set ONE = {"call", 1, 1, NOTHING};
    printf("\nns a call\n%-8s%-26s%8s\n", "system", "call", "ns");
    for (int s = 0; s < SYSTEM_COUNT; s++) {
        struct call calls[CALLS];
        time_calls(&SYSTEMS[s], rounds, calls);
        for (int c = 0; c < CALLS; c++) {
            printf("%-8u%-26s%8.1f\n", (unsigned)SYSTEMS[s].number, calls[c].name, calls[c].nanoseconds);
            put_csv("call", &ONE, SYSTEMS[s].number, "call", calls[c].name, calls[c].nanoseconds);
        }
    }
}

// Constant luminance beside a code of a light of the same bits, in turn.
static void time_constants(int rounds)
{
    static const struct set ONE = {"call", 1, 1, NOTHING};
    printf("\nns a call with constant luminance\n");
    printf("%-8s%15s%18s%16s%18s\n", "system", "code_of_light", "words_of_lights", "/ three codes", "codes_of_words");
    for (int s = 0; s < SYSTEM_COUNT; s++) {
        uint32_t number = constant_system(&SYSTEMS[s]);
        struct call c[CONSTANT_CALLS];
        if (!number)
            continue;
        time_constant_calls(&SYSTEMS[s], rounds, c);
        double code = c[0].nanoseconds, words = c[1].nanoseconds, back = c[2].nanoseconds;
        printf("%-8u%15.1f%18.1f%16.2f%18.1f\n", (unsigned)number, code, words, words / (3 * code), back);
        for (int n = 0; n < CONSTANT_CALLS; n++)
            put_csv("constant", &ONE, number, "call", c[n].name, c[n].nanoseconds);
    }
}

// Blocks read with a meter and through a reader, each beside the same blocks read by themselves.
static void time_all_readings(int rounds)
{
    static const struct set OF[] = {{"in turn", 1, 4096, NOTHING}, {"in turn", 1920, 256, NOTHING}, {"in turn", 7680, 64, NOTHING}};
    printf("\nns a block, by itself, with a meter and through a reader\n");
    printf("%-8s%-8s%12s%14s%8s%12s%8s\n", "width", "system", "read_block", "read_metered", "ratio", "read_next", "ratio");
    for (size_t i = 0; i < sizeof OF / sizeof *OF; i++)
        for (int s = 0; s < SYSTEM_COUNT; s++) {
            struct reading r[READINGS];
            time_readings(&SYSTEMS[s], OF[i].width, OF[i].count, rounds, r);
            double plain = r[0].nanoseconds, metered = r[1].nanoseconds, in_turn = r[2].nanoseconds;
            printf("%-8zu%-8u%12.1f%14.1f%8.3f%12.1f%8.3f\n", OF[i].width, (unsigned)SYSTEMS[s].number, plain, metered,
                   metered / plain, in_turn, in_turn / plain);
            for (int n = 0; n < READINGS; n++)
                put_csv("read", &OF[i], SYSTEMS[s].number, "read", r[n].name, r[n].nanoseconds);
        }
}

// Rows as long as the blocks of 1920 and of 7680 samples.
static void time_segments(int rounds)
{
    static const size_t ROW_BYTES[] = {11529, 46089};
    printf("\nms for 1080 rows\n%-12s%-20s%10s\n", "row bytes", "call", "ms");
    for (size_t i = 0; i < sizeof ROW_BYTES / sizeof *ROW_BYTES; i++) {
        const struct set set = {"memory", ROW_BYTES[i], 1080, NOTHING};
        struct move moves[MOVES];
        time_moves(ROW_BYTES[i], rounds / 4 + 1, moves); // most of a round is taking the buffers out of the caches
        for (int m = 0; m < MOVES; m++) {
            printf("%-12zu%-20s%10.2f\n", ROW_BYTES[i], moves[m].name, moves[m].milliseconds);
            put_csv("move", &set, 0, "move", moves[m].name, moves[m].milliseconds);
        }
    }
}

// As many rows as the set from cache has.
static void time_depths(int rounds)
{
    static const struct set OF = {"cache", 7680, 8, WARM_UP};
    printf("\nns a block of %zu samples, in the other depth\n", OF.width);
    printf("%-8s%-8s%14s%10s%8s\n", "system", "target", "change_depth", "memcpy", "ratio");
    for (int s = 0; s < SYSTEM_COUNT; s++) {
        struct change c[CHANGES];
        time_changes(&SYSTEMS[s], OF.width, OF.count, rounds, c);
        printf("%-8u%-8u%14.1f%10.1f%8.2f\n", (unsigned)SYSTEMS[s].number, (unsigned)other_depth(&SYSTEMS[s]), c[0].nanoseconds,
               c[1].nanoseconds, c[0].nanoseconds / c[1].nanoseconds);
        for (int n = 0; n < CHANGES; n++)
            put_csv("depth", &OF, SYSTEMS[s].number, "other depth", c[n].name, c[n].nanoseconds);
    }
}

static void list(void)
{
    static const struct set LEAST = {"list", ALIGN, 1, NOTHING};
    struct heat heat = heat_of(&LEAST, &SYSTEMS[0]);
    for (int i = 0; i < CONTESTANTS; i++)
        printf("%d,%s,%s\n", i, WAY_NAMES[heat.contestants[i].way], heat.contestants[i].name);
    end_heat(&heat);
}

// A function of its own, by whose name instructions are counted.
__attribute__((noinline)) void counted(const struct contestant *c);
void counted(const struct contestant *c)
{
    c->run(c->state);
}

static void count(int contestant, int system)
{
    if (contestant < 0 || contestant >= CONTESTANTS || system < 1 || system > SYSTEM_COUNT)
        stop("no such contestant or system");
    struct heat heat = heat_of(&SETS[COUNTED_SET], &SYSTEMS[system - 1]);
    const struct contestant *c = &heat.contestants[contestant];
    c->run(c->state); // what is done only once is left out
    counted(c);
    printf("%zu\n", samples(heat.rows));
    end_heat(&heat);
}

// Every option but --csv and --rounds is a run of its own.
int main(int argc, char **argv)
{
    int rounds = 120;
    for (int i = 1; i < argc; i++)
        if (!strcmp(argv[i], "--list")) {
            list();
            return 0;
        } else if (!strcmp(argv[i], "--count") && i + 2 < argc) {
            count(atoi(argv[i + 1]), atoi(argv[i + 2]));
            return 0;
        } else if (!strcmp(argv[i], "--csv") && i + 1 < argc) {
            csv = fopen(argv[++i], "w");
            if (!csv)
                stop("the CSV file cannot be written");
        } else if (!strcmp(argv[i], "--rounds") && i + 1 < argc) {
            rounds = atoi(argv[++i]);
        } else {
            stop("options: --csv FILE, --rounds N, --list, --count CONTESTANT SYSTEM");
        }
    printf("zimg %s, swscale of FFmpeg %s, least of %d rounds\n", zimg_version(), swscale_release(), rounds);
    if (csv) {
        fprintf(csv, "table,width,set,system,way,name,value\n");
        fprintf(csv, "version,0,,0,,zimg,%s\n", zimg_version());
        fprintf(csv, "version,0,,0,,FFmpeg,%s\n", swscale_release());
        fprintf(csv, "version,0,,0,,rounds,%d\n", rounds);
    }
    time_all(rounds);
    compare_all(&COMPARED);
    time_single_calls(rounds);
    time_constants(rounds);
    time_all_readings(rounds);
    time_segments(rounds);
    time_depths(rounds);
    if (csv && fclose(csv))
        stop("the CSV file cannot be written");
}
