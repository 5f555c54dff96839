/* In each system a picture is sent, rows of a ramp and of random light in turn, and read back. Then a picture in
 * segmented-frame order, a row in another depth, words beyond nominal, a meter, constant luminance, a picture read in
 * turn, and some calls that are refused. `make example` builds and runs it; examples/ramp.rs is the same program in
 * Rust. */
#include <stdio.h>
#include <stdlib.h>
#include <string.h>

#include "ferghulta.h"

enum { WIDTH = 1920, HEIGHT = 32, LIGHTS = 3 * WIDTH };

/* One row at a time: its lights, its block, and the codes that are read back. */
static uint16_t lights[LIGHTS];
static uint8_t block[FERGHULTA_BLOCK_BYTES(WIDTH)];
static uint16_t codes[LIGHTS];

static void must_accept(uint32_t refusal) {
    if (refusal == FERGHULTA_ACCEPTED) return;
    fprintf(stderr, "refused %u: %s\n", (unsigned)refusal, ferghulta_refusal_text(refusal));
    exit(EXIT_FAILURE);
}

/* R rises along the row, G falls, and B rises from row to row. */
static void ramp(unsigned row) {
    for (unsigned x = 0; x < WIDTH; x++) {
        lights[3 * x] = (uint16_t)(65535 * x / (WIDTH - 1));
        lights[3 * x + 1] = (uint16_t)(65535 - lights[3 * x]);
        lights[3 * x + 2] = (uint16_t)(65535 * row / (HEIGHT - 1));
    }
}

/* Marsaglia's xorshift, so that every machine and ramp.rs have the same lights. */
static void random_light(unsigned row) {
    uint32_t state = row + 1;
    for (unsigned j = 0; j < LIGHTS; j++) {
        state ^= state << 13;
        state ^= state >> 17;
        state ^= state << 5;
        lights[j] = (uint16_t)(state >> 16);
    }
}

/* The most that a code of this row is away from the code of its light, or of an earlier row. */
static int worst_distance(uint32_t system, int worst) {
    for (unsigned j = 0; j < LIGHTS; j++) {
        int distance = abs(codes[j] - ferghulta_code_of_light(system, lights[j]).code);
        if (distance > worst) worst = distance;
    }
    return worst;
}

/* The library keeps nothing between calls: the picture is a value of ours, which the calls that end in `_of` change in
 * place where they are accepted. */
static void send_and_read(uint32_t system, const char *name, uint32_t foretold) {
    unsigned blocks = 0, low = 0, high = 0;
    int worst = 0;

    ferghulta_picture picture = ferghulta_new();
    must_accept(ferghulta_open_of(&picture, system, WIDTH, HEIGHT));
    while (picture.rows < picture.height) {
        (picture.rows % 2 == 0 ? ramp : random_light)(picture.rows);
        must_accept(ferghulta_row_of(&picture, lights, LIGHTS, block, sizeof block));

        ferghulta_block_answer read = ferghulta_read_block(block, sizeof block, codes, LIGHTS);
        must_accept(read.refusal);
        blocks++;
        low += read.clips.low;
        high += read.clips.high;
        worst = worst_distance(system, worst);
    }
    const unsigned rows = picture.rows;
    must_accept(ferghulta_close_of(&picture));

    const char *bytes = picture.bytes == foretold ? "as foretold" : "not as foretold";
    printf("%-16s %9u %11u %14d %4u %4u %15s\n", name, rows, blocks, worst, low, high, bytes);
}

/* The blocks of 1080 rows in segmented order, and back. They move whole, so the row number in a block tells which row
 * stands at a place. */
static void segmented_order(void) {
    enum { ROWS = FERGHULTA_SEGMENTED_LINES, BYTES = FERGHULTA_BLOCK_BYTES(1) };
    static uint8_t sent[ROWS][BYTES], segmented[ROWS][BYTES], back[ROWS][BYTES];
    static const unsigned places[] = {0, 1, 539, 540, 541, 1079};

    ferghulta_picture picture = ferghulta_new();
    must_accept(ferghulta_open_of(&picture, FERGHULTA_BT709_10, 1, ROWS));
    while (picture.rows < picture.height)
        must_accept(ferghulta_row_of(&picture, lights, 3, sent[picture.rows], BYTES));
    must_accept(ferghulta_to_segmented(sent[0], sizeof sent, segmented[0], sizeof segmented));
    must_accept(ferghulta_to_progressive(segmented[0], sizeof segmented, back[0], sizeof back));

    printf("\nsegmented order, place and row:");
    for (unsigned i = 0; i < sizeof places / sizeof *places; i++) {
        ferghulta_block_answer read = ferghulta_read_block(segmented[places[i]], BYTES, codes, 3);
        must_accept(read.refusal);
        printf("%s %u %u", i == 0 ? "" : ",", places[i], (unsigned)read.row);
    }
    printf("\nback in progressive order: %s\n", memcmp(sent, back, sizeof sent) == 0 ? "as sent" : "not as sent");
}

static unsigned first_word(const uint8_t *bytes) {
    return bytes[5] + 256u * bytes[6]; /* after system, row number and count */
}

/* A row of 8 bits in 10 bits, and back. */
static void other_depth(void) {
    static uint8_t wider[sizeof block], back[sizeof block];
    ferghulta_picture picture = ferghulta_new();
    must_accept(ferghulta_open_of(&picture, FERGHULTA_BT709_8, WIDTH, 1));
    ramp(0);
    must_accept(ferghulta_row_of(&picture, lights, LIGHTS, block, sizeof block));
    must_accept(ferghulta_change_depth(FERGHULTA_BT709_10, block, sizeof block, wider, sizeof wider));
    must_accept(ferghulta_change_depth(FERGHULTA_BT709_8, wider, sizeof wider, back, sizeof back));
    printf("\nfirst word in 8 bits %u, in 10 bits %u\n", first_word(block), first_word(wider));
    printf("back in 8 bits: %s\n", memcmp(block, back, sizeof block) == 0 ? "as sent" : "not as sent");
}

static void show_words(const char *lamp, const char *encoding, ferghulta_words_answer answer) {
    must_accept(answer.refusal);
    printf("%-16s %-8s %3u %3u %3u, moved %u\n", lamp, encoding, (unsigned)answer.words.y, (unsigned)answer.words.cb,
           (unsigned)answer.words.cr, (unsigned)answer.moved);
}

static void show_level(const char *word, ferghulta_level_answer answer, unsigned parts) {
    must_accept(answer.refusal);
    printf(" %s %d + %u/%u mV", word, (int)answer.level.millivolts, (unsigned)answer.level.remainder, parts);
}

/* Millivolts are rounded down: -38 + 112/224 is -37.5. */
static void show_levels(const char *lamp, ferghulta_words words) {
    printf("%-16s %-8s", lamp, "levels");
    show_level("Y'", ferghulta_level_of_code(FERGHULTA_BT709_8, words.y), 219);
    show_level("Cb", ferghulta_level_of_difference(FERGHULTA_BT709_8, words.cb), 224);
    show_level("Cr", ferghulta_level_of_difference(FERGHULTA_BT709_8, words.cr), 224);
    printf("\n");
}

/* Blue lamps beyond nominal. Before the rules the saturated one's Cb is 257 and the duller one's 248. */
static void lamps(void) {
    const ferghulta_codes saturated = {1, 1, 254}, duller = {16, 16, 250};
    show_words("saturated lamp", "plain", ferghulta_words_of_codes(FERGHULTA_BT709_8, saturated));
    show_words("saturated lamp", "trimmed", ferghulta_trimmed_words_of_codes(FERGHULTA_BT709_8, saturated));
    show_words("duller lamp", "plain", ferghulta_words_of_codes(FERGHULTA_BT709_8, duller));
    show_words("duller lamp", "trimmed", ferghulta_trimmed_words_of_codes(FERGHULTA_BT709_8, duller));
    show_levels("saturated lamp", ferghulta_words_of_codes(FERGHULTA_BT709_8, saturated).words);
}

/* Before clipping, the codes of these words are -16, 261 and -50. */
static void saturated_words(void) {
    const ferghulta_words words = {180, 1, 1};
    const ferghulta_decoded_answer answer = ferghulta_codes_of_words(FERGHULTA_BT709_8, words);
    must_accept(answer.refusal);
    printf("%-16s %-8s %3u %3u %3u, low %u high %u\n", "words 180 1 1", "codes", (unsigned)answer.codes.r,
           (unsigned)answer.codes.g, (unsigned)answer.codes.b, (unsigned)answer.clips.low, (unsigned)answer.clips.high);
}

/* Rows of one sample, 40 of the words above and then 80 greys: the meter shows the 64 latest. */
static void metered_rows(void) {
    static const uint8_t saturated[] = {1, 0, 0, 1, 0, 180, 0, 1, 0, 1, 0, 1, 0, 1, 0};
    static const uint8_t grey[] = {1, 0, 0, 1, 0, 126, 0, 1, 0, 128, 0, 1, 0, 128, 0};
    ferghulta_meter meter = ferghulta_empty_meter();
    for (unsigned row = 1; row <= 120; row++) {
        must_accept(ferghulta_read_metered_of(&meter, row <= 40 ? saturated : grey, sizeof grey, codes, 3).refusal);
        if (row % 40 != 0) continue;
        const ferghulta_figures shown = ferghulta_meter_figures(meter);
        printf("meter after %3u rows: low %u high %u in the latest %u\n", row, (unsigned)shown.low,
               (unsigned)shown.high, (unsigned)shown.rows);
    }
}

/* Y'c is made of the lamp's light, not of its codes; R' and B' come back. */
static void constant_luminance(uint32_t system, const char *name, ferghulta_lights lamp) {
    const ferghulta_constant_words_answer sent = ferghulta_constant_words_of_lights(system, lamp);
    must_accept(sent.refusal);
    const ferghulta_constant_codes_answer read = ferghulta_constant_codes_of_words(system, sent.words);
    must_accept(read.refusal);
    printf("%-16s %-8s %4u %4u %4u, read back as R' %u and B' %u, low %u high %u\n", name, "words",
           (unsigned)sent.words.y, (unsigned)sent.words.cb, (unsigned)sent.words.cr, (unsigned)read.codes.r,
           (unsigned)read.codes.b, (unsigned)read.clips.low, (unsigned)read.clips.high);
}

static void show(const char *call, uint32_t refusal) {
    printf("%-32s %2u  %s\n", call, (unsigned)refusal, ferghulta_refusal_text(refusal));
}

/* Sends one row of a ramp, of so many samples and with this number; the block goes to the front of `to`. */
static void send_row(uint32_t width, unsigned row, uint8_t *to) {
    ferghulta_picture picture = ferghulta_new();
    must_accept(ferghulta_open_of(&picture, FERGHULTA_BT709_10, width, FERGHULTA_MOST_ROWS));
    picture = ferghulta_at_row(picture, (uint16_t)row);
    ramp(row);
    must_accept(ferghulta_row_of(&picture, lights, FERGHULTA_ROW_CODES(width), to, FERGHULTA_BLOCK_BYTES(width)));
}

static void give(const char *which, ferghulta_reader *reader, const uint8_t *bytes, size_t length) {
    show(which, ferghulta_read_next_of(reader, bytes, length, codes, LIGHTS).refusal);
}

/* A picture of two rows, read in turn: a row that comes too early and one of another width change nothing, and the
 * right one goes on. */
static void rows_in_turn(void) {
    enum { ROWS = 2, NARROW = 960, BYTES = sizeof block };
    static uint8_t sent[ROWS][BYTES];
    for (unsigned row = 0; row < ROWS; row++) send_row(WIDTH, row, sent[row]);
    send_row(NARROW, 1, block);

    ferghulta_reader reader = ferghulta_new_reader();
    give("a block before opening", &reader, sent[0], BYTES);
    must_accept(ferghulta_open_reader_of(&reader, ROWS));
    give("row 1 where row 0 is due", &reader, sent[1], BYTES);
    give("row 0", &reader, sent[0], BYTES);
    give("row 0 again", &reader, sent[0], BYTES);
    give("row 1, half as wide", &reader, block, FERGHULTA_BLOCK_BYTES(NARROW));
    printf("%-32s row %u is due, of %u rows\n", "then", (unsigned)reader.next, (unsigned)reader.height);
    give("row 1", &reader, sent[1], BYTES);
    ramp(1);
    const char *phase = reader.phase == FERGHULTA_COMPLETE ? "complete" : "not complete";
    printf("%-32s the picture is %s, worst distance %d\n", "then", phase, worst_distance(FERGHULTA_BT709_10, 0));
    give("a row more", &reader, sent[1], BYTES);
}

/* A refused call changes nothing: the picture goes on as it was. */
static void refusals(void) {
    static const uint8_t bright[] = {2, 0, 0, 1, 0, 0xFA, 3, 1, 0, 0, 2, 1, 0, 0, 2}; /* Y' 1018 in 10 bits */
    uint8_t out[sizeof bright];
    const size_t length = sizeof bright;
    ferghulta_picture picture = ferghulta_new();
    show("a row before open", ferghulta_row_of(&picture, lights, LIGHTS, block, sizeof block));
    show("open with width 7681", ferghulta_open_of(&picture, FERGHULTA_BT709_8, 7681, 2));
    must_accept(ferghulta_open_of(&picture, FERGHULTA_BT709_8, WIDTH, 2));
    show("a row that is one light short", ferghulta_row_of(&picture, lights, LIGHTS - 1, block, sizeof block));
    show("a buffer that is one byte short", ferghulta_row_of(&picture, lights, LIGHTS, block, sizeof block - 1));
    must_accept(ferghulta_row_of(&picture, lights, LIGHTS, block, sizeof block));
    show("close after one row of two", ferghulta_close_of(&picture));
    show("a block without its last byte", ferghulta_read_block(block, sizeof block - 1, codes, LIGHTS).refusal);
    block[5] = 255; /* the first Y' word, after system, row number and count, becomes a timing code */
    show("a block with a timing code", ferghulta_read_block(block, sizeof block, codes, LIGHTS).refusal);
    show("1079 rows of a byte", ferghulta_to_segmented(block, 1079, block + 1079, 1079));
    show("a block brought to its own depth", ferghulta_change_depth(FERGHULTA_BT709_10, bright, length, out, length));
    show("a word of 1018 brought to 8 bits", ferghulta_change_depth(FERGHULTA_BT709_8, bright, length, out, length));
    const ferghulta_words timing = {3, 512, 512};
    show("constant luminance, Y' 3", ferghulta_constant_codes_of_words(FERGHULTA_BT2020_10_CONSTANT, timing).refusal);
}

int main(void) {
    static const char *const names[] = {"BT.709 8 bits", "BT.709 10 bits", "BT.2020 10 bits", "BT.2020 12 bits"};
    const ferghulta_total_answer total = ferghulta_total_bytes(WIDTH, HEIGHT);
    must_accept(total.refusal);
    printf("pictures of %d x %d, %u bytes each; distance in codes\n\n", WIDTH, HEIGHT, (unsigned)total.bytes);
    printf("%-16s %9s %11s", "system", "rows sent", "blocks read");
    printf(" %14s %4s %4s %15s\n", "worst distance", "low", "high", "bytes");
    for (uint32_t system = FERGHULTA_BT709_8; system <= FERGHULTA_BT2020_12; system++)
        send_and_read(system, names[system - 1], total.bytes);
    segmented_order();
    other_depth();
    printf("\nwords, levels and codes beyond nominal, BT.709 8 bits\n");
    lamps();
    saturated_words();
    metered_rows();
    const ferghulta_lights lamp = {1900, 9000, 60000};
    printf("\nconstant luminance, lights %u %u %u\n", (unsigned)lamp.r, (unsigned)lamp.g, (unsigned)lamp.b);
    constant_luminance(FERGHULTA_BT2020_10_CONSTANT, names[2], lamp);
    constant_luminance(FERGHULTA_BT2020_12_CONSTANT, names[3], lamp);
    printf("\n%-32s %s\n", "block given to a reader", "number and meaning");
    rows_in_turn();
    printf("\n%-32s %s\n", "refused call", "number and meaning");
    refusals();
    return EXIT_SUCCESS;
}
