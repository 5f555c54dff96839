/* The bench values (docs/CONVERSION.md) through the C interface, every call at least once: header, archive and compiler
 * agree. `make check-c` builds it as C and as C++ and runs both. */
#include <stdio.h>
#include <string.h>

#include "ferghulta.h"

enum { WIDEST = FERGHULTA_MOST_SAMPLES };

/* s of each system. */
static const uint16_t scales[] = {1, 4, 4, 16};

static unsigned tried, wrong;

static void expect(const char *what, unsigned long got, unsigned long wanted) {
    tried++;
    if (got == wanted) return;
    wrong++;
    printf("%s: %lu, not %lu\n", what, got, wanted);
}

static void expect_light(uint32_t system, uint16_t k, uint16_t code) {
    ferghulta_code_answer answer = ferghulta_code_of_light(system, k);
    expect("light accepted", answer.refusal, 0);
    expect("code of light", answer.code, code);
}

/* The signal's code as each component in turn, and the code's signal back to the code. */
static void expect_signal(uint32_t system, float e, uint16_t code, uint16_t black) {
    ferghulta_signals signals[3] = {{e, 0, 0}, {0, e, 0}, {0, 0, e}};
    for (int i = 0; i < 3; i++) {
        ferghulta_codes c = ferghulta_codes_of_signals(system, signals[i]).codes;
        expect("R' of signals", c.r, i == 0 ? code : black);
        expect("G' of signals", c.g, i == 1 ? code : black);
        expect("B' of signals", c.b, i == 2 ? code : black);
        ferghulta_signals_answer back = ferghulta_signals_of_codes(system, c);
        expect("codes accepted", back.refusal, 0);
        ferghulta_codes again = ferghulta_codes_of_signals(system, back.signals).codes;
        expect("codes again", memcmp(&again, &c, sizeof c) == 0, 1);
    }
}

static void expect_encoded(ferghulta_words_answer answer, ferghulta_words wanted, uint32_t moved) {
    expect("codes accepted", answer.refusal, 0);
    expect("moved", answer.moved, moved);
    expect("Y'", answer.words.y, wanted.y);
    expect("Cb", answer.words.cb, wanted.cb);
    expect("Cr", answer.words.cr, wanted.cr);
}

/* Words that no rule moves, in both encodings. */
static void expect_words(uint32_t system, ferghulta_codes codes, ferghulta_words wanted) {
    expect_encoded(ferghulta_words_of_codes(system, codes), wanted, 0);
    expect_encoded(ferghulta_trimmed_words_of_codes(system, codes), wanted, 0);
}

static void expect_clips(ferghulta_clips clips, uint16_t low, uint16_t high) {
    expect("clipped low", clips.low, low);
    expect("clipped high", clips.high, high);
}

static void expect_codes(uint32_t system, ferghulta_words words, ferghulta_codes wanted, uint16_t low, uint16_t high) {
    ferghulta_decoded_answer answer = ferghulta_codes_of_words(system, words);
    expect("words accepted", answer.refusal, 0);
    expect_clips(answer.clips, low, high);
    expect("R'", answer.codes.r, wanted.r);
    expect("G'", answer.codes.g, wanted.g);
    expect("B'", answer.codes.b, wanted.b);
}

static void expect_total(uint32_t width, uint32_t height, uint32_t bytes, uint32_t refusal) {
    ferghulta_total_answer answer = ferghulta_total_bytes(width, height);
    expect("total refused", answer.refusal, refusal);
    expect("total", answer.bytes, bytes);
}

static void expect_level(ferghulta_level_answer answer, int32_t millivolts, uint32_t remainder) {
    expect("level accepted", answer.refusal, 0);
    expect("millivolts", answer.level.millivolts == millivolts, 1);
    expect("remainder", answer.level.remainder, remainder);
}

static void lights(void) {
    for (uint32_t system = 1; system <= 4; system++) {
        expect_light(system, 0, (uint16_t)(16 * scales[system - 1]));
        expect_light(system, 65535, (uint16_t)(235 * scales[system - 1]));
    }
    expect_light(1, 33, 16);
    expect_light(1, 34, 17);
    expect_light(1, 32768, 171);
    expect_light(2, 32768, 682);
    expect_light(4, 1186, 541);
    expect_light(4, 1187, 542);
    ferghulta_span_answer answer = ferghulta_span_of_code(1, 17);
    expect("code accepted", answer.refusal, 0);
    expect("least light", answer.span.least, 34);
    expect("greatest light", answer.span.greatest, 99);
}

static void triples(void) {
    ferghulta_codes red = {235, 16, 16}, green = {16, 235, 16}, blue = {16, 16, 235}, red10 = {940, 64, 64};
    ferghulta_codes red_back = {235, 17, 16}, blue_back = {17, 16, 235};
    ferghulta_codes clipped_codes = {188, 1, 219}, dark_codes = {15, 15, 15};
    ferghulta_words red_words = {63, 102, 240}, green_words = {173, 42, 26}, blue_words = {32, 240, 118};
    ferghulta_words red10_words = {294, 387, 960}, clipped_words = {16, 240, 240}, dark_words = {15, 128, 128};
    expect_signal(1, 0.5f, 126, 16);
    expect_signal(2, 0.375f, 393, 64);
    expect_words(1, red, red_words);
    expect_words(1, green, green_words);
    expect_words(1, blue, blue_words);
    expect_words(3, red10, red10_words);
    expect_codes(1, red_words, red_back, 0, 0);
    expect_codes(1, blue_words, blue_back, 0, 0);
    expect_codes(1, clipped_words, clipped_codes, 1, 0);
    expect_codes(1, dark_words, dark_codes, 0, 0);
}

/* Before clipping, the greens are -16 261 -50 and, of 12 bits, -50 4342 -858, and the magenta is 269 -6 304. Then R on
 * the lower end and one below it, on the upper end and one above it. */
static void clips(void) {
    ferghulta_words green = {180, 1, 1}, magenta = {75, 254, 254}, green12 = {2880, 16, 16}, timing = {0, 128, 128};
    ferghulta_words on_low = {3, 128, 127}, below = {2, 128, 127}, on_high = {252, 128, 129}, above = {253, 128, 129};
    ferghulta_codes green_codes = {1, 254, 1}, magenta_codes = {254, 1, 254}, green12_codes = {16, 4079, 16};
    ferghulta_codes on_low_codes = {1, 3, 3}, below_codes = {1, 2, 2};
    ferghulta_codes on_high_codes = {254, 252, 252}, above_codes = {254, 253, 253};
    expect_codes(1, green, green_codes, 2, 1);
    expect_codes(1, magenta, magenta_codes, 1, 2);
    expect_codes(4, green12, green12_codes, 2, 1);
    expect_codes(1, on_low, on_low_codes, 0, 0);
    expect_codes(1, below, below_codes, 1, 0);
    expect_codes(1, on_high, on_high_codes, 0, 0);
    expect_codes(1, above, above_codes, 0, 1);
    ferghulta_decoded_answer refused = ferghulta_codes_of_words(1, timing);
    expect("timing words", refused.refusal, FERGHULTA_REFUSED_CODE);
    expect_clips(refused.clips, 0, 0);
}

/* Words before the rules are 19 257 116 for the lamp, 236 -1 140 for its yellow and 33 248 117 for a duller lamp. */
static void rules(void) {
    ferghulta_codes lamp = {1, 1, 254}, yellow = {254, 254, 1}, duller = {16, 16, 250}, timing = {16, 255, 16};
    ferghulta_words lamp_words = {19, 254, 116}, yellow_words = {236, 1, 140}, duller_words = {33, 248, 117};
    ferghulta_words lamp_trimmed = {19, 240, 116}, yellow_trimmed = {235, 16, 140}, duller_trimmed = {33, 240, 117};
    expect_encoded(ferghulta_words_of_codes(1, lamp), lamp_words, 1);
    expect_encoded(ferghulta_words_of_codes(1, yellow), yellow_words, 1);
    expect_encoded(ferghulta_words_of_codes(1, duller), duller_words, 0);
    expect_encoded(ferghulta_trimmed_words_of_codes(1, lamp), lamp_trimmed, 1);
    expect_encoded(ferghulta_trimmed_words_of_codes(1, yellow), yellow_trimmed, 2);
    expect_encoded(ferghulta_trimmed_words_of_codes(1, duller), duller_trimmed, 1);
    expect("timing codes", ferghulta_words_of_codes(1, timing).refusal, FERGHULTA_REFUSED_CODE);
    expect("timing codes, trim", ferghulta_trimmed_words_of_codes(1, timing).refusal, FERGHULTA_REFUSED_CODE);
}

/* Light span and code to float take nominal codes alone. */
static void nominal_calls(void) {
    ferghulta_codes below = {15, 16, 16}, above = {16, 16, 236};
    expect("span of 15", ferghulta_span_of_code(1, 15).refusal, FERGHULTA_REFUSED_CODE);
    expect("span of 236", ferghulta_span_of_code(1, 236).refusal, FERGHULTA_REFUSED_CODE);
    expect("signal of 15", ferghulta_signals_of_codes(1, below).refusal, FERGHULTA_REFUSED_CODE);
    expect("signal of 236", ferghulta_signals_of_codes(1, above).refusal, FERGHULTA_REFUSED_CODE);
}

/* Black, white, and the ends and the middle of nominal Cb and Cr in each system; 700 * (1 - 16) is -48 * 219 + 12. */
static void levels(void) {
    for (uint32_t system = 1; system <= 4; system++) {
        const uint16_t s = scales[system - 1];
        expect_level(ferghulta_level_of_code(system, (uint16_t)(16 * s)), 0, 0);
        expect_level(ferghulta_level_of_code(system, (uint16_t)(235 * s)), 700, 0);
        expect_level(ferghulta_level_of_difference(system, (uint16_t)(16 * s)), -350, 0);
        expect_level(ferghulta_level_of_difference(system, (uint16_t)(128 * s)), 0, 0);
        expect_level(ferghulta_level_of_difference(system, (uint16_t)(240 * s)), 350, 0);
    }
    expect_level(ferghulta_level_of_code(1, 1), -48, 12);
    expect("level of a timing code", ferghulta_level_of_code(1, 0).refusal, FERGHULTA_REFUSED_CODE);
    expect("level of a timing word", ferghulta_level_of_difference(1, 255).refusal, FERGHULTA_REFUSED_CODE);
    expect("level in no system", ferghulta_level_of_difference(0, 0).refusal, FERGHULTA_REFUSED_SYSTEM);
}

/* Width 0 is refused before height 0. */
static void totals(void) {
    expect_total(1, 1, 15, 0);
    expect_total(1920, 1080, 12451320, 0);
    expect_total(WIDEST, FERGHULTA_MOST_ROWS, 199104480, 0);
    expect_total(0, 0, 0, FERGHULTA_REFUSED_WIDTH);
    expect_total(7681, 1, 0, FERGHULTA_REFUSED_WIDTH);
    expect_total(1, 0, 0, FERGHULTA_REFUSED_HEIGHT);
    expect_total(WIDEST, 4321, 0, FERGHULTA_REFUSED_HEIGHT);
}

static void widths(void) {
    static uint16_t lights[FERGHULTA_ROW_CODES(WIDEST)];
    static uint8_t block[FERGHULTA_BLOCK_BYTES(WIDEST)];
    ferghulta_picture picture = ferghulta_new();
    expect("width 0", ferghulta_open(picture, 1, 0, 1).refusal, FERGHULTA_REFUSED_WIDTH);
    expect("width 7681", ferghulta_open(picture, 1, 7681, 1).refusal, FERGHULTA_REFUSED_WIDTH);
    picture = ferghulta_open(picture, 1, WIDEST, 1).picture;
    expect("46088 bytes", ferghulta_row(picture, lights, 3 * WIDEST, block, 46088).refusal, FERGHULTA_REFUSED_OUTPUT);
    ferghulta_picture_answer answer = ferghulta_row(picture, lights, 3 * WIDEST, block, 46089);
    expect("46089 bytes", answer.refusal, 0);
    expect("rows accepted", answer.picture.rows, 1);
    expect("close", ferghulta_close(answer.picture).picture.phase, FERGHULTA_CLOSED);
}

/* Of two pictures, one after the other, with refused calls between. */
static void bytes_of_pictures(void) {
    static const uint16_t lights[6] = {0};
    uint8_t block[FERGHULTA_BLOCK_BYTES(2)];
    ferghulta_picture picture = ferghulta_new();
    expect("bytes of a fresh picture", picture.bytes, 0);
    expect("open", ferghulta_open_of(&picture, 1, 2, 2), 0);
    expect("row", ferghulta_row_of(&picture, lights, 6, block, 21), 0);
    expect("bytes of a row", picture.bytes, 21);
    expect("row without room", ferghulta_row_of(&picture, lights, 6, block, 20), FERGHULTA_REFUSED_OUTPUT);
    expect("bytes of a refused row", picture.bytes, 21);
    expect("last row", ferghulta_row_of(&picture, lights, 6, block, 21), 0);
    expect("close", ferghulta_close_of(&picture), 0);
    expect("bytes of a closed picture", picture.bytes, ferghulta_total_bytes(2, 2).bytes);
    expect("open with width 0", ferghulta_open_of(&picture, 1, 0, 1), FERGHULTA_REFUSED_WIDTH);
    expect("bytes after a refused open", picture.bytes, 42);
    expect("open again", ferghulta_open_of(&picture, 4, 1, 1), 0);
    expect("bytes after open", picture.bytes, 0);
}

/* The one-sample block of docs/CONVERSION.md. */
static void listing(void) {
    static const uint8_t bytes[] = {1, 0, 0, 1, 0, 0xEB, 0, 1, 0, 0x80, 0, 1, 0, 0x80, 0};
    uint16_t codes[4] = {0, 0, 0, 9};
    ferghulta_block_answer answer = ferghulta_read_block(bytes, sizeof bytes, codes, 4);
    expect("block accepted", answer.refusal, 0);
    expect("block's system", answer.system, 1);
    expect("block's row", answer.row, 0);
    expect("block's samples", answer.samples, 1);
    expect_clips(answer.clips, 0, 0);
    for (int j = 0; j < 4; j++) expect("code read", codes[j], j < 3 ? 235 : 9);
}

static uint8_t *put(uint8_t *at, unsigned word) {
    *at++ = (uint8_t)(word % 256);
    *at++ = (uint8_t)(word / 256);
    return at;
}

/* A block of row 0, whose samples are these words again and again. */
static void fill_block_of(uint8_t system, uint8_t *block, unsigned samples, const ferghulta_words *words,
                          unsigned count) {
    *block = system;
    uint8_t *at = put(block + 1, 0);
    for (int section = 0; section < 3; section++) {
        at = put(at, samples);
        for (unsigned j = 0; j < samples; j++) {
            const ferghulta_words w = words[j % count];
            at = put(at, section == 0 ? w.y : section == 1 ? w.cb : w.cr);
        }
    }
}

static void fill_block(uint8_t *block, unsigned samples, const ferghulta_words *words, unsigned count) {
    fill_block_of(FERGHULTA_BT709_8, block, samples, words, count);
}

/* Three samples, with two low and one high, one low and two high, and as the first; then the first in the widest row,
 * without room for the last code and with it. */
static void clips_of_rows(void) {
    static const ferghulta_words words[] = {{180, 1, 1}, {75, 254, 254}};
    static uint8_t block[FERGHULTA_BLOCK_BYTES(WIDEST)];
    static uint16_t codes[FERGHULTA_ROW_CODES(WIDEST)];
    const size_t length = sizeof block, places = FERGHULTA_ROW_CODES(WIDEST);
    fill_block(block, 3, words, 2);
    expect_clips(ferghulta_read_block(block, FERGHULTA_BLOCK_BYTES(3), codes, 9).clips, 5, 4);
    fill_block(block, WIDEST, words, 1);
    ferghulta_block_answer refused = ferghulta_read_block(block, length, codes, places - 1);
    expect("a code too many", refused.refusal, FERGHULTA_REFUSED_OUTPUT);
    expect_clips(refused.clips, 0, 0);
    expect_clips(ferghulta_read_block(block, length, codes, places).clips, 15360, 7680);
    expect("last sample's B", codes[places - 1], 1);
}

static void expect_figures(ferghulta_meter meter, uint32_t rows, uint32_t low, uint32_t high) {
    const ferghulta_figures shown = ferghulta_meter_figures(meter);
    expect("metered rows", shown.rows, rows);
    expect("metered low", shown.low, low);
    expect("metered high", shown.high, high);
}

static int is_same_meter(ferghulta_meter one, ferghulta_meter other) {
    return memcmp(&one, &other, sizeof one) == 0;
}

/* Blocks of one sample, with two low and one high, with one low and two high, and with none. */
enum { GREEN, MAGENTA, GREY };
static uint8_t one_sample[3][FERGHULTA_BLOCK_BYTES(1)];

static void fill_one_sample(void) {
    static const ferghulta_words words[] = {{180, 1, 1}, {75, 254, 254}, {126, 128, 128}};
    for (int i = 0; i < 3; i++) fill_block(one_sample[i], 1, &words[i], 1);
}

/* So many reads of a block, each accepted. */
static ferghulta_meter read_rows(ferghulta_meter meter, int block, int times) {
    uint16_t codes[3];
    for (int i = 0; i < times; i++)
        expect("read in place", ferghulta_read_metered_of(&meter, one_sample[block], 15, codes, 3).refusal, 0);
    return meter;
}

/* A magenta row and 63 green ones; the 65th row lets the magenta one go, the next ones a green one each. */
static void meters(void) {
    uint16_t codes[4] = {0, 0, 0, 9};
    fill_one_sample();
    ferghulta_meter meter = ferghulta_empty_meter();
    expect_figures(meter, 0, 0, 0);
    ferghulta_metered_answer first = ferghulta_read_metered(meter, one_sample[MAGENTA], 15, codes, 4);
    expect("metered block", first.block.refusal, 0);
    expect("metered block's system", first.block.system, 1);
    expect("metered block's samples", first.block.samples, 1);
    expect_clips(first.block.clips, 1, 2);
    for (int j = 0; j < 4; j++) expect("metered code", codes[j], j == 3 ? 9 : j == 1 ? 1 : 254);
    expect_figures(first.meter, 1, 1, 2);
    meter = read_rows(first.meter, GREEN, 62);
    expect_figures(meter, 63, 125, 64);
    expect("place of 63 rows", meter.place, 63);
    meter = read_rows(meter, GREEN, 1);
    expect_figures(meter, 64, 127, 65);
    expect("place of 64 rows", meter.place, 0);
    meter = read_rows(meter, GREY, 1);
    expect_figures(meter, 64, 126, 63);
    expect("place of 65 rows", meter.place, 1);
    meter = read_rows(meter, MAGENTA, 1);
    expect_figures(meter, 64, 125, 64);
    meter = read_rows(meter, GREY, 62);
    expect_figures(meter, 64, 1, 2);
    meter = read_rows(meter, GREY, 1);
    expect_figures(meter, 64, 1, 2);
    meter = read_rows(meter, GREY, 1);
    expect_figures(meter, 64, 0, 0);
}

/* A code too many, and a meter whose parts do not agree. */
static void refused_and_other_meters(void) {
    uint16_t codes[3] = {7, 8, 9};
    const ferghulta_meter meter = read_rows(ferghulta_empty_meter(), GREEN, 3);
    ferghulta_metered_answer refused = ferghulta_read_metered(meter, one_sample[GREEN], 15, codes, 2);
    expect("a metered code too many", refused.block.refusal, FERGHULTA_REFUSED_OUTPUT);
    expect_clips(refused.block.clips, 0, 0);
    expect("meter of a refused read", is_same_meter(refused.meter, meter), 1);
    for (int j = 0; j < 3; j++) expect("code of a refused read", codes[j], 7 + j);

    ferghulta_meter behind = meter; /* counts of no row */
    behind.lows[3] = behind.highs[63] = 65535;
    expect_figures(behind, 3, 6, 3);
    expect_figures(read_rows(behind, MAGENTA, 1), 4, 7, 5);

    ferghulta_meter others[5] = {meter, meter, meter, meter, meter};
    others[0].place = 64;
    others[1].rows = 65;
    others[2].rows = 2;
    others[3].low++;
    others[4].highs[2]--;
    for (int i = 0; i < 5; i++) {
        expect_figures(others[i], 0, 0, 0);
        refused = ferghulta_read_metered(others[i], one_sample[GREEN], 14, codes, 3);
        expect("a metered block without its end", refused.block.refusal, FERGHULTA_REFUSED_BLOCK_END);
        expect("another meter of a refused read", is_same_meter(refused.meter, others[i]), 1);
        ferghulta_meter begun = others[i];
        begun.lows[0] = 1;
        begun.highs[0] = 2;
        begun.low = begun.place = begun.rows = 1;
        begun.high = 2;
        expect("a meter begun", is_same_meter(read_rows(others[i], MAGENTA, 1), begun), 1);
    }
}

/* The most that 64 rows can have: two low and one high in each sample. */
static void widest_metered_rows(void) {
    static const ferghulta_words green = {180, 1, 1};
    static uint8_t block[FERGHULTA_BLOCK_BYTES(WIDEST)];
    static uint16_t codes[FERGHULTA_ROW_CODES(WIDEST)];
    ferghulta_meter meter = ferghulta_empty_meter();
    fill_block(block, WIDEST, &green, 1);
    for (int row = 0; row < FERGHULTA_METER_ROWS; row++)
        expect("widest row", ferghulta_read_metered_of(&meter, block, sizeof block, codes, 3 * WIDEST).refusal, 0);
    expect_figures(meter, 64, 983040, 491520);
    expect_figures(read_rows(meter, GREY, 1), 64, 967680, 483840);
}

/* Rows that are sent last first, each with a copy of the picture at its number, are those that are sent in turn. */
static void rows_in_any_order(void) {
    enum { ROWS = 3 };
    static const uint16_t lights[ROWS][3] = {{0, 32768, 65535}, {65535, 0, 0}, {33, 34, 11796}};
    uint8_t in_turn[ROWS][FERGHULTA_BLOCK_BYTES(1)], by_copies[ROWS][FERGHULTA_BLOCK_BYTES(1)];
    ferghulta_picture picture = ferghulta_new();
    expect("open in place", ferghulta_open_of(&picture, 2, 1, ROWS), 0);
    const ferghulta_picture opened = picture;
    for (int i = 0; i < ROWS; i++)
        expect("row in place", ferghulta_row_of(&picture, lights[i], 3, in_turn[i], sizeof in_turn[i]), 0);
    for (int i = ROWS; i-- > 0;) {
        const ferghulta_picture copy = ferghulta_at_row(opened, (uint16_t)i);
        expect("row of a copy", ferghulta_row(copy, lights[i], 3, by_copies[i], sizeof by_copies[i]).refusal, 0);
    }
    expect("the same blocks", memcmp(in_turn, by_copies, sizeof in_turn) == 0, 1);
    ferghulta_picture joined = opened;
    expect("close before the rows", ferghulta_close_of(&joined), FERGHULTA_REFUSED_ROWS_MISSING);
    joined.rows = ROWS;
    expect("close with rows alone", ferghulta_close_of(&joined), FERGHULTA_REFUSED_NOT_OPEN);
    joined = ferghulta_at_row(joined, ROWS);
    expect("close after the rows", ferghulta_close_of(&joined), 0);
    expect("closed in place", joined.phase, FERGHULTA_CLOSED);
    expect("bytes of copies", joined.bytes, picture.bytes);
}

static int is_reader(ferghulta_reader reader, uint8_t phase, uint8_t system, uint16_t width, uint16_t height,
                     uint16_t next) {
    return reader.phase == phase && reader.system == system && reader.width == width && reader.height == height &&
           reader.next == next;
}

static int is_same_reader(ferghulta_reader one, ferghulta_reader other) {
    return memcmp(&one, &other, sizeof one) == 0;
}

/* A block of greys with this row number. */
static uint8_t *grey_row(uint8_t system, unsigned samples, unsigned row) {
    static uint8_t block[FERGHULTA_BLOCK_BYTES(8)];
    const uint16_t grey = (uint16_t)(128 * scales[system - 1]);
    const ferghulta_words words = {grey, grey, grey};
    fill_block_of(system, block, samples, &words, 1);
    put(block + 1, row);
    return block;
}

/* A read that is accepted gives what block reading gives, and the codes behind the row stay. */
static void expect_next(ferghulta_reader *reader, uint8_t system, unsigned samples, unsigned row) {
    uint16_t codes[25] = {0};
    codes[3 * samples] = 9;
    const ferghulta_block_answer answer =
        ferghulta_read_next_of(reader, grey_row(system, samples, row), FERGHULTA_BLOCK_BYTES(samples), codes, 25);
    expect("row in turn", answer.refusal, 0);
    expect("its system", answer.system, system);
    expect("its number", answer.row, row);
    expect("its samples", answer.samples, samples);
    expect_clips(answer.clips, 0, 0);
    for (unsigned j = 0; j <= 3 * samples; j++)
        expect("its code", codes[j], j < 3 * samples ? 128ul * scales[system - 1] : 9);
}

/* One that is refused changes neither the reader nor a code, and its other numbers are 0. */
static void expect_no_next(ferghulta_reader reader, const uint8_t *block, size_t length, size_t places,
                           uint32_t refusal) {
    uint16_t codes[24] = {7, 8, 9};
    static const uint16_t lent[24] = {7, 8, 9};
    const ferghulta_next_answer answer = ferghulta_read_next(reader, block, length, codes, places);
    expect("row refused", answer.block.refusal, refusal);
    expect("a refused row's numbers", answer.block.system + answer.block.row + answer.block.samples, 0);
    expect_clips(answer.block.clips, 0, 0);
    expect("reader of a refused row", is_same_reader(answer.reader, reader), 1);
    expect("codes of a refused row", memcmp(codes, lent, sizeof codes) == 0, 1);
}

/* A picture of three rows with refused ones between, then one of another system and width with the same reader. */
static void readers(void) {
    ferghulta_reader reader = ferghulta_new_reader();
    expect("a new reader", is_reader(reader, FERGHULTA_UNOPENED, 0, 0, 0, 0), 1);
    expect_no_next(reader, grey_row(1, 2, 0), 21, 6, FERGHULTA_REFUSED_NOT_READING);
    expect("open a reader", ferghulta_open_reader_of(&reader, 3), 0);
    expect("an opened reader", is_reader(reader, FERGHULTA_READING, 0, 0, 3, 0), 1);
    expect_no_next(reader, grey_row(1, 2, 1), 21, 6, FERGHULTA_REFUSED_TURN);
    expect_next(&reader, 1, 2, 0);
    expect("a reader with a row", is_reader(reader, FERGHULTA_READING, 1, 2, 3, 1), 1);
    expect_no_next(reader, grey_row(1, 2, 0), 21, 6, FERGHULTA_REFUSED_TURN);
    expect_no_next(reader, grey_row(1, 2, 2), 21, 6, FERGHULTA_REFUSED_TURN);
    expect_no_next(reader, grey_row(2, 2, 1), 21, 6, FERGHULTA_REFUSED_UNLIKE);
    expect_no_next(reader, grey_row(1, 3, 1), 27, 9, FERGHULTA_REFUSED_UNLIKE);
    expect_next(&reader, 1, 2, 1);
    expect_next(&reader, 1, 2, 2);
    expect("a complete reader", is_reader(reader, FERGHULTA_COMPLETE, 0, 0, 0, 0), 1);
    expect_no_next(reader, grey_row(1, 2, 3), 21, 6, FERGHULTA_REFUSED_NOT_READING);
    expect_no_next(reader, grey_row(1, 2, 0), 21, 6, FERGHULTA_REFUSED_NOT_READING);
    expect("open it again", ferghulta_open_reader_of(&reader, 2), 0);
    expect_next(&reader, 4, 8, 0);
    expect("a reader of another picture", is_reader(reader, FERGHULTA_READING, 4, 8, 2, 1), 1);
    expect("open it while it reads", ferghulta_open_reader_of(&reader, 1), 0);
    expect("a reader that starts anew", is_reader(reader, FERGHULTA_READING, 0, 0, 1, 0), 1);
    expect_next(&reader, 3, 1, 0);
    expect("complete after one row", reader.phase, FERGHULTA_COMPLETE);
}

/* Each with the condition of the next one. */
static void refused_rows(void) {
    ferghulta_reader reader = ferghulta_open_reader(ferghulta_new_reader(), FERGHULTA_MOST_ROWS).reader;
    expect_next(&reader, 2, 2, 0);
    uint8_t *block = grey_row(4, 1, 7);
    block[5] = block[6] = 0xFF;
    expect_no_next(ferghulta_new_reader(), block, 0, 0, FERGHULTA_REFUSED_NOT_READING);
    expect_no_next(reader, block, 0, 0, FERGHULTA_REFUSED_BLOCK_END);
    expect_no_next(reader, block, 15, 0, FERGHULTA_REFUSED_CODE);
    block = grey_row(4, 1, 7);
    expect_no_next(reader, block, 15, 2, FERGHULTA_REFUSED_OUTPUT);
    expect_no_next(reader, block, 15, 3, FERGHULTA_REFUSED_TURN);
    expect_no_next(reader, grey_row(4, 1, 1), 15, 3, FERGHULTA_REFUSED_UNLIKE);
    expect_no_next(reader, grey_row(2, 2, 4320), 21, 6, FERGHULTA_REFUSED_ROW_NUMBER);
    expect_next(&reader, 2, 2, 1);
}

/* Readers in each phase, of which the first two are reading, and readers that no call gives: they are not opened. A
 * refused opening changes none, and another opens them all. */
static void refused_and_other_readers(void) {
    static const ferghulta_reader given[] = {
        {1, 0, 0, 9, 0},  {1, 2, 7, 9, 8},    {0, 0, 0, 0, 0},    {2, 0, 0, 0, 0},   {3, 2, 1, 9, 1},
        {1, 2, 1, 0, 0},  {1, 2, 1, 9, 0},    {1, 0, 0, 9, 1},    {1, 2, 0, 9, 1},   {1, 0, 1, 9, 1},
        {1, 5, 1, 9, 1},  {1, 2, 7681, 9, 1}, {1, 2, 1, 4321, 1}, {1, 2, 1, 1, 1},   {1, 2, 1, 9, 9},
        {1, 2, 1, 9, 10}, {2, 2, 1, 9, 1},    {0, 2, 1, 9, 1},    {255, 2, 1, 9, 1}, {1, 0, 0, 0, 0},
    };
    static const uint32_t heights[] = {0, 4321, 65537, 0xFFFFFFFFu};
    for (size_t i = 0; i < sizeof given / sizeof *given; i++) {
        for (int h = 0; h < 4; h++) {
            const ferghulta_reader_answer refused = ferghulta_open_reader(given[i], heights[h]);
            expect("height of a reader", refused.refusal, FERGHULTA_REFUSED_HEIGHT);
            expect("reader of a refused opening", is_same_reader(refused.reader, given[i]), 1);
        }
        const ferghulta_reader_answer opened = ferghulta_open_reader(given[i], 4320);
        expect("reader opened", opened.refusal, 0);
        expect("whatever it was", is_reader(opened.reader, FERGHULTA_READING, 0, 0, 4320, 0), 1);
        const uint32_t refusal = i < 2 ? FERGHULTA_REFUSED_TURN : FERGHULTA_REFUSED_NOT_READING;
        expect_no_next(given[i], grey_row(2, 1, given[i].next + 1u), 15, 3, refusal);
    }
}

/* The highest picture there is. */
static void highest_reading(void) {
    ferghulta_reader reader = ferghulta_open_reader(ferghulta_new_reader(), FERGHULTA_MOST_ROWS).reader;
    for (unsigned row = 0; row < FERGHULTA_MOST_ROWS; row++) {
        expect("reading", reader.phase == FERGHULTA_READING && reader.next == row, 1);
        expect_next(&reader, 3, 1, row);
    }
    expect("complete after 4320 rows", is_reader(reader, FERGHULTA_COMPLETE, 0, 0, 0, 0), 1);
}

/* Rows of 3 bytes, of which each has its active line: by total line, and back. */
static void segments(void) {
    enum { LINES = FERGHULTA_SEGMENTED_LINES };
    static uint8_t progressive[LINES][3], segmented[LINES][3], back[LINES][3];
    for (int line = 1; line <= LINES; line++) {
        progressive[line - 1][0] = (uint8_t)(line % 256);
        progressive[line - 1][1] = (uint8_t)(line / 256);
    }
    const size_t length = sizeof progressive;
    expect("to segmented", ferghulta_to_segmented(progressive[0], length, segmented[0], length), 0);
    unsigned in_place = 0;
    for (int place = 0; place < LINES; place++) {
        const int total = place < LINES / 2 ? 21 + place : 584 + place - LINES / 2;
        const int line = segmented[place][0] + 256 * segmented[place][1];
        in_place += (line % 2 ? 21 + (line - 1) / 2 : 584 + (line - 2) / 2) == total;
    }
    expect("rows by total line", in_place, LINES);
    expect("to progressive", ferghulta_to_progressive(segmented[0], length, back[0], length), 0);
    expect("the same rows", memcmp(progressive, back, length) == 0, 1);
    expect("a byte too few", ferghulta_to_segmented(progressive[0], length, segmented[0], length - 1), 31);
    expect("no rows", ferghulta_to_progressive(segmented[0], 0, back[0], 0), 31);
    expect("1079 rows", ferghulta_to_progressive(segmented[0], 1079, back[0], 1079), 31);
}

/* A sample of one system in the other depth of its Recommendation; the byte behind the block stays. */
static void expect_depth(uint8_t system, ferghulta_words words, uint8_t target, ferghulta_words wanted) {
    enum { BYTES = FERGHULTA_BLOCK_BYTES(1) };
    uint8_t block[BYTES], wanted_block[BYTES + 1], out[BYTES + 1] = {0};
    fill_block_of(system, block, 1, &words, 1);
    fill_block_of(target, wanted_block, 1, &wanted, 1);
    wanted_block[BYTES] = out[BYTES] = 9;
    expect("depth changed", ferghulta_change_depth(target, block, BYTES, out, BYTES + 1), 0);
    expect("block of the other depth", memcmp(out, wanted_block, BYTES + 1) == 0, 1);
}

/* The same, refused: the buffer, which is as long as the block, stays. */
static void expect_no_depth(uint8_t system, ferghulta_words words, uint32_t target, uint32_t refusal) {
    uint8_t block[FERGHULTA_BLOCK_BYTES(1)], out[FERGHULTA_BLOCK_BYTES(1)] = {0};
    static const uint8_t blank[sizeof out] = {0};
    fill_block_of(system, block, 1, &words, 1);
    expect("depth refused", ferghulta_change_depth(target, block, sizeof block, out, sizeof out), refusal);
    expect("buffer of a refused change", memcmp(out, blank, sizeof out) == 0, 1);
}

/* The ends of video data, halves, and the words from which on a result would be a timing code, in each section. */
static void depths(void) {
    const ferghulta_words eight = {1, 128, 254}, ten = {4, 512, 1016}, twelve = {16, 2048, 4064};
    expect_depth(1, eight, 2, ten);
    expect_depth(2, ten, 1, eight);
    expect_depth(3, ten, 4, twelve);
    expect_depth(4, twelve, 3, ten);
    const ferghulta_words last_ten = {1017, 513, 514}, last_eight = {254, 128, 129};
    const ferghulta_words last_twelve = {4077, 2049, 2050}, last_of_twelve = {1019, 512, 513};
    expect_depth(2, last_ten, 1, last_eight);
    expect_depth(4, last_twelve, 3, last_of_twelve);
    const ferghulta_words timing_of_ten[3] = {{1018, 512, 512}, {512, 1018, 512}, {512, 512, 1019}};
    const ferghulta_words timing_of_twelve[3] = {{4078, 2048, 2048}, {2048, 4078, 2048}, {2048, 2048, 4079}};
    for (int section = 0; section < 3; section++) {
        expect_no_depth(2, timing_of_ten[section], 1, FERGHULTA_REFUSED_TIMING);
        expect_no_depth(4, timing_of_twelve[section], 3, FERGHULTA_REFUSED_TIMING);
    }
    for (uint8_t system = 1; system <= 4; system++)
        for (uint8_t target = 1; target <= 4; target++)
            if (system == target || (system <= 2) != (target <= 2)) {
                const uint16_t grey = (uint16_t)(128 * scales[system - 1]);
                const ferghulta_words words = {grey, grey, grey};
                expect_no_depth(system, words, target, FERGHULTA_REFUSED_TARGET);
            }
}

/* Each with the condition of the next one. */
static void refused_depths(void) {
    const ferghulta_words beyond = {1020, 512, 512}, timing = {1019, 512, 512};
    uint8_t block[FERGHULTA_BLOCK_BYTES(1)] = {0}, out[FERGHULTA_BLOCK_BYTES(1)];
    expect("no target", ferghulta_change_depth(5, block, 0, out, 0), FERGHULTA_REFUSED_SYSTEM);
    expect("no bytes", ferghulta_change_depth(1, block, 0, out, 0), FERGHULTA_REFUSED_BLOCK_END);
    expect("no system", ferghulta_change_depth(1, block, 15, out, 0), FERGHULTA_REFUSED_SYSTEM);
    fill_block_of(2, block, 1, &beyond, 1);
    expect("a timing code", ferghulta_change_depth(2, block, 15, out, 0), FERGHULTA_REFUSED_CODE);
    fill_block_of(2, block, 1, &timing, 1);
    expect("the other Recommendation", ferghulta_change_depth(3, block, 15, out, 0), FERGHULTA_REFUSED_TARGET);
    expect("a timing code made", ferghulta_change_depth(1, block, 15, out, 0), FERGHULTA_REFUSED_TIMING);
    block[5] = 0;
    expect("a byte short", ferghulta_change_depth(1, block, 15, out, 14), FERGHULTA_REFUSED_OUTPUT);
    expect("room enough", ferghulta_change_depth(1, block, 15, out, 15), 0);
}

/* Every word of video data of a system, up and down. */
static void up_and_down(uint8_t system, uint8_t target) {
    static uint8_t block[FERGHULTA_BLOCK_BYTES(WIDEST)], up[sizeof block], down[sizeof block];
    static ferghulta_words words[254 * 4];
    const unsigned s = scales[system - 1], count = 254 * s;
    for (unsigned j = 0; j < count; j++) {
        const uint16_t word = (uint16_t)(s + j);
        words[j].y = words[j].cb = words[j].cr = word;
    }
    fill_block_of(system, block, WIDEST, words, count);
    expect("up", ferghulta_change_depth(target, block, sizeof block, up, sizeof up), 0);
    expect("down", ferghulta_change_depth(system, up, sizeof up, down, sizeof down), 0);
    expect("the first bytes", memcmp(block, down, sizeof block) == 0, 1);
}

static void expect_constant_words(uint32_t system, ferghulta_lights lights, ferghulta_words wanted) {
    ferghulta_constant_words_answer answer = ferghulta_constant_words_of_lights(system, lights);
    expect("lights accepted", answer.refusal, 0);
    expect("Y'c", answer.words.y, wanted.y);
    expect("C'bc", answer.words.cb, wanted.cb);
    expect("C'rc", answer.words.cr, wanted.cr);
}

static void expect_constant_codes(uint32_t system, ferghulta_words words, ferghulta_red_blue wanted, uint16_t low,
                                  uint16_t high) {
    ferghulta_constant_codes_answer answer = ferghulta_constant_codes_of_words(system, words);
    expect("constant words accepted", answer.refusal, 0);
    expect_clips(answer.clips, low, high);
    expect("constant R'", answer.codes.r, wanted.r);
    expect("constant B'", answer.codes.b, wanted.b);
}

/* Lights, their words, and R' and B' of these. */
struct colour {
    uint32_t system;
    ferghulta_lights lights;
    ferghulta_words words;
    ferghulta_red_blue back;
};

/* Red, green, blue, cyan, magenta and yellow at full light, and a lamp's blue; R' and B' come back within one code. */
static void constant_colours(void) {
    static const struct colour colours[] = {
        {5, {65535, 0, 0}, {505, 280, 960}, {940, 65}},
        {5, {0, 65535, 0}, {786, 131, 82}, {64, 63}},
        {5, {0, 0, 65535}, {247, 960, 403}, {64, 940}},
        {5, {0, 65535, 65535}, {817, 592, 64}, {64, 941}},
        {5, {65535, 0, 65535}, {555, 761, 908}, {940, 940}},
        {5, {65535, 65535, 0}, {914, 64, 539}, {940, 64}},
        {5, {1900, 9000, 60000}, {393, 842, 381}, {173, 903}},
        {6, {65535, 0, 0}, {2019, 1119, 3840}, {3760, 257}},
        {6, {0, 65535, 0}, {3142, 527, 330}, {256, 257}},
        {6, {0, 0, 65535}, {988, 3840, 1612}, {256, 3760}},
        {6, {0, 65535, 65535}, {3266, 2367, 256}, {256, 3759}},
        {6, {65535, 0, 65535}, {2221, 3043, 3632}, {3760, 3760}},
        {6, {65535, 65535, 0}, {3655, 256, 2156}, {3760, 255}},
        {6, {1900, 9000, 60000}, {1573, 3365, 1523}, {691, 3610}},
    };
    for (size_t i = 0; i < sizeof colours / sizeof *colours; i++) {
        const struct colour c = colours[i];
        expect_constant_words(c.system, c.lights, c.words);
        expect_constant_codes(c.system, c.words, c.back, 0, 0);
    }
}

/* Of a grey Y'c is the light's own code, and the differences are 128s. */
static void constant_greys(void) {
    static const uint16_t greys[] = {0, 1, 1186, 1187, 11796, 32768, 65534, 65535};
    for (uint32_t system = 5; system <= 6; system++)
        for (size_t i = 0; i < sizeof greys / sizeof *greys; i++) {
            const uint16_t k = greys[i], code = ferghulta_code_of_light(system - 2, k).code;
            const uint16_t middle = (uint16_t)(128 * scales[system - 3]);
            const ferghulta_lights lights = {k, k, k};
            const ferghulta_words words = {code, middle, middle};
            const ferghulta_red_blue back = {code, code};
            expect_constant_words(system, lights, words);
            expect_constant_codes(system, words, back, 0, 0);
        }
}

/* Before clipping R' and B' are -849 -960, 1512 1803, -341 1296 and 1005 -452. Then R' and B' on an end and one beyond
 * it. */
static void constant_clips(void) {
    static const struct {
        ferghulta_words words;
        ferghulta_red_blue codes;
        ferghulta_clips clips;
    } of[] = {
        {{4, 4, 4}, {4, 4}, {2, 0}},              {{1019, 1019, 1019}, {1019, 1019}, {0, 2}},
        {{512, 1019, 4}, {4, 1019}, {1, 1}},      {{512, 4, 1019}, {1005, 4}, {1, 0}},
        {{6, 512, 511}, {4, 6}, {0, 0}},          {{5, 512, 511}, {4, 5}, {1, 0}},
        {{1018, 512, 513}, {1019, 1018}, {0, 0}}, {{1019, 512, 513}, {1019, 1019}, {0, 1}},
        {{6, 511, 512}, {6, 4}, {0, 0}},          {{5, 511, 512}, {5, 4}, {1, 0}},
        {{1017, 513, 512}, {1017, 1019}, {0, 0}}, {{1018, 513, 512}, {1018, 1019}, {0, 1}},
    };
    for (size_t i = 0; i < sizeof of / sizeof *of; i++)
        expect_constant_codes(5, of[i].words, of[i].codes, of[i].clips.low, of[i].clips.high);
}

static void expect_no_constant_codes(uint32_t system, ferghulta_words words, uint32_t refusal) {
    const ferghulta_constant_codes_answer answer = ferghulta_constant_codes_of_words(system, words);
    expect("constant words refused", answer.refusal, refusal);
    expect_clips(answer.clips, 0, 0);
    expect("codes of refused words", answer.codes.r + answer.codes.b, 0);
}

/* The systems of the other calls here, and the system before the words. */
static void refused_constants(void) {
    static const uint32_t others[] = {0, 1, 2, 3, 4, 7, 261};
    const ferghulta_lights lights = {1900, 9000, 60000};
    const ferghulta_words grey = {512, 512, 512}, beyond[] = {{3, 512, 512}, {512, 1020, 512}, {512, 512, 0}};
    for (size_t i = 0; i < sizeof others / sizeof *others; i++) {
        const ferghulta_constant_words_answer answer = ferghulta_constant_words_of_lights(others[i], lights);
        expect("lights in another system", answer.refusal, FERGHULTA_REFUSED_SYSTEM);
        expect("words of refused lights", answer.words.y + answer.words.cb + answer.words.cr, 0);
        expect_no_constant_codes(others[i], grey, FERGHULTA_REFUSED_SYSTEM);
        expect_no_constant_codes(others[i], beyond[2], FERGHULTA_REFUSED_SYSTEM);
    }
    for (int i = 0; i < 3; i++) expect_no_constant_codes(5, beyond[i], FERGHULTA_REFUSED_CODE);
    const ferghulta_words below = {15, 2048, 2048}, above = {2048, 2048, 4080};
    expect_no_constant_codes(6, below, FERGHULTA_REFUSED_CODE);
    expect_no_constant_codes(6, above, FERGHULTA_REFUSED_CODE);
}

/* 5 and 6 in the other calls. */
static void constants_elsewhere(void) {
    const ferghulta_signals signals = {0, 0, 0};
    const ferghulta_codes codes = {512, 512, 512};
    const ferghulta_words words = {512, 512, 512};
    uint8_t block[FERGHULTA_BLOCK_BYTES(1)], out[sizeof block];
    uint16_t places[3];
    for (uint32_t system = 5; system <= 6; system++) {
        expect("light", ferghulta_code_of_light(system, 0).refusal, FERGHULTA_REFUSED_SYSTEM);
        expect("span", ferghulta_span_of_code(system, 512).refusal, FERGHULTA_REFUSED_SYSTEM);
        expect("signals", ferghulta_codes_of_signals(system, signals).refusal, FERGHULTA_REFUSED_SYSTEM);
        expect("signals back", ferghulta_signals_of_codes(system, codes).refusal, FERGHULTA_REFUSED_SYSTEM);
        expect("words", ferghulta_words_of_codes(system, codes).refusal, FERGHULTA_REFUSED_SYSTEM);
        expect("trimmed words", ferghulta_trimmed_words_of_codes(system, codes).refusal, FERGHULTA_REFUSED_SYSTEM);
        expect("codes", ferghulta_codes_of_words(system, words).refusal, FERGHULTA_REFUSED_SYSTEM);
        expect("level", ferghulta_level_of_code(system, 512).refusal, FERGHULTA_REFUSED_SYSTEM);
        expect("difference", ferghulta_level_of_difference(system, 512).refusal, FERGHULTA_REFUSED_SYSTEM);
        expect("open", ferghulta_open(ferghulta_new(), system, 1, 1).refusal, FERGHULTA_REFUSED_SYSTEM);
        fill_block_of((uint8_t)system, block, 1, &words, 1);
        expect("block", ferghulta_read_block(block, 15, places, 3).refusal, FERGHULTA_REFUSED_SYSTEM);
        expect("depth", ferghulta_change_depth(4, block, 15, out, 15), FERGHULTA_REFUSED_SYSTEM);
        block[0] = 3;
        expect("target", ferghulta_change_depth(system, block, 15, out, 15), FERGHULTA_REFUSED_SYSTEM);
    }
}

/* Each number of the list has words of its own, and no other number has words of the list. */
static void refusal_texts(void) {
    unsigned listed = 0;
    for (uint32_t number = 1; number < 256; number++)
        listed += strcmp(ferghulta_refusal_text(number), ferghulta_refusal_text(256)) != 0;
    expect("refusals with words", listed, 21);
    expect("accepted in words", strcmp(ferghulta_refusal_text(FERGHULTA_ACCEPTED), "accepted") == 0, 1);
}

static void version(void) {
    char numbers[32];
    snprintf(numbers, sizeof numbers, "%d.%d.%d", FERGHULTA_VERSION_MAJOR, FERGHULTA_VERSION_MINOR,
             FERGHULTA_VERSION_PATCH);
    expect("version", strcmp(numbers, FERGHULTA_VERSION) == 0, 1);
    expect("archive's version", ferghulta_version(), FERGHULTA_VERSION_NUMBER);
}

int main(void) {
    lights();
    triples();
    clips();
    rules();
    nominal_calls();
    levels();
    totals();
    widths();
    bytes_of_pictures();
    listing();
    clips_of_rows();
    meters();
    refused_and_other_meters();
    widest_metered_rows();
    rows_in_any_order();
    readers();
    refused_rows();
    refused_and_other_readers();
    highest_reading();
    segments();
    depths();
    refused_depths();
    up_and_down(1, 2);
    up_and_down(3, 4);
    constant_colours();
    constant_greys();
    constant_clips();
    refused_constants();
    constants_elsewhere();
    refusal_texts();
    version();
    printf("bench values: %u tried, %u wrong\n", tried, wrong);
    return wrong != 0;
}
