/* Lists of calls beside the exact program. libFuzzer's bytes are read as a list; the picture, the meter and the reader go from call
 * to call. */
#include "harness.h"

enum { MOST_CALLS = 40, MOST_LIGHTS = 3 * FERGHULTA_MOST_SAMPLES + 8, MOST_ROOM = FERGHULTA_BLOCK_BYTES(FERGHULTA_MOST_SAMPLES) + 8 };

struct list {
    const uint8_t *at, *end;
    ferghulta_picture picture;
    ferghulta_meter meter;
    ferghulta_reader reader;
    uint8_t block[MOST_ROOM]; /* of the last row, or any */
    size_t block_bytes;
};

static uint8_t *lights_end, *out_end;

int LLVMFuzzerInitialize(int *argc, char ***argv)
{
    (void)argc, (void)argv;
    lights_end = fenced_end();
    out_end = fenced_end();
    return atexit(print_compared);
}

/* ---- the list's bytes */

static uint8_t byte(struct list *list)
{
    return list->at < list->end ? *list->at++ : 0;
}

static uint16_t word(struct list *list)
{
    uint16_t low = byte(list);
    return (uint16_t)(low | byte(list) << 8);
}

static uint32_t long_word(struct list *list)
{
    uint32_t low = word(list);
    return low | (uint32_t)word(list) << 16;
}

/* Mostly a small number, else any. */
static uint32_t number(struct list *list, uint32_t small)
{
    uint8_t kind = byte(list);
    return kind < 240 ? kind % small : kind < 248 ? word(list) : long_word(list);
}

/* Mostly a code or word of the system's bits, else any. */
static uint16_t code_of_bits(struct list *list, uint32_t system)
{
    uint16_t any = word(list);
    return byte(list) < 240 ? any % (system == 4 ? 4096 : system == 1 ? 256 : 1024) : any;
}

/* Mostly what is asked for, else a few more or fewer. */
static size_t nearly(struct list *list, size_t asked, size_t most)
{
    uint8_t kind = byte(list);
    size_t off = kind < 192 ? 0 : kind % 8;
    size_t items = kind < 224 ? asked + off : asked < off ? 0 : asked - off;
    return items > most ? most : items;
}

/* ---- pictures */

static void go_on(struct list *list, enum call call, ferghulta_picture_answer got, ferghulta_picture_answer wanted)
{
    note(call, got.refusal);
    agree(call, "the answer", &got, &wanted, sizeof got);
    list->picture = got.picture;
}

static void open_picture(struct list *list)
{
    uint32_t system = number(list, 7), width = number(list, 12), height = number(list, 4);
    go_on(list, OPEN, ferghulta_open(list->picture, system, width, height), exact_open(list->picture, system, width, height));
}

static void close_picture(struct list *list)
{
    go_on(list, CLOSE, ferghulta_close(list->picture), exact_close(list->picture));
}

/* Lights by a step from a start: two words make a row. */
static void fill_lights(struct list *list, uint16_t *lights, size_t count)
{
    uint16_t light = word(list), step = word(list);
    for (size_t j = 0; j < count; j++, light += step)
        lights[j] = light;
}

static void take_row(struct list *list)
{
    static uint16_t given[MOST_LIGHTS];
    static uint8_t wanted_out[MOST_ROOM];
    size_t width = list->picture.width;
    size_t count = nearly(list, FERGHULTA_ROW_CODES(width), MOST_LIGHTS);
    size_t room = nearly(list, FERGHULTA_BLOCK_BYTES(width), MOST_ROOM);
    uint16_t *lights = (uint16_t *)lights_end - count;
    uint8_t *out = out_end - room;
    fill_lights(list, lights, count);
    memcpy(given, lights, count * sizeof *lights);
    memcpy(wanted_out, out, room);
    ferghulta_picture_answer got = ferghulta_row(list->picture, lights, count, out, room);
    ferghulta_picture_answer wanted = exact_row(list->picture, given, count, wanted_out, room);
    agree(ROW, "the lights lent", lights, given, count * sizeof *lights);
    agree(ROW, "the buffer", out, wanted_out, room);
    if (got.refusal == 0) {
        list->block_bytes = FERGHULTA_BLOCK_BYTES(width);
        memcpy(list->block, out, list->block_bytes);
    }
    go_on(list, ROW, got, wanted);
}

/* The last row's block, with a byte changed if the list says so. */
static void read_row(struct list *list)
{
    static uint16_t codes[MOST_LIGHTS], wanted_codes[MOST_LIGHTS];
    size_t length = list->block_bytes, places = nearly(list, length / 2, MOST_LIGHTS);
    uint8_t change = byte(list);
    if (change != 0 && length > 0)
        list->block[word(list) % length] ^= change;
    ferghulta_block_answer got = ferghulta_read_block(list->block, length, codes, places);
    ferghulta_block_answer wanted = exact_read_block(list->block, length, wanted_codes, places);
    note(READ_BLOCK, got.refusal);
    agree(READ_BLOCK, "the answer", &got, &wanted, sizeof got);
    agree(READ_BLOCK, "the codes", codes, wanted_codes, sizeof codes);
}

/* Words of video data, by a step from a start. */
static void fill_section(struct list *list, uint8_t *section, uint16_t width)
{
    uint16_t s = list->block[0] == 1 ? 1 : list->block[0] == 4 ? 16 : 4, any = word(list), step = word(list);
    memcpy(section, &width, 2);
    for (size_t j = 0; j < width; j++, any += step) {
        uint16_t of_video_data = s + any % (254 * s);
        memcpy(section + 2 + 2 * j, &of_video_data, 2);
    }
}

/* A block of which many words clip. */
static void any_block(struct list *list)
{
    uint16_t width = 1 + byte(list) % 8, row = word(list) % FERGHULTA_MOST_ROWS;
    list->block[0] = 1 + byte(list) % 4;
    memcpy(list->block + 1, &row, 2);
    for (size_t section = 0; section < 3; section++)
        fill_section(list, list->block + 3 + section * (2 + 2 * width), width);
    list->block_bytes = FERGHULTA_BLOCK_BYTES(width);
}

/* Mostly those of the picture's rows, else a few more or fewer, others with the same low half, or any. */
static uint32_t any_bytes(struct list *list, uint32_t bytes)
{
    uint8_t kind = byte(list);
    return kind < 160 ? bytes : kind < 224 ? bytes + kind - 192 : kind < 240 ? bytes ^ 1u << 16 : long_word(list);
}

/* A picture that came from no call: its numbers are mostly in their ranges. */
static void any_picture(struct list *list)
{
    list->picture.phase = byte(list) % 4;
    list->picture.system = (uint8_t)number(list, 7);
    list->picture.width = (uint16_t)number(list, 12);
    list->picture.height = word(list) % 5000;
    list->picture = ferghulta_at_row(list->picture, word(list) % 5000);
    list->picture.bytes = any_bytes(list, list->picture.bytes);
}

/* The picture that the calls made, with other bytes. */
static void damage_bytes(struct list *list)
{
    list->picture.bytes = any_bytes(list, list->picture.bytes);
}

/* ---- meters */

/* One read of the block. Codes are compared a little beyond their places: narrow blocks are read many times. */
static void read_metered(struct list *list)
{
    enum { BEYOND = 16 };
    static uint16_t codes[MOST_LIGHTS + BEYOND], wanted_codes[MOST_LIGHTS + BEYOND];
    size_t length = list->block_bytes, places = nearly(list, length / 2, MOST_LIGHTS);
    ferghulta_metered_answer got = ferghulta_read_metered(list->meter, list->block, length, codes, places);
    ferghulta_metered_answer wanted = exact_read_metered(list->meter, list->block, length, wanted_codes, places);
    note(READ_METERED, got.block.refusal);
    agree(READ_METERED, "the answer", &got, &wanted, sizeof got);
    agree(READ_METERED, "the codes", codes, wanted_codes, (places + BEYOND) * sizeof *codes);
    list->meter = got.meter;
    agree_on_figures(list->meter);
}

/* Up to 70 reads of a narrow block, so that the meter is filled and goes round. */
static void read_metered_again(struct list *list)
{
    int is_narrow = 0 < list->block_bytes && list->block_bytes < 100;
    for (int times = is_narrow ? byte(list) % 71 : 1; times > 0; times--)
        read_metered(list);
}

/* A meter that came from no call: counts by two steps, and mostly numbers that agree. */
static void any_meter(struct list *list)
{
    fill_lights(list, list->meter.lows, FERGHULTA_METER_ROWS);
    fill_lights(list, list->meter.highs, FERGHULTA_METER_ROWS);
    list->meter.rows = number(list, 66);
    list->meter.place = list->meter.rows < FERGHULTA_METER_ROWS ? list->meter.rows : number(list, 66);
    sum_up(&list->meter);
    agree_on_figures(list->meter);
}

/* Some bytes of the meter are others, mostly one. */
static void damage_meter(struct list *list)
{
    uint8_t *bytes = (uint8_t *)&list->meter;
    for (int times = 1 + byte(list) % 4; times > 0; times--)
        bytes[word(list) % sizeof list->meter] ^= byte(list);
    agree_on_figures(list->meter);
}

/* ---- readers */

/* With the height that the list says, or with the picture's. */
static void open_reader(struct list *list)
{
    uint32_t height = byte(list) < 64 ? list->picture.height : number(list, 6);
    ferghulta_reader_answer got = ferghulta_open_reader(list->reader, height), wanted = exact_open_reader(list->reader, height);
    note(OPEN_READER, got.refusal);
    agree(OPEN_READER, "the answer", &got, &wanted, sizeof got);
    list->reader = got.reader;
}

/* The block, whichever it is. */
static void read_next(struct list *list)
{
    enum { BEYOND = 16 };
    static uint16_t codes[MOST_LIGHTS + BEYOND], wanted_codes[MOST_LIGHTS + BEYOND];
    size_t length = list->block_bytes, places = nearly(list, length / 2, MOST_LIGHTS);
    ferghulta_next_answer got = ferghulta_read_next(list->reader, list->block, length, codes, places);
    ferghulta_next_answer wanted = exact_read_next(list->reader, list->block, length, wanted_codes, places);
    note(READ_NEXT, got.block.refusal);
    agree(READ_NEXT, "the answer", &got, &wanted, sizeof got);
    agree(READ_NEXT, "the codes", codes, wanted_codes, (places + BEYOND) * sizeof *codes);
    list->reader = got.reader;
}

/* The block with the number that is due, some times, so that rows follow each other. */
static void read_in_turn(struct list *list)
{
    for (int times = 1 + byte(list) % 8; times > 0 && list->block_bytes >= 3; times--) {
        memcpy(list->block + 1, &list->reader.next, 2);
        read_next(list);
    }
}

/* A row of lights, whose block the reader is given. */
static void take_and_read_row(struct list *list)
{
    take_row(list);
    read_next(list);
}

/* A reader that came from no call: its numbers are mostly in their ranges, and its kind is often the block's. */
static void any_reader(struct list *list)
{
    list->reader.phase = byte(list) % 4;
    list->reader.system = (uint8_t)number(list, 7);
    list->reader.width = (uint16_t)number(list, 12);
    list->reader.height = word(list) % 5000;
    list->reader.next = byte(list) < 64 ? list->reader.height - 1 : word(list) % 5000;
    if (byte(list) < 128 && list->block_bytes > 0) {
        list->reader.system = list->block[0];
        list->reader.width = (uint16_t)((list->block_bytes - FERGHULTA_BLOCK_BYTES(0)) / 6);
    }
}

/* Some bytes of the reader are others, mostly one. */
static void damage_reader(struct list *list)
{
    uint8_t *bytes = (uint8_t *)&list->reader;
    for (int times = 1 + byte(list) % 2; times > 0; times--)
        bytes[byte(list) % sizeof list->reader] ^= byte(list);
}

/* ---- values; the parts of an answer have no padding, the answer may */

#define AGREE(call, got, wanted, part) \
    do { \
        note(call, (got).refusal); \
        agree(call, "the refusal", &(got).refusal, &(wanted).refusal, sizeof(got).refusal); \
        agree(call, #part, &(got).part, &(wanted).part, sizeof(got).part); \
    } while (0)

static void lights_and_codes(struct list *list)
{
    uint32_t system = number(list, 7);
    uint16_t light = word(list), code = code_of_bits(list, system);
    ferghulta_code_answer coded = ferghulta_code_of_light(system, light), exactly_coded = exact_code_of_light(system, light);
    ferghulta_span_answer span = ferghulta_span_of_code(system, code), exact_span = exact_span_of_code(system, code);
    AGREE(CODE_OF_LIGHT, coded, exactly_coded, code);
    AGREE(SPAN_OF_CODE, span, exact_span, span);
}

static void signals(struct list *list)
{
    uint32_t system = number(list, 7), bits[3];
    for (int place = 0; place < 3; place++)
        bits[place] = long_word(list);
    ferghulta_signals given;
    memcpy(&given, bits, sizeof given);
    ferghulta_codes_answer got = ferghulta_codes_of_signals(system, given), wanted = exact_codes_of_signals(system, given);
    AGREE(CODES_OF_SIGNALS, got, wanted, codes);
}

static void triples(struct list *list)
{
    uint32_t system = number(list, 7);
    uint16_t first = code_of_bits(list, system), second = code_of_bits(list, system), third = code_of_bits(list, system);
    ferghulta_codes codes = { first, second, third };
    ferghulta_words words = { first, second, third };
    ferghulta_signals_answer restored = ferghulta_signals_of_codes(system, codes), exactly_restored = exact_signals_of_codes(system, codes);
    ferghulta_words_answer plain = ferghulta_words_of_codes(system, codes), exactly_plain = exact_words_of_codes(system, codes);
    ferghulta_words_answer trimmed = ferghulta_trimmed_words_of_codes(system, codes),
                           exactly_trimmed = exact_trimmed_words_of_codes(system, codes);
    ferghulta_decoded_answer decoded = ferghulta_codes_of_words(system, words), exactly_decoded = exact_codes_of_words(system, words);
    AGREE(SIGNALS_OF_CODES, restored, exactly_restored, signals);
    AGREE(WORDS_OF_CODES, plain, exactly_plain, words);
    agree(WORDS_OF_CODES, "moved", &plain.moved, &exactly_plain.moved, sizeof plain.moved);
    AGREE(TRIMMED_WORDS_OF_CODES, trimmed, exactly_trimmed, words);
    agree(TRIMMED_WORDS_OF_CODES, "moved", &trimmed.moved, &exactly_trimmed.moved, sizeof trimmed.moved);
    AGREE(CODES_OF_WORDS, decoded, exactly_decoded, codes);
    agree(CODES_OF_WORDS, "clips", &decoded.clips, &exactly_decoded.clips, sizeof decoded.clips);
}

/* Lights that are anything, or a grey and a little more; mostly systems 5 and 6, in whose bits the words are. */
static void constants(struct list *list)
{
    uint32_t system = 5 + number(list, 2), known = system == 6 ? 4 : 3;
    uint16_t red = word(list), green = word(list), blue = word(list);
    ferghulta_lights lights = { red, green, blue };
    if (byte(list) < 128)
        lights = (ferghulta_lights){ red, red + green % 4, red + blue % 4 };
    uint16_t y = code_of_bits(list, known), cb = code_of_bits(list, known), cr = code_of_bits(list, known);
    ferghulta_words words = { y, cb, cr };
    ferghulta_constant_words_answer encoded = ferghulta_constant_words_of_lights(system, lights),
                                    exactly_encoded = exact_constant_words_of_lights(system, lights);
    ferghulta_constant_codes_answer decoded = ferghulta_constant_codes_of_words(system, words),
                                    exactly_decoded = exact_constant_codes_of_words(system, words);
    AGREE(CONSTANT_WORDS_OF_LIGHTS, encoded, exactly_encoded, words);
    AGREE(CONSTANT_CODES_OF_WORDS, decoded, exactly_decoded, codes);
    agree(CONSTANT_CODES_OF_WORDS, "clips", &decoded.clips, &exactly_decoded.clips, sizeof decoded.clips);
}

static void levels(struct list *list)
{
    uint32_t system = number(list, 7);
    uint16_t code = code_of_bits(list, system);
    ferghulta_level_answer of_code = ferghulta_level_of_code(system, code), exactly_of_code = exact_level_of_code(system, code);
    ferghulta_level_answer of_difference = ferghulta_level_of_difference(system, code),
                           exactly_of_difference = exact_level_of_difference(system, code);
    AGREE(LEVEL_OF_CODE, of_code, exactly_of_code, level);
    AGREE(LEVEL_OF_DIFFERENCE, of_difference, exactly_of_difference, level);
}

/* Mostly a width or height, or a little more than the most, else any. */
static uint32_t any_size(struct list *list, uint32_t most)
{
    uint32_t any = long_word(list);
    return byte(list) < 240 ? any % (most + 8) : any;
}

static void totals(struct list *list)
{
    uint32_t width = any_size(list, FERGHULTA_MOST_SAMPLES), height = any_size(list, FERGHULTA_MOST_ROWS);
    ferghulta_total_answer got = ferghulta_total_bytes(width, height), wanted = exact_total_bytes(width, height);
    AGREE(TOTAL_BYTES, got, wanted, bytes);
}

static void (*const calls[])(struct list *) = {
    open_picture, take_row, take_row, take_row, close_picture, read_row, any_picture, damage_bytes, totals, lights_and_codes, signals,
    triples, constants, levels, any_block, read_metered, read_metered_again, any_meter, damage_meter, open_reader, read_next,
    read_in_turn, take_and_read_row, any_reader, damage_reader,
};

int LLVMFuzzerTestOneInput(const uint8_t *data, size_t size)
{
    static struct list list;
    list.at = data;
    list.end = data + size;
    list.picture = ferghulta_new();
    list.meter = ferghulta_empty_meter();
    list.reader = ferghulta_new_reader();
    list.block_bytes = 0;
    for (int call = 0; call < MOST_CALLS && list.at < list.end; call++)
        calls[byte(&list) % (sizeof calls / sizeof calls[0])](&list);
    return 0;
}
