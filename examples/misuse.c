/* What the header must refuse, one mistake for each value of MISUSE; with 0 there is none. `make check-header` compiles
 * all of them, warnings being errors. */
#if MISUSE == 1
#pragma pack(1) /* structs that are not laid out as the archive's */
#endif
#include "ferghulta.h"

static uint16_t words[3];
static uint8_t bytes[FERGHULTA_BLOCK_BYTES(1)];
static uint8_t rows[2][FERGHULTA_SEGMENTED_LINES];

ferghulta_picture sent(ferghulta_picture picture);
ferghulta_picture at_end(ferghulta_picture picture);
uint32_t sent_of(ferghulta_picture *picture);
uint32_t block_read(void);
ferghulta_meter metered(ferghulta_meter meter);
uint32_t metered_of(ferghulta_meter *meter);
uint32_t segmented(void);
uint32_t deepened(void);
uint32_t constant(void);
ferghulta_reader opened(ferghulta_reader reader);
ferghulta_reader read_in_turn(ferghulta_reader reader);
uint32_t opened_of(ferghulta_reader *reader);
uint32_t read_in_turn_of(ferghulta_reader *reader);

ferghulta_picture sent(ferghulta_picture picture) {
#if MISUSE == 2
    ferghulta_row(picture, words, 3, bytes, sizeof bytes); /* the next picture is dropped */
#else
    picture = ferghulta_row(picture, words, 3, bytes, sizeof bytes).picture;
#endif
    return picture;
}

ferghulta_picture at_end(ferghulta_picture picture) {
#if MISUSE == 7
    ferghulta_at_row(picture, picture.height); /* the copy is dropped */
#else
    picture = ferghulta_at_row(picture, picture.height);
#endif
    return picture;
}

uint32_t sent_of(ferghulta_picture *picture) {
#if MISUSE == 3
    ferghulta_row_of(picture, words, 3, bytes, sizeof bytes); /* the refusal is dropped */
#elif MISUSE == 4
    if (ferghulta_row_of(picture, 0, 0, bytes, sizeof bytes)) return 1; /* null with a count of 0 */
#endif
    return ferghulta_close_of(picture);
}

uint32_t block_read(void) {
#if MISUSE == 5
    return ferghulta_read_block(bytes, 0, 0, 0).refusal; /* null with a count of 0 */
#else
    return ferghulta_read_block(bytes, sizeof bytes, words, 3).refusal;
#endif
}

ferghulta_meter metered(ferghulta_meter meter) {
#if MISUSE == 8
    ferghulta_read_metered(meter, bytes, sizeof bytes, words, 3); /* the next meter is dropped */
#else
    meter = ferghulta_read_metered(meter, bytes, sizeof bytes, words, 3).meter;
#endif
    return ferghulta_meter_figures(meter).rows == 0 ? ferghulta_empty_meter() : meter;
}

uint32_t metered_of(ferghulta_meter *meter) {
#if MISUSE == 9
    ferghulta_read_metered_of(meter, bytes, sizeof bytes, words, 3); /* the refusal is dropped */
#elif MISUSE == 10
    if (ferghulta_read_metered_of(meter, bytes, 0, 0, 0).refusal) return 1; /* null with a count of 0 */
#endif
    return ferghulta_read_metered_of(meter, bytes, sizeof bytes, words, 3).refusal;
}

uint32_t segmented(void) {
#if MISUSE == 6
    ferghulta_to_segmented(rows[0], sizeof rows[0], rows[1], sizeof rows[1]); /* the refusal is dropped */
#endif
    return ferghulta_to_progressive(rows[1], sizeof rows[1], rows[0], sizeof rows[0]);
}

uint32_t deepened(void) {
#if MISUSE == 11
    ferghulta_change_depth(2, bytes, sizeof bytes, rows[0], sizeof rows[0]); /* the refusal is dropped */
#elif MISUSE == 12
    if (ferghulta_change_depth(2, bytes, sizeof bytes, 0, 0)) return 1; /* null with a count of 0 */
#endif
    return ferghulta_change_depth(2, bytes, sizeof bytes, rows[0], sizeof rows[0]);
}

uint32_t constant(void) {
    const ferghulta_lights lights = {1, 2, 3};
    const ferghulta_words triple = {64, 512, 512};
#if MISUSE == 18
    ferghulta_constant_words_of_lights(FERGHULTA_BT2020_10_CONSTANT, lights); /* the words are dropped */
#elif MISUSE == 19
    ferghulta_constant_codes_of_words(FERGHULTA_BT2020_10_CONSTANT, triple); /* the codes are dropped */
#elif MISUSE == 20
    if (ferghulta_constant_codes_of_words(FERGHULTA_BT2020_10_CONSTANT, lights).refusal) return 1; /* no words */
#endif
    if (ferghulta_constant_words_of_lights(FERGHULTA_BT2020_10_CONSTANT, lights).refusal) return 1;
    return ferghulta_constant_codes_of_words(FERGHULTA_BT2020_10_CONSTANT, triple).refusal;
}

ferghulta_reader opened(ferghulta_reader reader) {
#if MISUSE == 13
    ferghulta_open_reader(reader, 1); /* the opened reader is dropped */
#else
    reader = ferghulta_open_reader(reader, 1).reader;
#endif
    return reader.phase == FERGHULTA_READING ? reader : ferghulta_new_reader();
}

ferghulta_reader read_in_turn(ferghulta_reader reader) {
#if MISUSE == 14
    ferghulta_read_next(reader, bytes, sizeof bytes, words, 3); /* the next reader is dropped */
#else
    reader = ferghulta_read_next(reader, bytes, sizeof bytes, words, 3).reader;
#endif
    return reader;
}

uint32_t opened_of(ferghulta_reader *reader) {
#if MISUSE == 15
    ferghulta_open_reader_of(reader, 1); /* the refusal is dropped */
#endif
    return ferghulta_open_reader_of(reader, 1);
}

uint32_t read_in_turn_of(ferghulta_reader *reader) {
#if MISUSE == 16
    ferghulta_read_next_of(reader, bytes, sizeof bytes, words, 3); /* the refusal is dropped */
#elif MISUSE == 17
    if (ferghulta_read_next_of(reader, bytes, 0, 0, 0).refusal) return 1; /* null with a count of 0 */
#endif
    return ferghulta_read_next_of(reader, bytes, sizeof bytes, words, 3).refusal;
}
