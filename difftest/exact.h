/* The exact program (exact_c.rs): each call as the one of ferghulta.h with the same name. */
#ifndef EXACT_H
#define EXACT_H

#include "ferghulta.h"

ferghulta_code_answer exact_code_of_light(uint32_t system, uint16_t light);
ferghulta_span_answer exact_span_of_code(uint32_t system, uint16_t code);
ferghulta_codes_answer exact_codes_of_signals(uint32_t system, ferghulta_signals signals);
ferghulta_signals_answer exact_signals_of_codes(uint32_t system, ferghulta_codes codes);
ferghulta_words_answer exact_words_of_codes(uint32_t system, ferghulta_codes codes);
ferghulta_words_answer exact_trimmed_words_of_codes(uint32_t system, ferghulta_codes codes);
ferghulta_decoded_answer exact_codes_of_words(uint32_t system, ferghulta_words words);
ferghulta_constant_words_answer exact_constant_words_of_lights(uint32_t system, ferghulta_lights lights);
ferghulta_constant_codes_answer exact_constant_codes_of_words(uint32_t system, ferghulta_words words);
ferghulta_level_answer exact_level_of_code(uint32_t system, uint16_t code);
ferghulta_level_answer exact_level_of_difference(uint32_t system, uint16_t word);
ferghulta_block_answer exact_read_block(const uint8_t *bytes, size_t length, uint16_t *codes, size_t places);
ferghulta_metered_answer exact_read_metered(
    ferghulta_meter meter, const uint8_t *bytes, size_t length, uint16_t *codes, size_t places);
ferghulta_figures exact_meter_figures(ferghulta_meter meter);
ferghulta_total_answer exact_total_bytes(uint32_t width, uint32_t height);
ferghulta_picture_answer exact_open(ferghulta_picture picture, uint32_t system, uint32_t width, uint32_t height);
ferghulta_picture_answer exact_row(ferghulta_picture picture, const uint16_t *lights, size_t count, uint8_t *out, size_t room);
ferghulta_picture_answer exact_close(ferghulta_picture picture);
ferghulta_reader_answer exact_open_reader(ferghulta_reader reader, uint32_t height);
ferghulta_next_answer exact_read_next(
    ferghulta_reader reader, const uint8_t *bytes, size_t length, uint16_t *codes, size_t places);
uint32_t exact_change_depth(uint32_t target, const uint8_t *block, size_t length, uint8_t *out, size_t room);

#endif
