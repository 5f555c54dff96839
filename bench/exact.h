// Document 01's 'Triples' in whole numbers of 64 bits, written for this comparison and sharing nothing with the library.
#ifndef EXACT_H
#define EXACT_H

#include "rows.h"

// Y', Cb, Cr of nominal R', G', B', on whose words no rule acts.
void exact_words(const struct system *system, const uint16_t codes[PLANES], uint16_t words[PLANES]);

// R', G', B' of Y', Cb, Cr, clipped to video data.
void exact_codes(const struct system *system, const uint16_t words[PLANES], uint16_t codes[PLANES]);

// The nearest end of video data where a code is beyond it (request 2026-03).
uint16_t clipped(const struct system *system, int64_t code);

#endif
