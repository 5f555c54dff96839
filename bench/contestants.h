// Who is compared: each has its memory and settings made before it is timed.
#ifndef CONTESTANTS_H
#define CONTESTANTS_H

#include "rows.h"

enum way { LIGHT_TO_WORDS, CODES_TO_WORDS, WORDS_TO_CODES };

struct contestant {
    enum way way;
    const char *name;
    void (*run)(void *state);     // the timed part: all rows
    void (*collect)(void *state); // its results into rows->result
    void (*end)(void *state);
    void *state;
};

enum { CONTESTANTS = 8 };

struct contestant our_rows(struct rows *rows);
struct contestant our_reads(struct rows *rows);
struct contestant our_metered_reads(struct rows *rows); // beside our_reads alone, as the next
struct contestant our_reads_in_turn(struct rows *rows);

struct contestant zimg_of_light(struct rows *rows, const char *name, int approximate_gamma);
struct contestant zimg_of_codes(struct rows *rows, const char *name);
struct contestant zimg_of_words(struct rows *rows, const char *name, int widest_vectors);

struct contestant swscale_of_words(struct rows *rows, const char *name);

const char *zimg_version(void);
const char *swscale_release(void);

#endif
