/* Ferghulta: rows of linear light become Y'CbCr words of BT.709 and BT.2020 in 4:4:4, in row blocks, and blocks are
 * read back. The source's docs/CONVERSION.md says what is computed. The archive is for x86-64 Linux and calls nothing
 * else but the C library's memmove; this header is C89 with <stdint.h>, and C++98, or later.
 *
 * Every call is proved to give the answer that the definitions in crates/ have for its arguments, whatever they are. No
 * call keeps a pointer, allocates, or reads or writes anything but its arguments and the memory that it is lent; none
 * has a state of its own, so calls may run at once in several threads.
 *
 * What a caller owes:
 * - A pointer and a count are of memory that is lent for the call, with nothing else writing it. Words are aligned as C
 *   aligns them; bytes may begin anywhere.
 * - Memory that is written overlaps no other argument: where it does, wrong bytes are written and nothing tells.
 * - A pointer is never null, with a count of 0 neither; with a count of 0 any other pointer will do, and is not
 *   followed. (gcc and clang warn of a null that they see, and -fsanitize=undefined finds the others.)
 * - No call needs more than 2 KB of stack.
 * - The calls on signals need floating point as a C program starts with it: rounding to nearest, subnormals kept (a
 *   program linked with -ffast-math drops them, and a signal just below 0 would pass for 0).
 *
 * An answer has a field `refusal`, that of a read with a meter or a reader in its `block`: 0 where the call was
 * accepted, else the number of the refusal. Then the answer's other numbers are 0, lent memory is as it was, and a
 * picture, a meter or a reader comes back as it was given. Compilers warn where an answer is dropped: a picture that is
 * dropped after a row gives the next row the same number, and only close tells; where a meter is dropped after a read,
 * the figures lack that row, and nothing tells; where a reader is dropped after a read, the next row is refused.
 */
#ifndef FERGHULTA_H
#define FERGHULTA_H

#include <stddef.h>
#include <stdint.h>

#define FERGHULTA_VERSION_MAJOR 5
#define FERGHULTA_VERSION_MINOR 3
#define FERGHULTA_VERSION_PATCH 0
#define FERGHULTA_VERSION "5.3.0"

/* The version as one number to compare, in #if too: 50300 is 5.3.0. CHANGELOG.md says what a version promises. */
#define FERGHULTA_VERSION_NUMBER                                                                                       \
    (10000 * FERGHULTA_VERSION_MAJOR + 100 * FERGHULTA_VERSION_MINOR + FERGHULTA_VERSION_PATCH)

/* What compilers are told beside the types. `__restrict` and `__inline` are spelt so for C89 and C++. */
#if (defined(__STDC_VERSION__) && __STDC_VERSION__ > 201710L) || (defined(__cplusplus) && __cplusplus >= 201703L)
#define FERGHULTA_MUST_USE [[nodiscard]]
#elif defined(__GNUC__)
#define FERGHULTA_MUST_USE __attribute__((warn_unused_result))
#else
#define FERGHULTA_MUST_USE
#endif
#if defined(__GNUC__)
#define FERGHULTA_NONNULL __attribute__((nonnull))
#else
#define FERGHULTA_NONNULL
#endif
#ifdef __cplusplus
#define FERGHULTA_AS(type, n) static_cast<type>(n)
#else
#define FERGHULTA_AS(type, n) ((type)(n))
#endif

#ifdef __cplusplus
extern "C" {
#endif

/* The version of the archive: FERGHULTA_VERSION_NUMBER, where the program is linked with the archive of this header. */
FERGHULTA_MUST_USE uint32_t ferghulta_version(void);

/* A system is a matrix and a bit depth n; its scale s is 2^(n - 8). Video data runs from s to 255s - 1, for R', G', B',
 * Y', Cb and Cr alike; within it, nominal R', G', B' and Y' run from 16s to 235s, nominal Cb and Cr from 16s to 240s.
 * Each call says which of the two it takes. Calls take the system as a uint32_t and refuse any other number; the two
 * systems with constant luminance, 5 and 6, are for the two calls that have `constant` in their name, and no others. */
enum ferghulta_system {
    FERGHULTA_BT709_8 = 1,   /* s = 1 */
    FERGHULTA_BT709_10 = 2,  /* s = 4 */
    FERGHULTA_BT2020_10 = 3, /* s = 4 */
    FERGHULTA_BT2020_12 = 4  /* s = 16 */
};

/* What a refusal's number says. State (21 to 24, and 36) is tested first, then input in the order of the numbers; the
 * tests of a block are in the order that ferghulta_read_block, ferghulta_read_next and ferghulta_change_depth name. */
enum ferghulta_refusal {
    FERGHULTA_ACCEPTED = 0,
    FERGHULTA_REFUSED_SYSTEM = 1,        /* system not 1 to 4; with constant luminance not 5 or 6 */
    FERGHULTA_REFUSED_WIDTH = 2,         /* width not 1 to 7680 */
    FERGHULTA_REFUSED_HEIGHT = 3,        /* height not 1 to 4320 */
    FERGHULTA_REFUSED_LIGHTS = 4,        /* lights not 3 * width */
    FERGHULTA_REFUSED_OUTPUT = 5,        /* lent output too short */
    FERGHULTA_REFUSED_CODE = 6,          /* code or word outside video data, or nominal where a call asks for it */
    FERGHULTA_REFUSED_SIGNAL = 7,        /* signal below 0, above 1, or not a number */
    FERGHULTA_REFUSED_BLOCK_END = 8,     /* block ends too early */
    FERGHULTA_REFUSED_COUNT = 9,         /* count 0, above 7680, or unlike the Y' count */
    FERGHULTA_REFUSED_ROW_NUMBER = 10,   /* block's row number above 4319 */
    FERGHULTA_REFUSED_BYTES_AFTER = 11,  /* bytes after the Cr section */
    FERGHULTA_REFUSED_ALREADY_OPEN = 21, /* open while open */
    FERGHULTA_REFUSED_NOT_OPEN = 22,     /* row or close while not open */
    FERGHULTA_REFUSED_ALL_ROWS = 23,     /* row when all rows are accepted */
    FERGHULTA_REFUSED_ROWS_MISSING = 24, /* close with rows missing */
    FERGHULTA_REFUSED_LENGTH = 31,       /* buffer length 0, no multiple of 1080, or unlike the other's */
    FERGHULTA_REFUSED_TARGET = 32,       /* target system equal to the block's, or of the other Recommendation */
    FERGHULTA_REFUSED_TIMING = 33,       /* word of the result in the timing codes */
    FERGHULTA_REFUSED_TURN = 34,         /* block's row number not the next one */
    FERGHULTA_REFUSED_UNLIKE = 35,       /* block's system or count unlike the first one's */
    FERGHULTA_REFUSED_NOT_READING = 36   /* block before opening or when complete */
};

/* The same in words, for people; programs compare the number. */
FERGHULTA_MUST_USE static __inline const char *ferghulta_refusal_text(uint32_t refusal) {
    switch (refusal) {
    case FERGHULTA_ACCEPTED: return "accepted";
    case FERGHULTA_REFUSED_SYSTEM: return "system not 1 to 4, or with constant luminance not 5 or 6";
    case FERGHULTA_REFUSED_WIDTH: return "width not 1 to 7680";
    case FERGHULTA_REFUSED_HEIGHT: return "height not 1 to 4320";
    case FERGHULTA_REFUSED_LIGHTS: return "lights not 3 * width";
    case FERGHULTA_REFUSED_OUTPUT: return "lent output too short";
    case FERGHULTA_REFUSED_CODE: return "code or word outside video data, or nominal where a call asks for it";
    case FERGHULTA_REFUSED_SIGNAL: return "signal below 0, above 1, or not a number";
    case FERGHULTA_REFUSED_BLOCK_END: return "block ends too early";
    case FERGHULTA_REFUSED_COUNT: return "count 0, above 7680, or unlike the Y' count";
    case FERGHULTA_REFUSED_ROW_NUMBER: return "block's row number above 4319";
    case FERGHULTA_REFUSED_BYTES_AFTER: return "bytes after the Cr section";
    case FERGHULTA_REFUSED_ALREADY_OPEN: return "open while open";
    case FERGHULTA_REFUSED_NOT_OPEN: return "row or close while not open";
    case FERGHULTA_REFUSED_ALL_ROWS: return "row when all rows are accepted";
    case FERGHULTA_REFUSED_ROWS_MISSING: return "close with rows missing";
    case FERGHULTA_REFUSED_LENGTH: return "buffer length 0, no multiple of 1080, or unlike the other's";
    case FERGHULTA_REFUSED_TARGET: return "target system equal to the block's, or of the other Recommendation";
    case FERGHULTA_REFUSED_TIMING: return "word of the result in the timing codes";
    case FERGHULTA_REFUSED_TURN: return "block's row number not the next one";
    case FERGHULTA_REFUSED_UNLIKE: return "block's system or count unlike the first one's";
    case FERGHULTA_REFUSED_NOT_READING: return "block before opening or when complete";
    default: return "not a refusal of this version";
    }
}

/* ---- Light and code. A light k, 0 to 65535, means the linear light k / 65535. A call looks its depth's table up; a
 * light of a row costs less still, so send rows as rows. */

typedef struct ferghulta_code_answer {
    uint32_t refusal;
    uint16_t code;
} ferghulta_code_answer;

/* The R', G' or B' code of a light, a nominal one. Refused: 1. */
FERGHULTA_MUST_USE ferghulta_code_answer ferghulta_code_of_light(uint32_t system, uint16_t light);

/* The lights from least to greatest, both included. */
typedef struct ferghulta_span {
    uint16_t least, greatest;
} ferghulta_span;

typedef struct ferghulta_span_answer {
    uint32_t refusal;
    ferghulta_span span;
} ferghulta_span_answer;

/* The lights of a nominal R', G' or B' code; each code has at least one. Refused: 1, 6 (the code is not nominal). */
FERGHULTA_MUST_USE ferghulta_span_answer ferghulta_span_of_code(uint32_t system, uint16_t code);

/* ---- Triples: the signals E' (0 to 1), the codes or the words of one sample. */

typedef struct ferghulta_signals {
    float r, g, b;
} ferghulta_signals;

typedef struct ferghulta_codes {
    uint16_t r, g, b;
} ferghulta_codes;

typedef struct ferghulta_words {
    uint16_t y, cb, cr;
} ferghulta_words;

typedef struct ferghulta_codes_answer {
    uint32_t refusal;
    ferghulta_codes codes;
} ferghulta_codes_answer;

/* The nominal codes of three signals, each of its exact value; negative zero is zero. Refused: 1, 7. */
FERGHULTA_MUST_USE ferghulta_codes_answer ferghulta_codes_of_signals(uint32_t system, ferghulta_signals signals);

typedef struct ferghulta_signals_answer {
    uint32_t refusal;
    ferghulta_signals signals;
} ferghulta_signals_answer;

/* The floats nearest to the signals of three nominal codes; they quantise to these codes again. Refused: 1, 6 (a code
 * is not nominal). */
FERGHULTA_MUST_USE ferghulta_signals_answer ferghulta_signals_of_codes(uint32_t system, ferghulta_codes codes);

typedef struct ferghulta_words_answer {
    uint32_t refusal;
    uint32_t moved; /* how many of the three words a rule moved */
    ferghulta_words words;
} ferghulta_words_answer;

/* Y', Cb and Cr of R', G', B' codes of video data, in plain encoding: the guard rule alone brings a word beyond video
 * data to its nearest end. Of nominal codes no word is moved. Refused: 1, 6 (a code is not video data). */
FERGHULTA_MUST_USE ferghulta_words_answer ferghulta_words_of_codes(uint32_t system, ferghulta_codes codes);

/* The same in trim encoding: the trim rule is tried first and brings a word beyond nominal to the nominal end, also one
 * beyond video data. So every word is nominal, and the guard rule finds none to move. Refused: 1, 6 (a code is not
 * video data). */
FERGHULTA_MUST_USE ferghulta_words_answer ferghulta_trimmed_words_of_codes(uint32_t system, ferghulta_codes codes);

/* How many codes were below video data and brought up to its lower end, and how many were above and brought down to its
 * upper end. A code that was on an end counts in neither, and none counts in both. */
typedef struct ferghulta_clips {
    uint16_t low, high;
} ferghulta_clips;

typedef struct ferghulta_decoded_answer {
    uint32_t refusal;
    ferghulta_clips clips; /* of the three codes */
    ferghulta_codes codes;
} ferghulta_decoded_answer;

/* R', G' and B' of words of video data, clipped to video data. Refused: 1, 6 (a word is not video data). */
FERGHULTA_MUST_USE ferghulta_decoded_answer ferghulta_codes_of_words(uint32_t system, ferghulta_words words);

/* ---- Constant luminance, BT.2020's Y'cC'bcC'rc. Y'c is made of light: it is the code of the light 0.2627 R + 0.6780 G
 * + 0.0593 B, quantised once from that exact sum, by the curve of systems 3 and 4. The other calls make Y' of codes,
 * and refuse 5 and 6. C'bc is 128s + (B' - Y'c) / d * 224 / 219, rounded, halves up: B' is the code of the light B,
 * and d is 1.9404 where B' - Y'c is not above 0, and 1.5820 where it is. C'rc is the same of R', with 1.7182 and
 * 0.9938. Of a grey light Y'c is the light's own code, and C'bc and C'rc are 128s. */

enum ferghulta_constant_system {
    FERGHULTA_BT2020_10_CONSTANT = 5, /* bits and curve of FERGHULTA_BT2020_10 */
    FERGHULTA_BT2020_12_CONSTANT = 6  /* bits and curve of FERGHULTA_BT2020_12 */
};

/* Each from 0 to 65535, as in ferghulta_code_of_light. */
typedef struct ferghulta_lights {
    uint16_t r, g, b;
} ferghulta_lights;

typedef struct ferghulta_constant_words_answer {
    uint32_t refusal;
    ferghulta_words words; /* Y'c, C'bc and C'rc */
} ferghulta_constant_words_answer;

/* Y'c, C'bc and C'rc of a triple of light. They are nominal for every triple, so that none is ever moved, and decoded
 * they give R' and B' within one code of the codes of R and B, with nothing clipped. Refused: 1 (system
 * not 5 or 6). */
FERGHULTA_MUST_USE ferghulta_constant_words_answer ferghulta_constant_words_of_lights(uint32_t system,
                                                                                      ferghulta_lights lights);

typedef struct ferghulta_red_blue {
    uint16_t r, b;
} ferghulta_red_blue;

typedef struct ferghulta_constant_codes_answer {
    uint32_t refusal;
    ferghulta_clips clips; /* of the two codes */
    ferghulta_red_blue codes;
} ferghulta_constant_codes_answer;

/* R' and B' of words of video data, clipped to video data: Y'c + (C'rc - 128s) * d * 219 / 224 and the same of C'bc,
 * rounded, halves up, with d as above by the side of 128s. Of the words of lights a code may come back as 16s - 1 or
 * 235s + 1: bring it to nominal where a call asks for that. There is no G': it would have to be found on light, by the
 * curve's way back. Refused: 1 (system not 5 or 6), 6 (a word is not video data). */
FERGHULTA_MUST_USE ferghulta_constant_codes_answer ferghulta_constant_codes_of_words(uint32_t system,
                                                                                     ferghulta_words words);

/* ---- Levels in millivolts, as a waveform bench reads codes: 700 * (D - 16s) / (219s) of an R', G', B' or Y' code D,
 * 700 * (C - 128s) / (224s) of a Cb or Cr word C. `millivolts` are the whole ones, rounded down, also below 0, and
 * `remainder`, from 0 to 219s - 1 or 224s - 1, is the rest over 219s or 224s. So the exact level is
 * millivolts + remainder / (219s), or millivolts + remainder / (224s). */

typedef struct ferghulta_level {
    int32_t millivolts;
    uint32_t remainder;
} ferghulta_level;

typedef struct ferghulta_level_answer {
    uint32_t refusal;
    ferghulta_level level;
} ferghulta_level_answer;

/* The level of an R', G', B' or Y' code of video data. Refused: 1, 6 (the code is not video data). */
FERGHULTA_MUST_USE ferghulta_level_answer ferghulta_level_of_code(uint32_t system, uint16_t code);

/* The level of a Cb or Cr word of video data. Refused: 1, 6 (the word is not video data). */
FERGHULTA_MUST_USE ferghulta_level_answer ferghulta_level_of_difference(uint32_t system, uint16_t word);

/* ---- Row blocks: system (1 byte), row number (2), then Y', Cb and Cr, each a count (2) and that many words (2 each);
 * all unsigned, low byte first. */

#define FERGHULTA_MOST_SAMPLES 7680
#define FERGHULTA_MOST_ROWS 4320

/* The bytes of the block of a row of `width` samples, and how many lights or codes such a row has. */
#define FERGHULTA_BLOCK_BYTES(width) (9 + 6 * FERGHULTA_AS(size_t, width))
#define FERGHULTA_ROW_CODES(width) (3 * FERGHULTA_AS(size_t, width))

typedef struct ferghulta_block_answer {
    uint32_t refusal;
    uint32_t system;
    ferghulta_clips clips; /* the sums over all samples of the row */
    uint16_t row, samples;
} ferghulta_block_answer;

/* Reads the one block that the `length` bytes are: R, G, B of each sample, clipped to video data, go to the front of
 * `codes`, which has room for `places` codes; what lies beyond stays. Of a row of lights a code may come back as
 * 16s - 1 or 235s + 1: bring it to nominal where a call asks for that. Refused, from the front: 8 (fewer than 3 bytes),
 * 1, 10; at each section 8 (count missing), 9, 8 (words missing); then 11, 6 (a word is not video data), 5 (places
 * below 3 * samples). */
FERGHULTA_MUST_USE FERGHULTA_NONNULL ferghulta_block_answer
ferghulta_read_block(const uint8_t *__restrict bytes, size_t length, uint16_t *__restrict codes, size_t places);

/* ---- Meters: low and high clipping over the 64 latest rows read, or all of them if fewer. */

#define FERGHULTA_METER_ROWS 64

/* A meter in 272 bytes, which the caller keeps: a read is given it and answers with the meter that the next read is to
 * be given. Read its fields freely, and let the calls change them; what it shows, ferghulta_meter_figures gives. The
 * counts of a row stand at the same place in `lows` and `highs`; the first row read is at place 0, and after place 63
 * comes place 0 again. Until 64 rows were read `place` is `rows`, and the counts from there on belong to no row and may
 * be anything. All zero is an empty meter. A value that no call gives (place above 63, rows neither 64 nor equal to
 * place, or a sum that is not the one of the first `rows` counts) is taken as an empty meter. */
typedef struct ferghulta_meter {
    uint16_t lows[FERGHULTA_METER_ROWS];  /* the low counts of the rows that it holds */
    uint32_t low;                         /* their sum */
    uint16_t highs[FERGHULTA_METER_ROWS]; /* the high counts of the same rows */
    uint32_t high;                        /* their sum */
    uint32_t place;                       /* where the next row's counts go, 0 to 63 */
    uint32_t rows;                        /* how many rows it holds, 0 to 64 */
} ferghulta_meter;

typedef struct ferghulta_metered_answer {
    ferghulta_meter meter;        /* which the next read is to be given */
    ferghulta_block_answer block; /* has the refusal */
} ferghulta_metered_answer;

/* An empty meter. */
FERGHULTA_MUST_USE static __inline ferghulta_meter ferghulta_empty_meter(void) {
    const ferghulta_meter empty = {{0}, 0, {0}, 0, 0, 0};
    return empty;
}

/* Reads a block as ferghulta_read_block does, with its answer, its codes and its refusals, and enters the row's clips
 * in the meter; of 64 rows the earliest goes. The counts of the other rows stay where they are, and where the meter is
 * taken as empty all counts but those at place 0 stay as they are. */
FERGHULTA_MUST_USE FERGHULTA_NONNULL ferghulta_metered_answer
ferghulta_read_metered(ferghulta_meter meter, const uint8_t *__restrict bytes, size_t length,
                       uint16_t *__restrict codes, size_t places);

/* The same on a meter in place, which is changed where the read is accepted. It returns the block's answer. */
FERGHULTA_MUST_USE FERGHULTA_NONNULL static __inline ferghulta_block_answer
ferghulta_read_metered_of(ferghulta_meter *__restrict meter, const uint8_t *__restrict bytes, size_t length,
                          uint16_t *__restrict codes, size_t places) {
    const ferghulta_metered_answer answer = ferghulta_read_metered(*meter, bytes, length, codes, places);
    *meter = answer.meter;
    return answer.block;
}

/* Low and high are over so many rows, the latest ones read: at most 64. */
typedef struct ferghulta_figures {
    uint32_t rows, low, high;
} ferghulta_figures;

/* What the meter shows; 0, 0 and 0 where it is taken as an empty one. No meter is refused. */
FERGHULTA_MUST_USE ferghulta_figures ferghulta_meter_figures(ferghulta_meter meter);

/* ---- Pictures. */

typedef struct ferghulta_total_answer {
    uint32_t refusal;
    uint32_t bytes;
} ferghulta_total_answer;

/* The bytes that the blocks of a picture will take, height * (9 + 6 * width): at most 199104480. Refused: 2, 3. */
FERGHULTA_MUST_USE ferghulta_total_answer ferghulta_total_bytes(uint32_t width, uint32_t height);

enum ferghulta_phase { FERGHULTA_FRESH = 0, FERGHULTA_OPEN = 1, FERGHULTA_CLOSED = 2 };

/* A picture in twelve bytes, which the caller keeps: a call is given it and answers with the picture that the next call
 * is to be given. Read its fields freely, and let the calls change them, but for rows in parallel (below). `bytes` are
 * rows * (9 + 6 * width) while it is open, and stay as they are when it is closed, until the next accepted open. While
 * it is not open the other fields are 0 but for the phase, and all zero is a fresh picture; of a picture that is not
 * open the calls read the phase alone. A value that no call gives (another phase, or open with a number out of its
 * range, with more rows than its height or with other bytes than its rows have) is not open: it is taken as fresh.
 *
 * Rows in parallel: a picture is a value, so each thread may have its own copy of an open one, set by ferghulta_at_row
 * to the number of the row that it sends next (with `rows` set alone it would not be open), and send it. Who joins the
 * threads sets the picture to the height and closes; that every row was sent is then for the caller to know. */
typedef struct ferghulta_picture {
    uint8_t phase, system;
    uint16_t width, height, rows; /* rows: how many were accepted since open */
    uint32_t bytes;               /* of the blocks accepted since the last accepted open */
} ferghulta_picture;

typedef struct ferghulta_picture_answer {
    uint32_t refusal;
    ferghulta_picture picture;
} ferghulta_picture_answer;

/* A fresh picture. */
FERGHULTA_MUST_USE ferghulta_picture ferghulta_new(void);

/* Opens a fresh or closed picture; no row is accepted yet, and its bytes are 0. Refused: 21, then 1, 2, 3. */
FERGHULTA_MUST_USE ferghulta_picture_answer
ferghulta_open(ferghulta_picture picture, uint32_t system, uint32_t width, uint32_t height);

/* Takes a row of `count` lights, R, G, B of each sample, and writes its block, numbered by the rows accepted before, to
 * the front of `out`, which has `room` bytes; what lies beyond stays. The words of the block are nominal. Refused: 22,
 * 23, then 4 (count not 3 * width), 5 (room below 9 + 6 * width). */
FERGHULTA_MUST_USE FERGHULTA_NONNULL ferghulta_picture_answer
ferghulta_row(ferghulta_picture picture, const uint16_t *__restrict lights, size_t count, uint8_t *__restrict out,
              size_t room);

/* Closes an open picture whose every row is accepted, and keeps its bytes. Refused: 22, then 24. */
FERGHULTA_MUST_USE ferghulta_picture_answer ferghulta_close(ferghulta_picture picture);

/* The copy of an open picture whose next row is number `rows`, with the bytes of as many rows. At the height it can be
 * closed. */
FERGHULTA_MUST_USE static __inline ferghulta_picture ferghulta_at_row(ferghulta_picture picture, uint16_t rows) {
    picture.rows = rows;
    picture.bytes = FERGHULTA_AS(uint32_t, rows * FERGHULTA_BLOCK_BYTES(picture.width));
    return picture;
}

/* ---- Open, row and close on a picture in place, which is changed where the call is accepted. They return the
 * refusal. */

FERGHULTA_MUST_USE FERGHULTA_NONNULL static __inline uint32_t
ferghulta_open_of(ferghulta_picture *picture, uint32_t system, uint32_t width, uint32_t height) {
    const ferghulta_picture_answer answer = ferghulta_open(*picture, system, width, height);
    *picture = answer.picture;
    return answer.refusal;
}

FERGHULTA_MUST_USE FERGHULTA_NONNULL static __inline uint32_t
ferghulta_row_of(ferghulta_picture *__restrict picture, const uint16_t *__restrict lights, size_t count,
                 uint8_t *__restrict out, size_t room) {
    const ferghulta_picture_answer answer = ferghulta_row(*picture, lights, count, out, room);
    *picture = answer.picture;
    return answer.refusal;
}

FERGHULTA_MUST_USE FERGHULTA_NONNULL static __inline uint32_t ferghulta_close_of(ferghulta_picture *picture) {
    const ferghulta_picture_answer answer = ferghulta_close(*picture);
    *picture = answer.picture;
    return answer.refusal;
}

/* ---- Picture readers: the blocks of a picture, read in turn. A reader is opened with the picture's height; the first
 * block is that of row 0, whose system and width are the picture's, and each later one has the next row number, that
 * system and that width. After `height` rows the reader is complete. */

enum ferghulta_reader_phase { FERGHULTA_UNOPENED = 0, FERGHULTA_READING = 1, FERGHULTA_COMPLETE = 2 };

/* A reader in eight bytes, which the caller keeps: a call is given it and answers with the reader that the next call is
 * to be given. Read its fields freely, and let the calls change them. While it is not reading all fields but the phase
 * are 0, and all zero is a reader that is not opened; of a reader that is not reading the calls read the phase alone. A
 * value that no call gives (another phase, or reading with a number out of its range, with a `next` that is not below
 * the height, or with some of system, width and `next` at 0 and not all) is taken as not opened. */
typedef struct ferghulta_reader {
    uint8_t phase, system;        /* system and width: of the first block accepted since opening, 0 before it */
    uint16_t width, height, next; /* next: the number of the row that is due, which is how many were accepted */
} ferghulta_reader;

typedef struct ferghulta_reader_answer {
    uint32_t refusal;
    ferghulta_reader reader;
} ferghulta_reader_answer;

typedef struct ferghulta_next_answer {
    ferghulta_reader reader;      /* which the next call is to be given */
    ferghulta_block_answer block; /* has the refusal */
} ferghulta_next_answer;

/* A reader that is not opened. */
FERGHULTA_MUST_USE ferghulta_reader ferghulta_new_reader(void);

/* Opens a reader, also one that is reading or complete: it starts anew, and row 0 is due. Refused: 3. */
FERGHULTA_MUST_USE ferghulta_reader_answer ferghulta_open_reader(ferghulta_reader reader, uint32_t height);

/* Reads the block of the row that is due as ferghulta_read_block does, with its answer and its codes. Refused: 36; then
 * what ferghulta_read_block refuses, in its order, 5 included; 34, 35. */
FERGHULTA_MUST_USE FERGHULTA_NONNULL ferghulta_next_answer
ferghulta_read_next(ferghulta_reader reader, const uint8_t *__restrict bytes, size_t length, uint16_t *__restrict codes,
                    size_t places);

/* ---- The same on a reader in place, which is changed where the call is accepted. Opening returns the refusal, and a
 * read returns the block's answer. */

FERGHULTA_MUST_USE FERGHULTA_NONNULL static __inline uint32_t ferghulta_open_reader_of(ferghulta_reader *reader,
                                                                                       uint32_t height) {
    const ferghulta_reader_answer answer = ferghulta_open_reader(*reader, height);
    *reader = answer.reader;
    return answer.refusal;
}

FERGHULTA_MUST_USE FERGHULTA_NONNULL static __inline ferghulta_block_answer
ferghulta_read_next_of(ferghulta_reader *__restrict reader, const uint8_t *__restrict bytes, size_t length,
                       uint16_t *__restrict codes, size_t places) {
    const ferghulta_next_answer answer = ferghulta_read_next(*reader, bytes, length, codes, places);
    *reader = answer.reader;
    return answer.block;
}

/* ---- Segmented frames: the 1080 equally long rows of a progressive picture, whatever bytes they are (its row blocks,
 * say), from one buffer to another. Active line a, 1 to 1080, is on total line 21 + (a - 1) / 2 if a is odd, and on
 * 584 + (a - 2) / 2 if it is even; the segmented buffer has the rows in rising total line, the odd lines and then the
 * even ones. Each call undoes the other. Both return the refusal itself: 31 where a length is 0, no multiple of 1080,
 * or unlike the other; then nothing is written. */

#define FERGHULTA_SEGMENTED_LINES 1080

/* From top to bottom into segmented order. */
FERGHULTA_MUST_USE FERGHULTA_NONNULL uint32_t ferghulta_to_segmented(const uint8_t *__restrict progressive,
                                                                     size_t length, uint8_t *__restrict segmented,
                                                                     size_t room);

/* And back. */
FERGHULTA_MUST_USE FERGHULTA_NONNULL uint32_t ferghulta_to_progressive(const uint8_t *__restrict segmented,
                                                                       size_t length, uint8_t *__restrict progressive,
                                                                       size_t room);

/* ---- Depth change: a block of one depth of a Recommendation becomes the block of its other depth, 1 and 2 being those
 * of BT.709, 3 and 4 those of BT.2020. Upward a word is multiplied by 4; downward it is divided by 4 and rounded,
 * halves up. Upward and then downward gives the first block back, byte for byte. */

/* Writes the block that the `length` bytes are, in the system `target`, to the front of `out`, which has `room` bytes;
 * what lies beyond stays. The block written is as long, with the same row number and counts. It returns the refusal
 * itself; then nothing is written. Refused: 1 (target not 1 to 4), before the block is looked at; then what
 * ferghulta_read_block refuses, in its order, up to 6; 32; 33 (a word of the result is a timing code: downward, a word
 * from 1018 in system 2 and from 4078 in system 4, and upward none); 5 (room below length). */
FERGHULTA_MUST_USE FERGHULTA_NONNULL uint32_t ferghulta_change_depth(uint32_t target, const uint8_t *__restrict block,
                                                                     size_t length, uint8_t *__restrict out,
                                                                     size_t room);

#ifdef __cplusplus
}
#endif

/* The layout that the archive has, in a form that C89 and C++98 know: the array's length is -1 where it is another one,
 * as with packed structs. Where an answer is 2 bytes longer than its fields, those come last and have no value: compare
 * answers field by field. */
#define FERGHULTA_LAYOUT(type, bytes) typedef char type##_has_##bytes##_bytes[sizeof(type) == (bytes) ? 1 : -1]
FERGHULTA_LAYOUT(ferghulta_code_answer, 8);            /* 4 + 2 + 2 */
FERGHULTA_LAYOUT(ferghulta_span_answer, 8);            /* 4 + 4 */
FERGHULTA_LAYOUT(ferghulta_codes_answer, 12);          /* 4 + 6 + 2 */
FERGHULTA_LAYOUT(ferghulta_words_answer, 16);          /* 4 + 4 + 6 + 2 */
FERGHULTA_LAYOUT(ferghulta_signals_answer, 16);        /* 4 + 12 */
FERGHULTA_LAYOUT(ferghulta_clips, 4);                  /* 2 + 2 */
FERGHULTA_LAYOUT(ferghulta_decoded_answer, 16);        /* 4 + 4 + 6 + 2 */
FERGHULTA_LAYOUT(ferghulta_constant_words_answer, 12); /* 4 + 6 + 2 */
FERGHULTA_LAYOUT(ferghulta_constant_codes_answer, 12); /* 4 + 4 + 4 */
FERGHULTA_LAYOUT(ferghulta_level_answer, 12);          /* 4 + 8 */
FERGHULTA_LAYOUT(ferghulta_block_answer, 16);          /* 4 + 4 + 4 + 4 */
FERGHULTA_LAYOUT(ferghulta_meter, 272);                /* 128 + 4 + 128 + 4 + 4 + 4 */
FERGHULTA_LAYOUT(ferghulta_metered_answer, 288);       /* 272 + 16 */
FERGHULTA_LAYOUT(ferghulta_figures, 12);               /* 4 + 4 + 4 */
FERGHULTA_LAYOUT(ferghulta_total_answer, 8);           /* 4 + 4 */
FERGHULTA_LAYOUT(ferghulta_picture, 12);               /* 2 + 6 + 4 */
FERGHULTA_LAYOUT(ferghulta_picture_answer, 16);        /* 4 + 12 */
FERGHULTA_LAYOUT(ferghulta_reader, 8);                 /* 2 + 6 */
FERGHULTA_LAYOUT(ferghulta_reader_answer, 12);         /* 4 + 8 */
FERGHULTA_LAYOUT(ferghulta_next_answer, 24);           /* 8 + 16 */
#undef FERGHULTA_LAYOUT

#endif
