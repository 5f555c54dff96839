/* Wrong libraries, to see that the comparison reports each: MUTANT in the environment says which one answer is made wrong.
 * The calls of the library itself have the prefix right_. */
#include "ferghulta.h"
#include <stdlib.h>
#include <string.h>

ferghulta_code_answer right_ferghulta_code_of_light(uint32_t, uint16_t);
ferghulta_span_answer right_ferghulta_span_of_code(uint32_t, uint16_t);
ferghulta_codes_answer right_ferghulta_codes_of_signals(uint32_t, ferghulta_signals);
ferghulta_signals_answer right_ferghulta_signals_of_codes(uint32_t, ferghulta_codes);
ferghulta_words_answer right_ferghulta_words_of_codes(uint32_t, ferghulta_codes);
ferghulta_words_answer right_ferghulta_trimmed_words_of_codes(uint32_t, ferghulta_codes);
ferghulta_decoded_answer right_ferghulta_codes_of_words(uint32_t, ferghulta_words);
ferghulta_constant_words_answer right_ferghulta_constant_words_of_lights(uint32_t, ferghulta_lights);
ferghulta_constant_codes_answer right_ferghulta_constant_codes_of_words(uint32_t, ferghulta_words);
ferghulta_level_answer right_ferghulta_level_of_code(uint32_t, uint16_t);
ferghulta_level_answer right_ferghulta_level_of_difference(uint32_t, uint16_t);
ferghulta_block_answer right_ferghulta_read_block(const uint8_t *, size_t, uint16_t *, size_t);
ferghulta_metered_answer right_ferghulta_read_metered(ferghulta_meter, const uint8_t *, size_t, uint16_t *, size_t);
ferghulta_figures right_ferghulta_meter_figures(ferghulta_meter);
ferghulta_total_answer right_ferghulta_total_bytes(uint32_t, uint32_t);
ferghulta_picture right_ferghulta_new(void);
ferghulta_picture_answer right_ferghulta_open(ferghulta_picture, uint32_t, uint32_t, uint32_t);
ferghulta_picture_answer right_ferghulta_row(ferghulta_picture, const uint16_t *, size_t, uint8_t *, size_t);
ferghulta_picture_answer right_ferghulta_close(ferghulta_picture);
uint32_t right_ferghulta_to_segmented(const uint8_t *, size_t, uint8_t *, size_t);
uint32_t right_ferghulta_to_progressive(const uint8_t *, size_t, uint8_t *, size_t);
uint32_t right_ferghulta_change_depth(uint32_t, const uint8_t *, size_t, uint8_t *, size_t);
ferghulta_reader right_ferghulta_new_reader(void);
ferghulta_reader_answer right_ferghulta_open_reader(ferghulta_reader, uint32_t);
ferghulta_next_answer right_ferghulta_read_next(ferghulta_reader, const uint8_t *, size_t, uint16_t *, size_t);

static volatile uint8_t kept;

static int chosen_mutant(void)
{
    static int chosen = -1;
    if (chosen < 0)
        chosen = atoi(getenv("MUTANT"));
    return chosen;
}

static int mutant(int number)
{
    return chosen_mutant() == number;
}

/* ---- systems 5 and 6 in the calls that refuse them: each of these takes 5 for 3, and so many numbers later 6 for 4 */

enum { TAKES_SIX = 112 };
enum { IN_CODE_OF_LIGHT = 353, IN_SPAN, IN_CODES_OF_SIGNALS, IN_SIGNALS_OF_CODES, IN_WORDS_OF_CODES, IN_TRIMMED_WORDS,
    IN_CODES_OF_WORDS, IN_LEVEL_OF_CODE, IN_LEVEL_OF_DIFFERENCE, IN_OPEN, IN_ROW, IN_CLOSE, IN_READ_BLOCK, IN_READ_METERED,
    IN_TARGET, IN_CHANGED_BLOCK, IN_NEXT_BLOCK, IN_READER };

static int is_constant(uint32_t system)
{
    return system == FERGHULTA_BT2020_10_CONSTANT || system == FERGHULTA_BT2020_12_CONSTANT;
}

static uint32_t system_in(int call, uint32_t system)
{
    int five = mutant(call) && system == FERGHULTA_BT2020_10_CONSTANT;
    int six = mutant(call + TAKES_SIX) && system == FERGHULTA_BT2020_12_CONSTANT;
    return five || six ? system - 2 : system;
}

/* The block, or a copy with the other system where it is taken for that. */
static const uint8_t *block_in(int call, const uint8_t *bytes, size_t length)
{
    static uint8_t copy[FERGHULTA_BLOCK_BYTES(FERGHULTA_MOST_SAMPLES) + 64];
    if (length == 0 || length > sizeof copy || system_in(call, bytes[0]) == bytes[0])
        return bytes;
    memcpy(copy, bytes, length);
    copy[0] = (uint8_t)system_in(call, bytes[0]);
    return copy;
}

static ferghulta_picture picture_in(int call, ferghulta_picture picture)
{
    picture.system = (uint8_t)system_in(call, picture.system);
    return picture;
}

/* The picture of the answer has the system that was given, where it has one. */
static ferghulta_picture_answer given_system(int call, ferghulta_picture picture, ferghulta_picture_answer answer)
{
    if (system_in(call, picture.system) != picture.system && answer.picture.system != 0)
        answer.picture.system = picture.system;
    return answer;
}

ferghulta_code_answer ferghulta_code_of_light(uint32_t system, uint16_t light)
{
    system = system_in(IN_CODE_OF_LIGHT, system);
    ferghulta_code_answer answer = right_ferghulta_code_of_light(mutant(1) && system == 0x104 ? 4 : system, light);
    if (mutant(2) && answer.refusal != 0)
        answer.code = 16; /* not 0 on refusal */
    return answer;
}

/* ---- the ranges of request 2026-03 */

static int scale(uint32_t system)
{
    return system == 1 ? 1 : system == 4 ? 16 : 4;
}

static int is_system(uint32_t system)
{
    return 1 <= system && system <= 4;
}

static int is_within(int number, int low, int high)
{
    return low <= number && number <= high;
}

static int is_video_data(uint32_t system, uint16_t code)
{
    return is_within(code, scale(system), 255 * scale(system) - 1);
}

/* The nearest end of the nominal R', G', B' range where a code is beyond it. */
static uint16_t nominal(uint32_t system, uint16_t code)
{
    int low = 16 * scale(system), high = 235 * scale(system);
    return (uint16_t)(code < low ? low : code > high ? high : code);
}

static int are_nominal_codes(uint32_t system, ferghulta_codes codes)
{
    return nominal(system, codes.r) == codes.r && nominal(system, codes.g) == codes.g && nominal(system, codes.b) == codes.b;
}

static int are_nominal_words(uint32_t system, ferghulta_words words)
{
    int s = scale(system);
    return is_within(words.y, 16 * s, 235 * s) && is_within(words.cb, 16 * s, 240 * s) && is_within(words.cr, 16 * s, 240 * s);
}

/* ---- lights and signals */

ferghulta_span_answer ferghulta_span_of_code(uint32_t system, uint16_t code)
{
    system = system_in(IN_SPAN, system);
    int widened = mutant(27) && is_system(system) && is_video_data(system, code); /* to video data */
    ferghulta_span_answer answer = right_ferghulta_span_of_code(system, widened ? nominal(system, code) : code);
    if (mutant(3) && answer.refusal == 0 && answer.span.greatest == 65535)
        answer.span.greatest = 65534;
    return answer;
}

ferghulta_codes_answer ferghulta_codes_of_signals(uint32_t system, ferghulta_signals signals)
{
    ferghulta_codes_answer answer = right_ferghulta_codes_of_signals(system_in(IN_CODES_OF_SIGNALS, system), signals);
    if (mutant(4) && system == 2 && signals.g == 0.375f && answer.refusal == 0)
        answer.codes.g = 392; /* halves to even */
    if (mutant(5) && system == 0 && signals.r != signals.r)
        answer.refusal = 7; /* the signal before the system */
    return answer;
}

ferghulta_signals_answer ferghulta_signals_of_codes(uint32_t system, ferghulta_codes codes)
{
    if (mutant(28) && is_system(system) && is_video_data(system, codes.g))
        codes.g = nominal(system, codes.g); /* widened to video data */
    ferghulta_signals_answer answer = right_ferghulta_signals_of_codes(system_in(IN_SIGNALS_OF_CODES, system), codes);
    if (mutant(6) && answer.signals.b == 0 && answer.refusal == 0)
        answer.signals.b = -0.0f;
    return answer;
}

/* ---- words */

static int64_t luma_of(uint32_t system, ferghulta_codes codes)
{
    return system <= 2 ? 2126 * codes.r + 7152 * codes.g + 722 * codes.b : 2627 * codes.r + 6780 * codes.g + 593 * codes.b;
}

/* Cb or Cr of a primary with this weight, before a rule acts. */
static int64_t difference_before(uint32_t system, ferghulta_codes codes, int64_t primary, int64_t weight)
{
    int64_t under = 438 * (10000 - weight), middle = 128 * scale(system);
    int64_t twice = 2 * (10000 * primary - luma_of(system, codes)) * 224 + under;
    return middle + twice / (2 * under) - (twice % (2 * under) < 0);
}

/* What a wrong rule makes of Cb or Cr. The guard never acts on Y', a mean of its codes. */
static void spoil_difference(uint32_t system, int trim, int64_t before, uint16_t *word, uint32_t *moved)
{
    int s = scale(system), first = s, last = 255 * s - 1, top = 240 * s;
    int below = before < first, above = before > last;
    if (mutant(29) && trim && (below || above))
        *word = (uint16_t)(below ? first : last); /* the guard before trim */
    if (mutant(30) && trim && (below || above))
        *moved += 1; /* the guard and then trim, each counted */
    if (mutant(31) && before < 0)
        *word = (uint16_t)(trim ? top : last); /* a word below 0 wraps and is above every range */
    if (mutant(32) && !trim && above) { /* the guard at 255s */
        *word = (uint16_t)(255 * s);
        *moved -= before == 255 * s;
    }
    if (mutant(33) && !trim && below) { /* the guard at 0 */
        *word = (uint16_t)(before < 0 ? 0 : before);
        *moved -= before >= 0;
    }
    if (mutant(34) && trim && before > 235 * s) { /* trim to the end of Y' */
        *word = (uint16_t)(235 * s);
        *moved += before <= top;
    }
    if (mutant(44))
        *moved -= below || above; /* a word beyond video data is not counted */
    if (mutant(45) && trim && below)
        *word = (uint16_t)first; /* trim before the guard above video data alone */
}

static ferghulta_words_answer spoilt(uint32_t system, int trim, ferghulta_codes codes, ferghulta_words_answer answer)
{
    if (answer.refusal != 0)
        return answer;
    int64_t cb = difference_before(system, codes, codes.b, system <= 2 ? 722 : 593);
    int64_t cr = difference_before(system, codes, codes.r, system <= 2 ? 2126 : 2627);
    spoil_difference(system, trim, cb, &answer.words.cb, &answer.moved);
    spoil_difference(system, trim, cr, &answer.words.cr, &answer.moved);
    if (mutant(35))
        answer.moved = 0;
    if (mutant(36) && answer.moved > 1)
        answer.moved = 1; /* whether, not how many */
    return answer;
}

ferghulta_words_answer ferghulta_words_of_codes(uint32_t system, ferghulta_codes codes)
{
    if (mutant(37))
        return right_ferghulta_trimmed_words_of_codes(system, codes); /* trim unasked */
    system = system_in(IN_WORDS_OF_CODES, system);
    ferghulta_words_answer answer = right_ferghulta_words_of_codes(system, codes);
    if (mutant(7) && system == 2 && answer.refusal == 0 && luma_of(system, codes) % 10000 == 5000)
        answer.words.y--; /* halves down */
    if (mutant(38) && answer.refusal == 0 && !are_nominal_codes(system, codes))
        return (ferghulta_words_answer){ .refusal = 6 }; /* at nominal */
    return spoilt(system, 0, codes, answer);
}

ferghulta_words_answer ferghulta_trimmed_words_of_codes(uint32_t system, ferghulta_codes codes)
{
    if (mutant(39))
        return right_ferghulta_words_of_codes(system, codes); /* trim left out */
    system = system_in(IN_TRIMMED_WORDS, system);
    return spoilt(system, 1, codes, right_ferghulta_trimmed_words_of_codes(system, codes));
}

/* ---- levels; zero and range are multiples of s */

static ferghulta_level_answer level_by(uint32_t system, int code, int zero, int range, ferghulta_level_answer answer)
{
    int over = 700 * (code - zero * scale(system)), under = range * scale(system);
    int remainder = (over % under + under) % under;
    if (answer.refusal == 0)
        answer.level = (ferghulta_level){ (over - remainder) / under, (uint32_t)remainder };
    return answer;
}

static ferghulta_level_answer spoilt_level(uint32_t system, int code, int zero, int range, ferghulta_level_answer answer)
{
    int over = 700 * (code - zero * scale(system)), under = range * scale(system);
    if (mutant(46) && answer.refusal == 0)
        answer.level.millivolts = over / under; /* toward zero */
    if (mutant(47) && answer.refusal == 0)
        answer.level.remainder = (uint32_t)abs(over % under); /* that of rounding toward zero, without its sign */
    if (mutant(48))
        answer.level.remainder = 0;
    if (mutant(49) && answer.refusal == 1 && code == 0)
        answer.refusal = 6; /* the code before the system */
    return answer;
}

ferghulta_level_answer ferghulta_level_of_code(uint32_t system, uint16_t code)
{
    system = system_in(IN_LEVEL_OF_CODE, system);
    ferghulta_level_answer answer = right_ferghulta_level_of_code(system, code);
    if (mutant(50))
        return level_by(system, code, 16, 224, answer); /* the range of Cb and Cr */
    if (mutant(51))
        return level_by(system, code, 128, 219, answer); /* their zero */
    if (mutant(52) && answer.refusal == 0 && nominal(system, code) != code)
        return (ferghulta_level_answer){ .refusal = 6 }; /* at nominal */
    return spoilt_level(system, code, 16, 219, answer);
}

ferghulta_level_answer ferghulta_level_of_difference(uint32_t system, uint16_t word)
{
    system = system_in(IN_LEVEL_OF_DIFFERENCE, system);
    ferghulta_level_answer answer = right_ferghulta_level_of_difference(system, word);
    if (mutant(53))
        return level_by(system, word, 128, 219, answer); /* the range of Y' */
    if (mutant(54))
        return level_by(system, word, 16, 224, answer); /* its zero */
    if (mutant(55) && answer.refusal == 0 && !is_within(word, 16 * scale(system), 240 * scale(system)))
        return (ferghulta_level_answer){ .refusal = 6 }; /* at nominal */
    return spoilt_level(system, word, 128, 224, answer);
}

/* ---- codes and blocks */

/* Clips so many codes to nominal; answers how many are beyond it. */
static ferghulta_clips clip_to_nominal(uint32_t system, uint16_t *codes, size_t count)
{
    ferghulta_clips clips = { 0, 0 };
    for (size_t j = 0; j < count; j++) {
        clips.low += codes[j] < nominal(system, codes[j]);
        clips.high += codes[j] > nominal(system, codes[j]);
        codes[j] = nominal(system, codes[j]);
    }
    return clips;
}

static uint16_t how_many(const uint16_t *codes, size_t count, int code)
{
    uint16_t found = 0;
    for (size_t j = 0; j < count; j++)
        found += codes[j] == code;
    return found;
}

/* The first of the nine below that are of a triple, and the first of those that are of a row. */
enum { OF_TRIPLE = 69, OF_ROW = 78 };

/* Wrong counts; the codes are the right ones. */
static ferghulta_clips spoilt_clips(int first, uint32_t system, ferghulta_clips clips, const uint16_t *codes, size_t count)
{
    uint16_t total = clips.low + clips.high;
    if (mutant(first))
        return (ferghulta_clips){ clips.high, clips.low }; /* exchanged */
    if (mutant(first + 1))
        clips.high = 0; /* lost */
    if (mutant(first + 2))
        return (ferghulta_clips){ total, 0 }; /* the total as low */
    if (mutant(first + 3))
        return (ferghulta_clips){ total, total }; /* the total as both */
    if (mutant(first + 4))
        clips.low = how_many(codes, count, scale(system)); /* on the lower end too */
    if (mutant(first + 5))
        clips.high = how_many(codes, count, 255 * scale(system) - 1); /* on the upper end too */
    if (mutant(first + 6))
        clips.low += clips.low > 0; /* one of them twice */
    if (mutant(first + 7))
        clips.high += clips.high > 0; /* one of them twice */
    if (mutant(first + 8) && clips.low > 0)
        clips.high = 0; /* one side alone */
    return clips;
}

ferghulta_decoded_answer ferghulta_codes_of_words(uint32_t system, ferghulta_words words)
{
    static ferghulta_clips last;
    system = system_in(IN_CODES_OF_WORDS, system);
    ferghulta_decoded_answer answer = right_ferghulta_codes_of_words(system, words);
    uint16_t codes[] = { answer.codes.r, answer.codes.g, answer.codes.b };
    if (mutant(88) && answer.refusal != 0)
        answer.clips = last; /* those of the call before stay */
    if (answer.refusal != 0)
        return answer;
    last = answer.clips;
    if (mutant(8) && answer.clips.low == 2)
        answer.clips.low = 1;
    if (mutant(40) && !are_nominal_words(system, words))
        return (ferghulta_decoded_answer){ .refusal = 6 }; /* at nominal */
    if (mutant(41)) {
        answer.clips = clip_to_nominal(system, codes, 3);
        answer.codes = (ferghulta_codes){ codes[0], codes[1], codes[2] };
    }
    if (mutant(87) && answer.clips.low + answer.clips.high == 3)
        answer.clips.high--; /* two at most */
    answer.clips = spoilt_clips(OF_TRIPLE, system, answer.clips, codes, 3);
    return answer;
}

static uint16_t word_at(const uint8_t *bytes, size_t place)
{
    return (uint16_t)(bytes[place] | bytes[place + 1] << 8);
}

static ferghulta_words words_at(const uint8_t *bytes, size_t samples, size_t j)
{
    const uint8_t *at = bytes + 5 + 2 * j;
    return (ferghulta_words){ word_at(at, 0), word_at(at, 2 + 2 * samples), word_at(at, 4 + 4 * samples) };
}

static int has_nominal_words(const uint8_t *bytes, size_t samples)
{
    int all = 1;
    for (size_t j = 0; j < samples; j++)
        all &= are_nominal_words(bytes[0], words_at(bytes, samples, j));
    return all;
}

/* The sums over the first samples of a block whose words are accepted. */
static ferghulta_clips sums_of(const uint8_t *bytes, size_t samples, size_t summed)
{
    ferghulta_clips sums = { 0, 0 };
    for (size_t j = 0; j < summed; j++) {
        ferghulta_clips clips = right_ferghulta_codes_of_words(bytes[0], words_at(bytes, samples, j)).clips;
        sums.low += clips.low;
        sums.high += clips.high;
    }
    return sums;
}

/* Wrong sums of a row's samples. */
static ferghulta_clips spoilt_sums(const uint8_t *bytes, size_t samples, ferghulta_clips sums)
{
    if (mutant(90))
        return sums_of(bytes, samples, samples / 3); /* the first third */
    if (mutant(91))
        sums.low %= 256;
    if (mutant(92))
        sums.high %= 256;
    if (mutant(93))
        sums.low %= 8192; /* wrong in a row that is all low */
    if (mutant(94))
        sums.high %= 8192; /* wrong in a row that is all high */
    if (mutant(95) && sums.low + sums.high == 3 * FERGHULTA_MOST_SAMPLES)
        sums.low--; /* wrong in a row that is all clipped */
    return sums;
}

/* Reads into other memory, so that a refused block leaves the lent codes. */
static ferghulta_block_answer read_nominal(const uint8_t *bytes, size_t length, uint16_t *codes, size_t places)
{
    static uint16_t read[3 * FERGHULTA_MOST_SAMPLES];
    size_t most = sizeof read / sizeof *read;
    ferghulta_block_answer answer = right_ferghulta_read_block(bytes, length, read, places < most ? places : most);
    if (answer.refusal == 0 && !has_nominal_words(bytes, answer.samples))
        return (ferghulta_block_answer){ .refusal = 6 };
    memcpy(codes, read, 3 * (size_t)answer.samples * sizeof *codes);
    return answer;
}

ferghulta_block_answer ferghulta_read_block(const uint8_t *bytes, size_t length, uint16_t *codes, size_t places)
{
    if (mutant(42))
        return read_nominal(bytes, length, codes, places); /* 6 at nominal */
    bytes = block_in(IN_READ_BLOCK, bytes, length);
    ferghulta_block_answer answer = right_ferghulta_read_block(bytes, length, codes, places);
    size_t written = 3 * (size_t)answer.samples;
    if (mutant(9) && answer.refusal == 0 && places > written)
        codes[written] = 0; /* beyond the part written */
    if (mutant(10) && answer.refusal == 6 && places < (size_t)3 * bytes[3])
        answer.refusal = 5; /* the room before the words */
    if (mutant(11) && answer.refusal == 10)
        answer.row = (uint16_t)(bytes[1] | bytes[2] << 8); /* not 0 on refusal */
    if (mutant(12) && answer.refusal == 5 && places > 0)
        codes[0] = 0; /* written before it was refused */
    if (mutant(13) && answer.refusal == 0 && answer.samples == 7680)
        answer.clips = (ferghulta_clips){ 0, 0 };
    if (mutant(14))
        kept = bytes[length]; /* read behind the block */
    if (mutant(43) && answer.refusal == 0)
        answer.clips = clip_to_nominal(answer.system, codes, written);
    if (mutant(89) && answer.refusal == 5)
        answer.clips = sums_of(bytes, word_at(bytes, 3), word_at(bytes, 3)); /* not 0 on refusal */
    if (answer.refusal == 0) {
        answer.clips = spoilt_sums(bytes, answer.samples, answer.clips);
        answer.clips = spoilt_clips(OF_ROW, answer.system, answer.clips, codes, written);
    }
    return answer;
}

/* ---- meters */

enum { ROWS = FERGHULTA_METER_ROWS };

static uint32_t sum_of(const uint16_t *counts, size_t first, size_t behind)
{
    uint32_t sum = 0;
    for (size_t at = first; at < behind && at < ROWS; at++)
        sum += counts[at];
    return sum;
}

static ferghulta_meter with_sums(ferghulta_meter meter)
{
    meter.low = sum_of(meter.lows, 0, meter.rows);
    meter.high = sum_of(meter.highs, 0, meter.rows);
    return meter;
}

/* Whether the parts of a meter agree. */
static int is_whole(ferghulta_meter meter)
{
    ferghulta_meter summed = with_sums(meter);
    int has_rows = meter.place < ROWS && (meter.rows == ROWS || meter.rows == meter.place);
    return has_rows && meter.low == summed.low && meter.high == summed.high;
}

/* The first of the ten below that are of a read, and the first of those that are of figures. */
enum { OF_READ = 96, OF_FIGURES = 106 };

/* With one part not looked at. */
static ferghulta_meter overlooked(int first, ferghulta_meter meter)
{
    ferghulta_meter summed = with_sums(meter);
    uint32_t low = sum_of(meter.lows, 0, ROWS), high = sum_of(meter.highs, 0, ROWS);
    if (mutant(first))
        meter.place %= ROWS;
    if (mutant(first + 1) && meter.rows > ROWS)
        meter.rows = ROWS;
    if (mutant(first + 2) && meter.rows < ROWS && meter.place < ROWS)
        meter.place = meter.rows;
    if (mutant(first + 3))
        meter.low = summed.low;
    if (mutant(first + 4))
        meter.high = summed.high;
    if (mutant(first + 5) && meter.low + meter.high == summed.low + summed.high)
        return summed; /* the total alone is looked at */
    if (mutant(first + 6) && meter.low % 65536 == summed.low % 65536 && meter.high % 65536 == summed.high % 65536)
        return summed; /* the low halves alone are */
    if (mutant(first + 7) && meter.low == low && meter.high == high)
        return summed; /* sums of all 64 counts will do */
    return meter;
}

static int has_count_above(const ferghulta_meter *meter, int most)
{
    int found = 0;
    for (size_t at = 0; at < meter->rows; at++)
        found |= meter->lows[at] > most || meter->highs[at] > most;
    return found;
}

/* Whether too much is asked of a meter whose parts agree: that no count stands behind the rows, or counts that rows can have. */
static int looks_amiss(int first, const ferghulta_meter *meter)
{
    int has_more = sum_of(meter->lows, meter->rows, ROWS) + sum_of(meter->highs, meter->rows, ROWS) > 0;
    return (mutant(first + 8) && has_more) || (mutant(first + 9) && has_count_above(meter, 3 * FERGHULTA_MOST_SAMPLES));
}

/* What a meter is taken for where its parts are looked at wrongly. */
static ferghulta_meter taken_meter(int first, ferghulta_meter given)
{
    ferghulta_meter meter = overlooked(first, given);
    if (!is_whole(meter))
        return given;
    if (looks_amiss(first, &meter))
        meter.place = ROWS;
    return meter;
}

/* Wrong sums after a row has come in at a place and one with these counts has gone. */
static void spoil_sums(ferghulta_meter *after, ferghulta_clips gone, size_t at)
{
    if (mutant(116) && after->rows == ROWS) { /* 63 rows */
        after->rows = ROWS - 1;
        after->low -= after->lows[after->place];
        after->high -= after->highs[after->place];
    }
    if (mutant(117) || mutant(118) || (mutant(119) && at == ROWS - 1)) { /* 65 rows; no row goes; none goes from the last place */
        after->rows += mutant(117) && after->rows == ROWS;
        after->low += gone.low;
        after->high += gone.high;
    }
    if (mutant(120)) { /* exchanged */
        uint32_t low = after->low;
        after->low = after->high;
        after->high = low;
    }
    if (mutant(121))
        after->low %= 65536;
    if (mutant(122))
        after->low %= 1 << 19; /* wrong in rows that are all low */
    if (mutant(123))
        after->high %= 1 << 19; /* wrong in rows that are all high */
    if (mutant(124))
        after->high %= 1 << 21; /* wrong with counts that no row has */
    if (mutant(125)) { /* what stands behind the rows is counted */
        after->low = sum_of(after->lows, 0, ROWS);
        after->high = sum_of(after->highs, 0, ROWS);
    }
}

/* Wrong counts, place or rows after a row has come in at a place; before, the meter was full or not. */
static void spoil_rows(ferghulta_meter *after, ferghulta_clips clips, ferghulta_clips gone, size_t at, int was_full)
{
    if (mutant(126))
        after->place = (uint32_t)at; /* the newest row is overwritten */
    if (mutant(127))
        after->highs[at] = clips.low; /* low entered as high */
    if (mutant(128)) { /* exchanged */
        after->lows[at] = clips.high;
        after->highs[at] = clips.low;
    }
    if (mutant(129) || (mutant(130) && was_full)) { /* the sums alone are kept; after 64 rows they alone are */
        after->lows[at] = gone.low;
        after->highs[at] = gone.high;
    }
    if (mutant(131))
        after->rows += was_full; /* not stopped at 64 */
    if (mutant(132))
        after->place %= ROWS - 1; /* place 63 is left out */
    if (mutant(133) && after->place == 0)
        after->place = ROWS; /* there is a place 64 */
    if (mutant(134) && was_full)
        after->lows[after->place] = 0; /* the count that goes next is lost */
    if (mutant(135) && after->rows < ROWS)
        after->highs[after->place] = 0; /* a count behind the rows is cleared */
}

/* A meter that was taken as an empty one, made wrong. */
static void spoil_begun(ferghulta_meter given, ferghulta_clips clips, ferghulta_meter *after)
{
    size_t at = given.place % ROWS;
    if (mutant(136)) { /* the other counts are cleared */
        *after = ferghulta_empty_meter();
        after->lows[0] = clips.low;
        after->highs[0] = clips.high;
        after->low = clips.low;
        after->high = clips.high;
        after->place = after->rows = 1;
    }
    if (mutant(137)) { /* the row stands where the next one would have stood */
        after->lows[0] = given.lows[0];
        after->lows[at] = clips.low;
    }
    if (mutant(138))
        after->low += given.low; /* added */
    if (mutant(139))
        after->place = (uint32_t)(at + 1) % ROWS; /* goes on */
    if (mutant(140))
        after->rows = given.rows < ROWS ? given.rows + 1 : ROWS; /* goes on */
}

static void spoil_accepted(ferghulta_meter taken, ferghulta_clips clips, ferghulta_meter *after)
{
    int whole = is_whole(taken), was_full = whole && taken.rows == ROWS;
    size_t at = whole ? taken.place : 0;
    ferghulta_clips before = { taken.lows[at], taken.highs[at] }, none = { 0, 0 };
    spoil_sums(after, was_full ? before : none, at);
    spoil_rows(after, clips, before, at, was_full);
    if (!whole)
        spoil_begun(taken, clips, after);
}

/* The meter that a refused read gives, made wrong. */
static void spoil_refused(const uint8_t *bytes, size_t length, uint32_t refusal, ferghulta_meter *meter)
{
    static uint16_t read[3 * FERGHULTA_MOST_SAMPLES];
    if (mutant(141) && is_whole(*meter)) { /* a row without clips is entered, where the parts agree */
        meter->rows += meter->rows < ROWS;
        meter->place = (meter->place + 1) % ROWS;
    }
    if (mutant(142) && refusal == 5) /* the row is entered before it is refused */
        *meter = right_ferghulta_read_metered(*meter, bytes, length, read, sizeof read / sizeof *read).meter;
    if (mutant(143))
        *meter = ferghulta_empty_meter();
    if (mutant(144))
        meter->high = 0;
    if (mutant(145) && !is_whole(*meter))
        *meter = ferghulta_empty_meter(); /* what a meter is taken for comes back */
    if (mutant(146) && meter->rows < ROWS)
        meter->lows[ROWS - 1] = 0; /* a count behind the rows is cleared */
}

/* The block's answer of a metered read, made wrong. */
static void spoil_block(ferghulta_meter meter, const uint8_t *bytes, size_t places, ferghulta_block_answer *block)
{
    int accepted = block->refusal == 0;
    if (mutant(147))
        block->clips = (ferghulta_clips){ 0, 0 }; /* lost */
    if (mutant(148))
        block->clips = (ferghulta_clips){ block->clips.high, block->clips.low }; /* exchanged */
    if (mutant(149) && accepted)
        block->row = (uint16_t)meter.rows; /* numbered by the meter */
    if (mutant(150) && block->refusal == 6 && places < (size_t)3 * bytes[3])
        block->refusal = 5; /* the room before the words */
    if (mutant(151) && accepted && !is_whole(meter))
        *block = (ferghulta_block_answer){ .refusal = 22 }; /* a meter whose parts do not agree is refused */
    if (mutant(152) && block->refusal == 10)
        block->row = word_at(bytes, 1); /* not 0 on refusal */
}

/* The codes of a metered read, made wrong. */
static void spoil_codes(ferghulta_block_answer block, uint16_t *codes, size_t places)
{
    size_t written = 3 * (size_t)block.samples;
    if (mutant(153) && block.refusal == 5 && places > 0)
        codes[0] = 0; /* written before it was refused */
    if (mutant(154) && block.refusal == 0 && places > written)
        codes[written] = 0; /* beyond the part written */
}

ferghulta_metered_answer ferghulta_read_metered(
    ferghulta_meter meter, const uint8_t *bytes, size_t length, uint16_t *codes, size_t places)
{
    static uint16_t others[3 * FERGHULTA_MOST_SAMPLES + 9];
    static ferghulta_meter last;
    if (mutant(167))
        meter = last; /* the one that the call before gave, whatever is given */
    bytes = block_in(IN_READ_METERED, bytes, length);
    ferghulta_meter taken = taken_meter(OF_READ, meter);
    ferghulta_metered_answer answer =
        right_ferghulta_read_metered(taken, bytes, length, mutant(156) ? others : codes, places); /* codes are left unwritten */
    if (answer.block.refusal == 0) {
        answer.meter.low += meter.low - taken.low;
        answer.meter.high += meter.high - taken.high;
        spoil_accepted(taken, answer.block.clips, &answer.meter);
    } else {
        answer.meter = meter;
        spoil_refused(bytes, length, answer.block.refusal, &answer.meter);
    }
    spoil_codes(answer.block, codes, places);
    spoil_block(meter, bytes, places, &answer.block);
    if (mutant(155))
        kept = bytes[length]; /* read behind the block */
    last = answer.meter;
    return answer;
}

ferghulta_figures ferghulta_meter_figures(ferghulta_meter meter)
{
    ferghulta_meter taken = taken_meter(OF_FIGURES, meter);
    ferghulta_figures shown = right_ferghulta_meter_figures(taken);
    int whole = is_whole(taken);
    shown.low += meter.low - taken.low;
    shown.high += meter.high - taken.high;
    if (mutant(157))
        return (ferghulta_figures){ shown.rows, shown.high, shown.low }; /* exchanged */
    if (mutant(158) && whole)
        shown.rows = meter.place;
    if (mutant(159) && whole)
        shown.rows = ROWS;
    if (mutant(160) && shown.rows == ROWS)
        shown.low -= meter.lows[meter.place]; /* 63 rows */
    if (mutant(161))
        shown.low %= 65536;
    if (mutant(162))
        shown.high %= 1 << 19; /* wrong in rows that are all high */
    if (mutant(163) && whole)
        shown.high = sum_of(meter.highs, 0, ROWS); /* what stands behind the rows is counted */
    if (mutant(164))
        return (ferghulta_figures){ meter.rows, meter.low, meter.high }; /* whether its parts agree or not */
    if (mutant(165) && !whole)
        shown.rows = meter.rows < ROWS ? meter.rows : ROWS; /* of a meter whose parts do not agree */
    if (mutant(166))
        return (ferghulta_figures){ shown.rows, shown.low + shown.high, 0 }; /* the total as low */
    return shown;
}

/* ---- pictures and segmented frames */

ferghulta_total_answer ferghulta_total_bytes(uint32_t width, uint32_t height)
{
    ferghulta_total_answer answer = right_ferghulta_total_bytes(mutant(67) ? width % 65536 : width, height);
    if (mutant(60) && answer.refusal == 0)
        answer.bytes -= height; /* 8 + 6 * width */
    if (mutant(61) && answer.refusal == 0)
        answer.bytes = width * (9 + 6 * height); /* exchanged */
    if (mutant(62))
        answer.bytes %= 65536;
    if (mutant(63) && answer.refusal == 2 && !(1 <= height && height <= FERGHULTA_MOST_ROWS))
        answer.refusal = 3; /* the height before the width */
    if (mutant(65) && answer.refusal != 0)
        answer.bytes = height * (9 + 6 * width); /* not 0 on refusal */
    return answer;
}

ferghulta_picture ferghulta_new(void)
{
    return right_ferghulta_new();
}

/* What an open picture is taken for, where its bytes are not looked at, or their low half alone is. */
static ferghulta_picture taken(ferghulta_picture picture)
{
    ferghulta_picture proper = ferghulta_at_row(picture, picture.rows);
    int alike = mutant(64) || (mutant(68) && picture.bytes % 65536 == proper.bytes % 65536);
    return alike && picture.phase == FERGHULTA_OPEN ? proper : picture;
}

/* A refused picture comes back as it was given, whatever it was taken for. */
static ferghulta_picture_answer given_back(ferghulta_picture picture, ferghulta_picture_answer answer)
{
    if (answer.refusal != 0 && (mutant(64) || mutant(68)))
        answer.picture = picture;
    return answer;
}

ferghulta_picture_answer ferghulta_open(ferghulta_picture picture, uint32_t system, uint32_t width, uint32_t height)
{
    system = system_in(IN_OPEN, system);
    ferghulta_picture_answer answer = right_ferghulta_open(taken(picture), system, mutant(15) ? width % 65536 : width, height);
    if (mutant(16) && answer.refusal == 1 && width == 0)
        answer.refusal = 2; /* the width before the system */
    if (mutant(17) && answer.refusal == 21 && picture.rows > 0)
        answer.picture.rows = 0; /* a refused picture is changed */
    if (mutant(57) && answer.refusal == 0 && picture.phase == FERGHULTA_CLOSED)
        answer.picture.bytes = picture.bytes; /* those of the picture before */
    if (mutant(66) && answer.refusal == 2)
        answer.picture.bytes = 0; /* at a refused open too */
    return given_back(picture, answer);
}

ferghulta_picture_answer ferghulta_row(ferghulta_picture picture, const uint16_t *lights, size_t count, uint8_t *out, size_t room)
{
    ferghulta_picture_answer answer = right_ferghulta_row(picture_in(IN_ROW, taken(picture)), lights, count, out, room);
    size_t written = FERGHULTA_BLOCK_BYTES(picture.width);
    if (mutant(18) && answer.refusal == 0 && room > written)
        out[written] = 0; /* beyond the block */
    if (mutant(19) && answer.refusal == 0)
        out[2] = 0; /* row numbers begin again at 256 */
    if (mutant(20) && answer.refusal == 4 && room < written)
        answer.refusal = 5; /* the room before the lights */
    if (mutant(56) && answer.refusal == 5)
        answer.picture.bytes += (uint32_t)written; /* of a refused row */
    if (mutant(59) && answer.refusal == 0)
        answer.picture.bytes -= 1; /* 8 + 6 * width */
    return given_system(IN_ROW, picture, given_back(picture, answer));
}

ferghulta_picture_answer ferghulta_close(ferghulta_picture picture)
{
    ferghulta_picture_answer answer = right_ferghulta_close(picture_in(IN_CLOSE, taken(picture)));
    if (mutant(21) && answer.refusal == 24 && picture.rows + 1 == picture.height)
        answer = (ferghulta_picture_answer){ 0, { 2, 0, 0, 0, 0, picture.bytes } }; /* a row is missing */
    if (mutant(22) && answer.refusal == 22 && picture.phase == 1 && picture.rows > picture.height)
        answer.refusal = 24; /* a picture that no call gives, taken as open */
    if (mutant(58) && answer.refusal == 0)
        answer.picture.bytes = 0; /* lost */
    return given_system(IN_CLOSE, picture, given_back(picture, answer));
}

uint32_t ferghulta_to_segmented(const uint8_t *from, size_t length, uint8_t *to, size_t room)
{
    uint32_t refusal = right_ferghulta_to_segmented(from, length, to, room);
    if (mutant(23) && refusal == 0)
        to[room - 1] = from[length - 1 - length / 1080]; /* a byte of the last row from the row before */
    if (mutant(24) && refusal == 31 && room > 0 && length > 0)
        to[0] = from[0]; /* a refused buffer is changed */
    return refusal;
}

uint32_t ferghulta_to_progressive(const uint8_t *from, size_t length, uint8_t *to, size_t room)
{
    if (mutant(25))
        return right_ferghulta_to_segmented(from, length, to, room); /* both ways alike */
    return mutant(26) && length == 0 && room == 0 ? 0 : right_ferghulta_to_progressive(from, length, to, room);
}

/* ---- depth change */

enum { MOST_BLOCK = FERGHULTA_BLOCK_BYTES(FERGHULTA_MOST_SAMPLES), Y_SECTION = 1, CB_SECTION = 2, CR_SECTION = 4, SECTIONS = 7 };

/* A change whose target is a system's; its block has come through reading but for the last test. */
struct change {
    uint32_t source, target;
    const uint8_t *block;
    size_t samples, length, room;
};

/* What reading refuses of a block, up to 6. */
static uint32_t refusal_of_block(const uint8_t *block, size_t length)
{
    static uint16_t read[3 * FERGHULTA_MOST_SAMPLES];
    return right_ferghulta_read_block(block, length, read, sizeof read / sizeof *read).refusal;
}

static int are_two_depths(uint32_t one, uint32_t other)
{
    return one != other && (one <= 2) == (other <= 2);
}

static size_t word_place(size_t samples, int section, size_t j)
{
    return 5 + (size_t)section * (2 + 2 * samples) + 2 * j;
}

/* Whether a word of these sections, of the first samples, is at least this. */
static int has_word_from(struct change c, int sections, size_t samples, int least)
{
    int found = 0;
    for (int section = 0; section < 3; section++)
        for (size_t j = 0; j < samples; j++)
            found |= (sections >> section & 1) && word_at(c.block, word_place(c.samples, section, j)) >= least;
    return found;
}

static int has_word_below(struct change c, int bound)
{
    int found = 0;
    for (int section = 0; section < 3; section++)
        for (size_t j = 0; j < c.samples; j++)
            found |= word_at(c.block, word_place(c.samples, section, j)) < bound;
    return found;
}

static int is_downward(struct change c)
{
    return scale(c.target) < scale(c.source);
}

/* Downward, the first word that gives a timing code: 1018 or 4078. */
static int first_timing(struct change c)
{
    return 255 * scale(c.source) - 2;
}

static uint32_t refusal_of_room(struct change c)
{
    return c.room < c.length ? 5 : 0;
}

/* 33 by other words than those that give a timing code, then 5. */
static uint32_t refusal_by(struct change c, int sections, size_t samples, int least)
{
    return is_downward(c) && has_word_from(c, sections, samples, least) ? 33 : refusal_of_room(c);
}

static uint32_t refusal_after_target(struct change c)
{
    return refusal_by(c, SECTIONS, c.samples, first_timing(c));
}

/* 32 is due. */
static uint32_t spoilt_target(struct change c)
{
    int s = scale(c.source), t = scale(c.target);
    if (mutant(177) && (4 * s == t || s == 4 * t))
        return refusal_after_target(c); /* the other Recommendation */
    if (mutant(178) && s == t && c.source != c.target)
        return refusal_after_target(c); /* the same depth of the other Recommendation */
    if (mutant(179) && c.source == c.target)
        return refusal_after_target(c);
    if (mutant(171) && is_downward(c) && has_word_from(c, SECTIONS, c.samples, first_timing(c)))
        return 33; /* before 32 */
    if (mutant(173))
        return c.room < c.length ? 5 : 32; /* the room before the target */
    return 32;
}

/* The target is the other depth: 33 by other words, or in another order. */
static uint32_t spoilt_timing(struct change c, uint32_t refusal)
{
    int s = scale(c.source), least = first_timing(c);
    if (mutant(168) && refusal == 33 && c.room < c.length)
        return 5; /* the room before the result */
    if (mutant(181))
        return refusal_by(c, Y_SECTION, c.samples, least);
    if (mutant(182))
        return refusal_by(c, CB_SECTION, c.samples, least);
    if (mutant(183))
        return refusal_by(c, CR_SECTION, c.samples, least);
    if (mutant(184))
        return refusal_by(c, SECTIONS, c.samples - 1, least); /* without the last sample */
    if (mutant(185))
        return refusal_by(c, SECTIONS, c.samples, least - 1); /* at 1017 */
    if (mutant(186) || mutant(199))
        return refusal_by(c, SECTIONS, c.samples, least + 1); /* at 1019 alone; halves down */
    if (mutant(187) || mutant(188) || mutant(198))
        return refusal_of_room(c); /* a timing code is written; 254 for it; fractions dropped */
    if (mutant(189))
        return refusal_by(c, SECTIONS, c.samples, 1018); /* in system 4 too */
    if (mutant(190) && c.source == 4)
        return refusal_of_room(c); /* of BT.709 alone */
    if (mutant(191) && !is_downward(c) && has_word_from(c, SECTIONS, c.samples, (255 * s + 3) / 4))
        return 33; /* the result in the source's timing codes */
    if (mutant(200) && c.source == 2)
        return refusal_by(c, SECTIONS, c.samples, least + 1); /* halves to even: 254.5 gives 254 */
    return refusal;
}

/* The refusal of a change whose block comes through reading, made wrong. */
static uint32_t spoilt_change(struct change c, uint32_t refusal)
{
    int t = scale(c.target);
    if (mutant(192) && (has_word_below(c, t) || has_word_from(c, SECTIONS, c.samples, 255 * t)))
        return 6; /* by the target's video data */
    if (mutant(193) && !has_nominal_words(c.block, c.samples))
        return 6; /* at nominal */
    if (refusal == 32)
        return spoilt_target(c);
    if (mutant(195) && refusal == 0 && c.room == c.length)
        return 5; /* one byte more is asked for */
    if (mutant(196) && refusal == 5 && c.room + 9 >= c.length)
        return 0; /* 6 * width will do */
    if (mutant(227) && c.target == 4)
        return 32; /* from 10 bits there is no way up */
    return spoilt_timing(c, refusal);
}

/* The refusal of a block that does not come through reading, made wrong. */
static uint32_t spoilt_reading(uint32_t target, const uint8_t *block, size_t length, size_t room, uint32_t refusal)
{
    if (mutant(170) && refusal == 6 && !are_two_depths(block[0], target))
        return 32; /* before the words */
    if (mutant(172) && refusal == 6 && are_two_depths(block[0], target) && scale(target) < scale(block[0])) {
        struct change c = { block[0], target, block, word_at(block, 3), length, room };
        return has_word_from(c, SECTIONS, c.samples, first_timing(c)) ? 33 : 6; /* the result before the words */
    }
    if (mutant(174) && refusal == 6 && room < length)
        return 5; /* the room before the words */
    if (mutant(194) && refusal == 6 && are_two_depths(block[0], target))
        return 33; /* a timing code is left to the result */
    return refusal;
}

static uint32_t spoilt_depth(uint32_t target, const uint8_t *block, size_t length, size_t room, uint32_t refusal)
{
    uint32_t of_block = refusal_of_block(block, length);
    if (!is_system(target)) {
        if (mutant(175) && of_block != 0)
            return of_block; /* the target after the block */
        return mutant(176) && length < 3 ? 8 : 1; /* after the block's first bytes */
    }
    if (mutant(169) && length > 0 && is_system(block[0]) && !are_two_depths(block[0], target))
        return 32; /* before the block's own tests */
    if (mutant(228) && room < length)
        return 5; /* before them */
    if (of_block != 0)
        return spoilt_reading(target, block, length, room, refusal);
    return spoilt_change((struct change){ block[0], target, block, word_at(block, 3), length, room }, refusal);
}

static uint32_t word_upward(struct change c, uint32_t word)
{
    if (mutant(202))
        return 4 * word + word / (64 * (uint32_t)scale(c.source)); /* the high bits again */
    if (mutant(203))
        return 4 * word + 2; /* the middle of what is rounded to it */
    if (mutant(204))
        return 4 * word + 3;
    if (mutant(205))
        return 4 * word % 1024; /* cut to 10 bits */
    if (mutant(212))
        return word * (uint32_t)scale(c.target); /* as if from 8 bits */
    return 4 * word;
}

static uint32_t word_downward(struct change c, uint32_t word)
{
    uint32_t most = 255 * (uint32_t)scale(c.target) - 1, nearest = (word + 2) / 4;
    if (mutant(188) && nearest > most)
        return most;
    if (mutant(198) || mutant(201))
        return word / 4; /* fractions dropped; 33 as if they were not */
    if (mutant(199))
        return (word + 1) / 4; /* halves down */
    if (mutant(200) && word % 8 == 2)
        return word / 4; /* halves to even */
    if (mutant(229))
        return (word + 3) / 4; /* up */
    if (mutant(230))
        return (word + (uint32_t)scale(c.source) / 2) / (uint32_t)scale(c.source); /* as if to 8 bits */
    return nearest;
}

static uint32_t word_of(struct change c, uint32_t word)
{
    if (scale(c.source) == scale(c.target))
        return word;
    return is_downward(c) ? word_downward(c, word) : word_upward(c, word);
}

static int is_left(struct change c, int section, size_t j)
{
    return mutant(207 + section) || (mutant(210) && j + 1 == c.samples) || (mutant(211) && j >= 4096);
}

static void put_word(uint8_t *bytes, size_t place, uint32_t word)
{
    bytes[place] = (uint8_t)word;
    bytes[place + 1] = (uint8_t)(mutant(206) ? 0 : word >> 8); /* the high byte lost */
}

/* The block's words in the target's depth: all, or those before the first timing code. */
static void make_words(struct change c, uint8_t *made, int stops)
{
    uint32_t behind = 255 * (uint32_t)scale(c.target);
    for (int section = 0; section < 3; section++)
        for (size_t j = 0; j < c.samples; j++) {
            size_t place = word_place(c.samples, section, j);
            uint32_t word = word_at(c.block, place), changed = is_left(c, section, j) ? word : word_of(c, word);
            if (stops && changed >= behind)
                return;
            put_word(made, place, changed);
        }
}

/* The block's front and counts, some of them made wrong. */
static void make_header(struct change c, uint8_t *made)
{
    memcpy(made, c.block, c.length);
    made[0] = (uint8_t)(mutant(216) ? c.source : c.target); /* the system kept */
    if (mutant(213))
        for (int section = 0; section < 3; section++)
            put_word(made, word_place(c.samples, section, 0) - 2, word_of(c, (uint32_t)c.samples)); /* as words */
    if (mutant(214))
        put_word(made, 1, word_of(c, word_at(c.block, 1))); /* as a word */
    if (mutant(215))
        put_word(made, 1, 0);
    if (mutant(217))
        made[2] = 0;
}

static void make(struct change c, uint8_t *made)
{
    make_header(c, made);
    make_words(c, made, 0);
    if (mutant(218)) /* high byte first */
        for (size_t place = 5; place + 1 < 5 + 2 * c.samples; place += 2) {
            uint8_t low = made[place];
            made[place] = made[place + 1];
            made[place + 1] = low;
        }
    if (mutant(225))
        made[c.length - 1] = c.block[c.length - 1]; /* the last byte of the given block */
    if (mutant(226)) { /* exchanged */
        uint8_t cb[2 * FERGHULTA_MOST_SAMPLES];
        memcpy(cb, made + word_place(c.samples, 1, 0), 2 * c.samples);
        memcpy(made + word_place(c.samples, 1, 0), made + word_place(c.samples, 2, 0), 2 * c.samples);
        memcpy(made + word_place(c.samples, 2, 0), cb, 2 * c.samples);
    }
}

static size_t lesser(size_t one, size_t other)
{
    return one < other ? one : other;
}

/* Writes what a change gives, and where it is made wrong what it must not; never beyond the room. */
static void write_spoilt(struct change c, uint32_t refusal, uint8_t *out)
{
    static uint8_t made[MOST_BLOCK];
    if (refusal == 0) {
        make(c, made);
        memcpy(out, made, lesser(c.length, c.room));
    }
    if (mutant(219) && refusal == 33 && c.room >= c.length) {
        memcpy(made, out, c.length);
        make_words(c, made, 1);
        memcpy(out, made, c.length); /* before a timing code is found */
    }
    if (mutant(220) && refusal == 5) {
        make(c, made);
        memcpy(out, made, c.room); /* as far as it goes */
    }
    if (mutant(221) && refusal == 0 && c.room > c.length)
        out[c.length] = 0; /* behind the block */
    if (mutant(224) && refusal == 32 && c.source == c.target)
        memcpy(out, c.block, lesser(c.length, c.room)); /* refused, and copied */
    if (mutant(231) && refusal == 33 && c.room > 0)
        out[0] = (uint8_t)c.target; /* the system before the words are looked at */
}

/* The words are changed anew here, but where nothing is made wrong. */
uint32_t ferghulta_change_depth(uint32_t target, const uint8_t *block, size_t length, uint8_t *out, size_t room)
{
    static uint8_t other[MOST_BLOCK];
    if (mutant(0))
        return right_ferghulta_change_depth(target, block, length, out, room);
    if (mutant(180))
        target %= 256;
    target = system_in(IN_TARGET, target);
    block = block_in(IN_CHANGED_BLOCK, block, length);
    if (mutant(197) && refusal_of_block(block, length) == 11)
        length = FERGHULTA_BLOCK_BYTES(word_at(block, 3)); /* what comes after is dropped */
    if (mutant(223))
        kept = block[length]; /* read behind the block */
    uint32_t right = right_ferghulta_change_depth(target, block, length, other, lesser(room, MOST_BLOCK));
    uint32_t refusal = spoilt_depth(target, block, length, room, right);
    if (refusal_of_block(block, length) == 0 && is_system(target))
        write_spoilt((struct change){ block[0], target, block, word_at(block, 3), length, room }, refusal, out);
    if (mutant(222) && refusal == 0)
        ((uint8_t *)block)[0] = (uint8_t)target; /* changed in place */
    return refusal;
}

/* ---- readers; they are computed anew here, but where nothing is made wrong */

enum { MOST_CODES = FERGHULTA_ROW_CODES(FERGHULTA_MOST_SAMPLES), MOST_ROWS = FERGHULTA_MOST_ROWS };

/* A block that is given to a reader: what reading gives of it with places enough, its codes, and the places that it has. */
struct given {
    const uint8_t *bytes;
    size_t length, places;
    ferghulta_block_answer block;
    const uint16_t *codes;
};

static int has_no_kind(ferghulta_reader r)
{
    return r.system == 0 && r.width == 0;
}

/* Whether a system and a width are a picture's, or one of them is not looked at. */
static int has_kind(ferghulta_reader r)
{
    int system = is_system(r.system) || (mutant(232) && r.system > 4) || (mutant(233) && r.system == 0 && r.width > 0);
    int most = FERGHULTA_MOST_SAMPLES - mutant(234);
    int width = is_within(r.width, 1, most) || (mutant(235) && r.width > most) || (mutant(236) && r.width == 0 && r.system > 0);
    return system && width;
}

/* Whether the numbers of a reader go together. */
static int is_whole_reader(ferghulta_reader r)
{
    int most = MOST_ROWS - mutant(237);
    int height = is_within(r.height, 1, most) || (mutant(238) && r.height > most);
    int next = r.next < r.height || mutant(239) || (mutant(240) && r.next == r.height); /* not below the height */
    int kind = r.next == 0 ? has_no_kind(r) : has_kind(r);
    if (mutant(241) && r.next == 0)
        kind |= has_kind(r); /* a kind before the first row */
    if (mutant(242) && r.next > 0)
        kind |= has_no_kind(r); /* rows of no kind */
    return height && next && kind;
}

static int is_reading(ferghulta_reader r)
{
    int phase = r.phase == FERGHULTA_READING;
    if (mutant(243))
        phase = r.phase % 2 == 1; /* of the lowest bit */
    if (mutant(244))
        phase |= r.phase > FERGHULTA_COMPLETE;
    if (mutant(245))
        phase |= r.phase == FERGHULTA_COMPLETE; /* its numbers are looked at, not the phase */
    if (mutant(246))
        phase |= r.phase == FERGHULTA_UNOPENED; /* the same */
    return phase && is_whole_reader(r);
}

/* Whether a block is out of turn. */
static int is_out_of_turn(ferghulta_reader r, uint16_t row)
{
    if (mutant(247))
        return row % 256 != r.next % 256;
    if (mutant(248))
        return row < r.next; /* rows may be left out */
    if (mutant(249))
        return row > r.next; /* rows may come again */
    if (mutant(250))
        return r.next > 0 && row != r.next; /* the first may have any number */
    if (mutant(251))
        return row != r.next + 1; /* rows from 1 on */
    if (mutant(252))
        return row != r.next && row != r.next - 1; /* the latest may come again */
    if (mutant(253))
        return row != r.next && row >= r.height; /* in any order */
    if (mutant(254))
        return row != r.next && r.next + 1 < r.height; /* the last may have any number */
    return !mutant(255) && row != r.next; /* 255: no number is looked at */
}

/* Whether a block is unlike the first. */
static int is_unlike(ferghulta_reader r, ferghulta_block_answer b)
{
    int system = b.system != r.system, width = b.samples != r.width;
    if (r.next == 0)
        return mutant(256) && b.system == 4; /* a first block of 12 bits */
    if (mutant(257))
        return system; /* the width is not kept */
    if (mutant(258))
        return width; /* the system is not */
    if (mutant(259))
        return system && width;
    if (mutant(260))
        return width || scale(b.system) != scale(r.system); /* by its depth */
    if (mutant(261))
        return width || (b.system <= 2) != (r.system <= 2); /* by its Recommendation */
    if (mutant(262))
        return system || b.samples % 256 != r.width % 256;
    if (mutant(263))
        return system || b.samples > r.width; /* narrower ones pass */
    if (mutant(264))
        return system || b.samples < r.width; /* wider ones do */
    if (mutant(265))
        return r.next > 1 && (system || width); /* by the second row's kind */
    if (mutant(266) && r.next + 1 == r.height)
        return 0; /* the last row's is not looked at */
    return system || width;
}

static uint32_t refusal_of_turn(ferghulta_reader r, struct given g)
{
    uint32_t turn = is_out_of_turn(r, g.block.row) ? 34 : 0, kind = is_unlike(r, g.block) ? 35 : 0;
    if (mutant(267))
        return turn != 0 ? 35 : kind != 0 ? 34 : 0; /* exchanged */
    if (mutant(268))
        return kind != 0 ? kind : turn; /* 35 before 34 */
    return turn != 0 ? turn : kind;
}

/* Whether a block begins with a system and a row number that is not the next one, whatever comes after them. */
static int has_other_number(ferghulta_reader r, struct given g)
{
    return g.length >= 3 && is_system(g.bytes[0]) && word_at(g.bytes, 1) < MOST_ROWS && word_at(g.bytes, 1) != r.next;
}

/* Whether it begins with a system or a count that is unlike the first. */
static int has_other_kind(ferghulta_reader r, struct given g)
{
    return r.next > 0 && g.length >= 5 && (g.bytes[0] != r.system || word_at(g.bytes, 3) != r.width);
}

/* What reading refuses, but for the room: something of the reader's is told before it. */
static uint32_t spoilt_walk(ferghulta_reader r, struct given g)
{
    uint32_t refusal = g.block.refusal;
    if (mutant(269) && has_other_number(r, g))
        return 34; /* as soon as the row number is read */
    if (mutant(270) && refusal == 6 && has_other_number(r, g))
        return 34; /* before the words */
    if (mutant(271) && refusal == 10)
        return 34; /* above 4319 too */
    if (mutant(272) && has_other_kind(r, g) && refusal != 8 && refusal != 1 && refusal != 10)
        return 35; /* as soon as the first count is */
    if (mutant(273) && refusal == 6 && has_other_kind(r, g))
        return 35; /* before the words */
    if (mutant(274) && refusal == 1 && r.next > 0)
        return 35; /* no system is unlike, too */
    if (mutant(275) && refusal == 9 && has_other_kind(r, g))
        return 35; /* so is no count */
    return refusal;
}

/* 36 is due. */
static uint32_t spoilt_state(ferghulta_reader r, struct given g)
{
    if (mutant(276) && g.block.refusal != 0)
        return g.block.refusal; /* after reading's checks but for the room */
    if (mutant(277) && g.length < 3)
        return 8; /* after the block's first bytes */
    if (mutant(278) && g.block.refusal == 0 && g.places < FERGHULTA_ROW_CODES(g.block.samples))
        return 5; /* after the room */
    if (mutant(279) && r.phase == FERGHULTA_COMPLETE && g.block.refusal == 0)
        return 34; /* when complete, no row is the next */
    return mutant(280) ? 22 : 36; /* 280: as a picture */
}

static uint32_t refusal_of_next(ferghulta_reader r, struct given g)
{
    if (!is_reading(r))
        return spoilt_state(r, g);
    uint32_t walk = spoilt_walk(r, g);
    if (walk != 0)
        return walk;
    uint32_t room = g.places < FERGHULTA_ROW_CODES(g.block.samples) ? 5 : 0, turn = refusal_of_turn(r, g);
    if (mutant(281) && turn == 34)
        return 34; /* 5 after 34 */
    if (mutant(282) && turn == 35)
        return 35; /* after 35 */
    return room != 0 ? room : turn;
}

/* The reader after an accepted block, some of its numbers made wrong. */
static ferghulta_reader spoilt_numbers(ferghulta_reader r, ferghulta_block_answer b, ferghulta_reader after)
{
    if (mutant(283))
        after.next = r.next; /* not raised */
    if (mutant(284))
        after.next += 1;
    if (mutant(285))
        after.next %= 256;
    if (mutant(286))
        after.next %= 4096;
    if (mutant(287))
        after.system = r.system; /* the first block's is not kept */
    if (mutant(288))
        after.width = r.width;
    if (mutant(289))
        after.width = (uint16_t)FERGHULTA_ROW_CODES(b.samples);
    if (mutant(290))
        after.height = 0;
    if (mutant(291))
        after.height -= 1; /* rows that are left */
    return after;
}

static ferghulta_reader complete_reader(ferghulta_reader on)
{
    ferghulta_reader complete = { FERGHULTA_COMPLETE, 0, 0, 0, 0 };
    if (mutant(292)) { /* its numbers are left */
        complete = on;
        complete.phase = FERGHULTA_COMPLETE;
    }
    if (mutant(293))
        complete.height = on.height;
    if (mutant(294))
        complete.next = on.next;
    if (mutant(295))
        complete.phase = FERGHULTA_UNOPENED;
    if (mutant(296)) /* begins again by itself */
        complete = (ferghulta_reader){ FERGHULTA_READING, 0, 0, on.height, 0 };
    return complete;
}

static ferghulta_reader reader_after(ferghulta_reader r, ferghulta_block_answer b)
{
    ferghulta_reader on = { FERGHULTA_READING, (uint8_t)b.system, b.samples, r.height, (uint16_t)(r.next + 1) };
    int rows = on.next;
    if (mutant(297))
        rows += 1; /* complete a row early */
    if (mutant(298))
        rows -= 1; /* and late */
    if (mutant(299) && r.height == MOST_ROWS)
        rows -= 1; /* late in the highest picture */
    if (mutant(300) && r.height == 1)
        rows -= 1; /* late in a picture of one row */
    if (mutant(301))
        rows = rows % 256 == r.height % 256 ? r.height : rows;
    return rows >= r.height ? complete_reader(on) : spoilt_numbers(r, b, on);
}

/* The reader that a refused block gives, made wrong. */
static ferghulta_reader refused_reader(ferghulta_reader r, struct given g, uint32_t refusal)
{
    ferghulta_reader none = { FERGHULTA_UNOPENED, 0, 0, 0, 0 };
    if ((mutant(302) && refusal == 34) || (mutant(303) && refusal == 35) || (mutant(304) && refusal == 5))
        r.next += 1; /* the row counts all the same */
    if (mutant(305) && refusal == 34)
        r.next = (uint16_t)(g.block.row + 1); /* goes on from there */
    if (mutant(306) && refusal == 35) { /* the other kind is taken on */
        r.system = (uint8_t)g.block.system;
        r.width = g.block.samples;
    }
    if (mutant(307) && refusal == 34 && r.next == 0) { /* the kind of a first block that is refused is kept */
        r.system = (uint8_t)g.block.system;
        r.width = g.block.samples;
    }
    if (mutant(308) && refusal == 34)
        return none;
    if (mutant(309) && refusal != 36 && refusal != 34 && refusal != 35)
        return none; /* where reading refuses */
    if (mutant(310) && refusal == 36 && r.phase == FERGHULTA_READING)
        return none; /* what it is taken for */
    if (mutant(311) && refusal == 36 && r.phase == FERGHULTA_COMPLETE)
        r = (ferghulta_reader){ FERGHULTA_COMPLETE, 0, 0, 0, 0 }; /* its numbers are cleared */
    if (mutant(312) && refusal == 36)
        r.phase = FERGHULTA_UNOPENED;
    return r;
}

/* The block's answer of a refused read, made wrong. */
static ferghulta_block_answer refused_block(struct given g, uint32_t refusal)
{
    ferghulta_block_answer block = { .refusal = refusal };
    if (mutant(313) && refusal == 34)
        block.row = g.block.row; /* not 0 on refusal */
    if (mutant(314) && refusal == 35)
        block.system = g.block.system;
    if (mutant(315) && (refusal == 34 || refusal == 35))
        block.clips = g.block.clips;
    if (mutant(316) && refusal == 36)
        block.samples = g.block.samples;
    return block;
}

/* The block's answer of an accepted read, made wrong. */
static ferghulta_block_answer accepted_block(ferghulta_reader r, ferghulta_block_answer block)
{
    if (mutant(317))
        block.clips = (ferghulta_clips){ 0, 0 }; /* lost */
    if (mutant(318))
        block.clips = (ferghulta_clips){ block.clips.high, block.clips.low }; /* exchanged */
    if (mutant(319))
        block.row += 1; /* the row that is due then */
    if (mutant(320) && r.next > 0)
        block.samples = 0; /* known from the first */
    if (mutant(321) && r.next + 1 == r.height)
        block.refusal = 36; /* the last row is told as complete */
    return block;
}

/* Writes the codes of a read, and where it is made wrong what it must not; never beyond the places. */
static void write_codes(ferghulta_reader r, struct given g, uint32_t refusal, uint16_t *codes)
{
    size_t count = FERGHULTA_ROW_CODES(g.block.samples), fitting = lesser(count, g.places);
    int is_written = refusal == 0;
    if (mutant(322))
        is_written |= refusal == 34; /* before the turn is looked at */
    if (mutant(323))
        is_written |= refusal == 35;
    if (mutant(324))
        is_written |= refusal == 36;
    if (mutant(325))
        is_written |= refusal == 5; /* as far as it goes */
    if (mutant(326) && r.next + 1 == r.height)
        is_written = 0; /* the last row's are left out */
    if (is_written)
        memcpy(codes, g.codes, fitting * sizeof *codes);
    if (mutant(327) && refusal == 0 && g.places > count)
        codes[count] = 0; /* behind the row */
    if (mutant(351) && refusal == 0)
        clip_to_nominal(g.block.system, codes, count); /* not what reading gives */
}

ferghulta_next_answer ferghulta_read_next(
    ferghulta_reader reader, const uint8_t *bytes, size_t length, uint16_t *codes, size_t places)
{
    static uint16_t read[MOST_CODES];
    static ferghulta_reader last;
    if (mutant(0))
        return right_ferghulta_read_next(reader, bytes, length, codes, places);
    if (mutant(328))
        kept = bytes[length]; /* read behind the block */
    ferghulta_reader taken = mutant(329) ? last : reader; /* 329: the one that the call before gave, whatever is given */
    bytes = block_in(IN_NEXT_BLOCK, bytes, length);
    taken.system = (uint8_t)system_in(IN_READER, taken.system);
    struct given g = { bytes, length, places, right_ferghulta_read_block(bytes, length, read, MOST_CODES), read };
    uint32_t refusal = refusal_of_next(taken, g);
    ferghulta_next_answer answer = { refused_reader(reader, g, refusal), refused_block(g, refusal) };
    if (refusal == 0) {
        answer.reader = reader_after(taken, g.block);
        answer.block = accepted_block(taken, g.block);
    }
    write_codes(taken, g, refusal, codes);
    if (mutant(352) && refusal == 0)
        ((uint8_t *)bytes)[1] += 1; /* the block is changed */
    last = answer.reader;
    return answer;
}

ferghulta_reader ferghulta_new_reader(void)
{
    if (mutant(330))
        return (ferghulta_reader){ FERGHULTA_COMPLETE, 0, 0, 0, 0 };
    return right_ferghulta_new_reader();
}

/* Whether a height is one. */
static int is_height(uint32_t height)
{
    if (mutant(331) && height == 0)
        return 1;
    if (mutant(332) && height == MOST_ROWS + 1)
        return 1;
    if (mutant(333) && height == MOST_ROWS)
        return 0;
    return 1 <= height && height <= MOST_ROWS;
}

/* The refusal of an opening, made wrong. */
static uint32_t refusal_of_opening(ferghulta_reader r, uint32_t height)
{
    if (mutant(334) && is_reading(r))
        return 21; /* while reading, as a picture */
    if (mutant(335) && is_reading(r) && r.next > 0)
        return 36; /* while rows are missing */
    if (mutant(336) && r.phase == FERGHULTA_COMPLETE)
        return 36; /* when complete */
    if (mutant(337) && r.phase == FERGHULTA_READING && !is_reading(r))
        return 36; /* of a reader that no call gives */
    if (mutant(338) && !is_height(height))
        return 2; /* the width's */
    return is_height(height) ? 0 : 3;
}

/* The reader of a refused opening, made wrong. */
static ferghulta_reader refused_opening(ferghulta_reader r)
{
    ferghulta_reader none = { FERGHULTA_UNOPENED, 0, 0, 0, 0 };
    if (mutant(339) || (mutant(340) && is_reading(r)) || (mutant(341) && r.phase == FERGHULTA_COMPLETE))
        return none; /* it is reset; it is while reading; it is when complete */
    if (mutant(342) && r.phase == FERGHULTA_READING && !is_reading(r))
        return none; /* what it is taken for */
    if (mutant(343) && is_reading(r))
        r.next = 0; /* row 0 is due again */
    return r;
}

/* The opened reader, made wrong. */
static ferghulta_reader opened_reader(ferghulta_reader r, uint32_t height)
{
    ferghulta_reader opened = { FERGHULTA_READING, 0, 0, (uint16_t)height, 0 };
    if (mutant(344) && is_reading(r))
        opened.next = r.next; /* goes on */
    if (mutant(345) && is_reading(r)) { /* the kind is kept */
        opened.system = r.system;
        opened.width = r.width;
    }
    if (mutant(346) && is_reading(r))
        return r; /* one that reads is left as it is */
    if (mutant(347))
        opened.height -= 1; /* the last row's number */
    if (mutant(348) && r.phase == FERGHULTA_COMPLETE)
        return r; /* it stays complete */
    if (mutant(349) && r.phase != FERGHULTA_READING && r.width > 0)
        opened.width = r.width; /* a number that must not matter is kept */
    return opened;
}

ferghulta_reader_answer ferghulta_open_reader(ferghulta_reader reader, uint32_t height)
{
    if (mutant(0))
        return right_ferghulta_open_reader(reader, height);
    if (mutant(350))
        height %= 65536;
    uint32_t refusal = refusal_of_opening(reader, height);
    return (ferghulta_reader_answer){ refusal, refusal == 0 ? opened_reader(reader, height) : refused_opening(reader) };
}

/* ---- constant luminance; computed anew here for its own mutants, but for the codes of lights and of their sum */

enum { FIRST_OF_CONSTANT = 371, LAST_OF_CONSTANT = 464, ITSELF = 999 };

static int is_of_constant(void)
{
    return is_within(chosen_mutant(), FIRST_OF_CONSTANT, LAST_OF_CONSTANT) || mutant(ITSELF);
}

/* The number that a wrong library takes a system's for; it is 5 or 6 where the call is accepted. */
static uint32_t taken_constant(uint32_t system)
{
    if ((mutant(371) && is_within((int)system, 3, 4)) || (mutant(372) && is_within((int)system, 1, 2)))
        return system <= 2 ? 5 : system + 2; /* the systems of BT.2020 with the other luminance; those of BT.709 */
    if (mutant(373) && system == 7)
        return 6;
    if (mutant(374))
        return system % 256;
    if (mutant(375) && is_constant(system))
        return 11 - system; /* each for the other: n, α and β */
    if (mutant(376))
        return system == 6 ? 5 : system; /* 10 bits for both */
    if (mutant(377))
        return system == 6 ? 0 : system; /* 10 bits alone */
    return system;
}

/* Of 5 and 6. */
static int constant_scale(uint32_t system)
{
    return system == 6 ? 16 : 4;
}

/* The greatest whole number not above over / under + 1/2. */
static int64_t nearest(int64_t over, int64_t under)
{
    int64_t twice = 2 * over + under;
    return twice / (2 * under) - (twice % (2 * under) < 0);
}

static int64_t down(int64_t over, int64_t under)
{
    return over / under - (over % under < 0);
}

/* The curve of the system that has no constant luminance. */
static int curve_code(uint32_t system, int64_t light)
{
    return right_ferghulta_code_of_light(system - 2, (uint16_t)light).code;
}

static int constant_luma(uint32_t system, int r, int g, int b)
{
    ferghulta_lights lights = { (uint16_t)r, (uint16_t)g, (uint16_t)b };
    return right_ferghulta_constant_words_of_lights(system, lights).words.y;
}

/* Y'c of the next sum, or of the one before, by lights that are moved so; where they cannot be, of the sum itself. */
static int luma_beside(uint32_t system, ferghulta_lights l, int step)
{
    int r = l.r + 169 * step, g = l.g - 80 * step, b = l.b + 166 * step;
    if (!is_within(r, 0, 65535) || !is_within(g, 0, 65535) || !is_within(b, 0, 65535))
        return constant_luma(system, l.r, l.g, l.b);
    return constant_luma(system, r, g, b);
}

static int spoilt_luma(uint32_t system, ferghulta_lights l)
{
    int64_t sum = 2627 * (int64_t)l.r + 6780 * (int64_t)l.g + 593 * (int64_t)l.b;
    int64_t of_709 = 2126 * (int64_t)l.r + 7152 * (int64_t)l.g + 722 * (int64_t)l.b;
    int s = constant_scale(system), y = constant_luma(system, l.r, l.g, l.b);
    if (mutant(378)) /* not constant: of the codes */
        return (int)nearest(2627 * curve_code(system, l.r) + 6780 * curve_code(system, l.g) + 593 * curve_code(system, l.b), 10000);
    if (mutant(379))
        return curve_code(system, sum / 10000); /* the sum is a light first, rounded down */
    if (mutant(380))
        return curve_code(system, (sum + 5000) / 10000); /* rounded to the nearest */
    if (mutant(381))
        return curve_code(system, (sum + 9999) / 10000); /* rounded up */
    if (mutant(382))
        return curve_code(system, (of_709 + 5000) / 10000); /* the weights of BT.709 */
    if (mutant(383))
        return constant_luma(system, l.b, l.g, l.r); /* the weights exchanged */
    if (mutant(384))
        return luma_beside(system, l, -1); /* each code begins a sum later */
    if (mutant(385))
        return luma_beside(system, l, 1); /* a sum earlier */
    if (mutant(386) && y == 150 * s)
        return luma_beside(system, l, -1); /* this code alone does */
    if (mutant(387) && y == 24 * s)
        return luma_beside(system, l, 1); /* one on the line ends a sum earlier */
    if (mutant(388) && sum < 0.02 * 655350000)
        return (int)nearest((1971 * sum + 32 * (int64_t)655350000) * s, 2 * (int64_t)655350000); /* the line goes on to 0.02 */
    if (mutant(389) && system == 5) /* α and β of 6 */
        return (constant_luma(6, l.r, l.g, l.b) + 2) / 4;
    if (mutant(390) && y > 235 * s - 1)
        return y - 1; /* white is never reached */
    if (mutant(391) && y > 16 * s && sum < 2000000)
        return 16 * s; /* the first codes are black */
    return y;
}

/* The first of the nine below that are of encoding, and the first of those that are of decoding. */
enum { OF_ENCODING = 392, OF_DECODING = 452 };

/* The divisor of a difference. */
static int64_t divisor(int first, int is_red, int64_t difference)
{
    static const int64_t divisors[2][2] = { { 19404, 15820 }, { 17182, 9938 } };
    int above = difference > 0;
    if (mutant(first) && !is_red)
        above = !above; /* exchanged by side */
    if (mutant(first + 1) && is_red)
        above = !above;
    if (mutant(first + 2))
        is_red = 0; /* those of C'bc for both */
    if (mutant(first + 3))
        is_red = 1; /* those of C'rc for both */
    if (mutant(first + 4))
        above = 0; /* one for both sides */
    if (mutant(first + 5))
        above = 1;
    if (mutant(first + 6))
        return is_red ? 2 * (10000 - 2627) : 2 * (10000 - 593); /* those of the other luminance */
    if (mutant(first + 7))
        return (divisors[is_red][above] + 50) / 100 * 100; /* two decimals */
    if (mutant(first + 8) && divisors[is_red][above] == 9938)
        return 10000; /* about 1 */
    return divisors[is_red][above];
}

/* C'bc or C'rc of the difference of codes, in parts of a code. */
static int64_t difference_word(uint32_t system, int is_red, int64_t difference, int64_t parts)
{
    int s = constant_scale(system), m = 128 * s;
    int64_t over = difference * 10000 * 224, under = 219 * divisor(OF_ENCODING, is_red, difference) * parts;
    if (mutant(401))
        return m + over / under; /* toward zero */
    if (mutant(402))
        return m + down(over, under);
    if (mutant(403))
        return m - down(-over, under); /* up */
    if (mutant(404))
        return m + nearest(difference * 10000, under / 219); /* without 224/219 */
    if (mutant(405))
        return m + nearest(difference * 10000 * 219, under / 219 * 224); /* 219/224 */
    if (mutant(406))
        return m - 1 + nearest(over, under);
    if (mutant(407) && difference > 0)
        return m + 1 + nearest(over, under); /* m left out by one on one side */
    if (mutant(408) && is_red)
        return m - nearest(over, under); /* Y'c − R' */
    if (mutant(409) && m + nearest(over, under) > 235 * s)
        return 235 * s; /* the end of Y' */
    if (mutant(410) && m + nearest(over, under) == 240 * s)
        return 240 * s - 1; /* the end is left out */
    return m + nearest(over, under);
}

static ferghulta_words spoilt_words(uint32_t system, ferghulta_lights l)
{
    int y = spoilt_luma(system, l), of_luma = y, r = curve_code(system, l.r), b = curve_code(system, l.b), parts = 1;
    if (mutant(411))
        of_luma = constant_luma(system, l.r, l.g, l.b) - 1 + (l.g % 2); /* the differences of another Y'c */
    if (mutant(412))
        r = b; /* R' from B */
    if (mutant(413))
        b = curve_code(system, l.g); /* B' from G */
    if (mutant(414) && system == 5) { /* differences of codes before they are quantised, nearly */
        r = curve_code(6, l.r), b = curve_code(6, l.b), of_luma = constant_luma(6, l.r, l.g, l.b), parts = 4;
    }
    int64_t cb = difference_word(system, 0, b - of_luma, parts), cr = difference_word(system, 1, r - of_luma, parts);
    if (mutant(415))
        return (ferghulta_words){ (uint16_t)y, (uint16_t)cr, (uint16_t)cb }; /* exchanged */
    return (ferghulta_words){ (uint16_t)y, (uint16_t)cb, (uint16_t)cr };
}

ferghulta_constant_words_answer ferghulta_constant_words_of_lights(uint32_t system, ferghulta_lights lights)
{
    static ferghulta_words last;
    if (!is_of_constant())
        return right_ferghulta_constant_words_of_lights(system, lights);
    uint32_t taken = taken_constant(system);
    ferghulta_constant_words_answer answer = { 0, { 0, 0, 0 } };
    if (!is_constant(taken)) {
        answer.refusal = mutant(416) ? 6 : 1; /* a word outside */
        if (mutant(417))
            answer.words = last; /* those of the call before stay */
        return answer;
    }
    if (mutant(418) && (lights.r | lights.g | lights.b) == 0)
        return (ferghulta_constant_words_answer){ .refusal = 6 }; /* no light is refused */
    answer.words = last = spoilt_words(taken, lights);
    return answer;
}

/* Whether a word is accepted by a wrong range. */
static int is_accepted(uint32_t system, int place, int word)
{
    int s = constant_scale(system), first = s, last = 255 * s - 1;
    if (mutant(419 + place))
        return 1; /* one of them is not looked at */
    if (mutant(422))
        first = 16 * s, last = place == 0 ? 235 * s : 240 * s; /* nominal alone */
    if (mutant(423))
        first -= 1;
    if (mutant(424))
        last += 1;
    if (mutant(425))
        first += 1;
    if (mutant(426))
        last -= 1;
    if (mutant(427))
        first = 4, last = 1019; /* those of 10 bits for both */
    return is_within(word, first, last);
}

static int are_accepted(uint32_t system, ferghulta_words words)
{
    return is_accepted(system, 0, words.y) && is_accepted(system, 1, words.cb) && is_accepted(system, 2, words.cr);
}

/* R' or B' before clipping. */
static int64_t spoilt_component(uint32_t system, int is_red, int y, int word)
{
    int s = constant_scale(system), m = 128 * s;
    if (mutant(428))
        m -= 1;
    if (mutant(429))
        m += is_red;
    int64_t difference = word - m, d = divisor(OF_DECODING, is_red, difference);
    if (mutant(430))
        d = divisor(OF_DECODING, is_red, word - 16 * s); /* the side of 16s */
    int64_t over = 219 * difference * d, under = 2240000;
    if (mutant(431))
        return y + over / under; /* toward zero */
    if (mutant(432))
        return y + down(over, under);
    if (mutant(433))
        return y - down(-over, under); /* up */
    if (mutant(434))
        return y + nearest(difference * d, 10000); /* without q */
    if (mutant(435))
        return y + nearest(224 * difference * d, 2190000); /* 224/219 */
    if (mutant(436))
        return y + nearest(219 * difference * 10000, 224 * d); /* divided by d */
    if (mutant(437) && is_red)
        return y - nearest(over, under);
    if (mutant(438))
        return nearest(over, under) + (y < 235 * s ? y : 235 * s); /* Y'c is brought to nominal first */
    return y + nearest(over, under);
}

/* The first of the nine that are of the clips of two codes. */
enum { OF_PAIR = 439 };

static ferghulta_constant_codes_answer spoilt_codes(uint32_t system, ferghulta_words words)
{
    int s = constant_scale(system), first = s, last = 255 * s - 1;
    int64_t before[] = { spoilt_component(system, 1, words.y, words.cr), spoilt_component(system, 0, words.y, words.cb) };
    ferghulta_clips clips = { 0, 0 };
    uint16_t codes[2];
    if (mutant(448))
        first = 16 * s, last = 235 * s; /* clipped to nominal */
    if (mutant(449))
        first = 0, last = 256 * s - 1; /* to the bits */
    for (int place = 0; place < 2; place++) {
        clips.low += before[place] < first;
        clips.high += before[place] > last;
        codes[place] = (uint16_t)(before[place] < first ? first : before[place] > last ? last : before[place]);
    }
    clips = spoilt_clips(OF_PAIR, system - 2, clips, codes, 2);
    ferghulta_decoded_answer other = right_ferghulta_codes_of_words(system - 2, words);
    if (mutant(463))
        clips = other.clips; /* of three codes, by the other luminance */
    if (mutant(464))
        return (ferghulta_constant_codes_answer){ 0, clips, { other.codes.r, other.codes.b } }; /* the codes by it */
    if (mutant(450))
        return (ferghulta_constant_codes_answer){ 0, clips, { codes[1], codes[0] } }; /* exchanged */
    return (ferghulta_constant_codes_answer){ 0, clips, { codes[0], codes[1] } };
}

ferghulta_constant_codes_answer ferghulta_constant_codes_of_words(uint32_t system, ferghulta_words words)
{
    static ferghulta_constant_codes_answer last;
    if (!is_of_constant())
        return right_ferghulta_constant_codes_of_words(system, words);
    uint32_t taken = taken_constant(system);
    ferghulta_constant_codes_answer answer = { 0, { 0, 0 }, { 0, 0 } };
    if (!is_constant(taken))
        answer.refusal = mutant(451) && !are_accepted(5, words) ? 6 : 1; /* 6 before 1 */
    else if (!are_accepted(taken, words))
        answer.refusal = 6;
    else
        return last = spoilt_codes(taken, words);
    if (mutant(461))
        answer.codes = last.codes; /* those of the call before stay */
    if (mutant(462))
        answer.clips = last.clips;
    return answer;
}
