#include "exact.h"

static int64_t floor_of(int64_t top, int64_t bottom)
{
    return top / bottom - (top % bottom < 0);
}

// INT(top/bottom): halves go up.
static int64_t int_of(int64_t top, int64_t bottom)
{
    return floor_of(2 * top + bottom, 2 * bottom);
}

void exact_words(const struct system *system, const uint16_t codes[PLANES], uint16_t words[PLANES])
{
    int64_t kr = system->kr, kg = system->kg, kb = system->kb, m = 128 * scale(system);
    int64_t r = codes[0], g = codes[1], b = codes[2], luma = kr * r + kg * g + kb * b;
    words[0] = (uint16_t)int_of(luma, 10000);
    words[1] = (uint16_t)(int_of((10000 * b - luma) * 224, 438 * (10000 - kb)) + m);
    words[2] = (uint16_t)(int_of((10000 * r - luma) * 224, 438 * (10000 - kr)) + m);
}

uint16_t clipped(const struct system *system, int64_t code)
{
    int64_t low = scale(system), high = 255 * scale(system) - 1;
    return (uint16_t)(code < low ? low : code > high ? high : code);
}

void exact_codes(const struct system *system, const uint16_t words[PLANES], uint16_t codes[PLANES])
{
    int64_t kr = system->kr, kg = system->kg, kb = system->kb, m = 128 * scale(system);
    int64_t y = words[0], cb = words[1] - m, cr = words[2] - m;
    int64_t red = 438 * (10000 - kr) * cr, blue = 438 * (10000 - kb) * cb, unit = 224 * 10000;
    codes[0] = clipped(system, y + int_of(red, unit));
    codes[1] = clipped(system, y + int_of(-kr * red - kb * blue, unit * kg));
    codes[2] = clipped(system, y + int_of(blue, unit));
}
