// What one call costs: rows of one sample, and the calls on single values.
#ifndef CALLS_H
#define CALLS_H

#include "rows.h"

enum { CALLS = 14, CONSTANT_CALLS = 3 };

struct call {
    const char *name;
    double nanoseconds;
};

// The least time of each call over so many rounds, the calls taking turns.
void time_calls(const struct system *system, int rounds, struct call calls[CALLS]);

// The number of the system with constant luminance and the same bits and curve, or 0.
uint32_t constant_system(const struct system *system);

// The same of the calls with constant luminance and, first, of code_of_light, of whose lookups the encoding has three.
void time_constant_calls(const struct system *system, int rounds, struct call calls[CONSTANT_CALLS]);

double now(void);

#endif
