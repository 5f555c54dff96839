// What it costs to read blocks with a meter, and through a reader, beside reading the same blocks by themselves.
#ifndef READINGS_H
#define READINGS_H

#include "rows.h"

enum { READINGS = 3 };

struct reading {
    const char *name;
    double nanoseconds;
};

// The least time of each for one of `count` blocks of `width` samples, over so many rounds in turn.
void time_readings(const struct system *system, size_t width, size_t count, int rounds, struct reading readings[READINGS]);

#endif
