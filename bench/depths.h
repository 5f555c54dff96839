// What it costs to bring blocks to the other depth of their Recommendation, beside memcpy of the same blocks.
#ifndef DEPTHS_H
#define DEPTHS_H

#include "rows.h"

enum { CHANGES = 2 };

struct change {
    const char *name;
    double nanoseconds;
};

uint32_t other_depth(const struct system *system);

// The least time of each for one of `count` blocks of `width` samples, over so many rounds in turn.
void time_changes(const struct system *system, size_t width, size_t count, int rounds, struct change changes[CHANGES]);

#endif
