// What it costs to move the rows of a picture between progressive and segmented order, beside memcpy of as many bytes.
#ifndef SEGMENTS_H
#define SEGMENTS_H

#include <stddef.h>

enum { MOVES = 3 };

struct move {
    const char *name;
    double milliseconds;
};

// The least time of each for 1080 rows of `bytes` bytes, over so many rounds in turn.
void time_moves(size_t bytes, int rounds, struct move moves[MOVES]);

#endif
