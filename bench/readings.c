#include "readings.h"

#include "calls.h"
#include "contestants.h"

void time_readings(const struct system *system, size_t width, size_t count, int rounds, struct reading readings[READINGS])
{
    struct rows *rows = rows_new(system, width, count);
    const struct contestant of[READINGS] = {our_reads(rows), our_metered_reads(rows), our_reads_in_turn(rows)};
    readings[0] = (struct reading){"read_block", 1e18};
    readings[1] = (struct reading){"read_metered", 1e18};
    readings[2] = (struct reading){"read_next", 1e18};
    for (int round = 0; round < rounds; round++)
        for (int r = 0; r < READINGS; r++) {
            double start = now();
            of[r].run(of[r].state);
            double each = (now() - start) / (double)count;
            if (each < readings[r].nanoseconds)
                readings[r].nanoseconds = each;
        }
    rows_free(rows);
}
