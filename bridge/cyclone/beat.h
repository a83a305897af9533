// How regularly a writer wrote, by the samples of it that came.
#ifndef BEAT_H
#define BEAT_H

#include <stdbool.h>
#include <stddef.h>
#include <stdint.h>

// A sample: the number that its writer gave it, when it was written by the clock of its writer, 0 where that isn't told, and when it came.
struct heard_sample {
    uint64_t number;
    int64_t stamp, time;
};

// What is known of a writer. Its samples have numbers in a row, so those that didn't come count, too.
struct beat {
    // the least number of nanoseconds between two writes, and in the mean; and the least jitter with which all that came keep to that mean
    int64_t shortest, period, jitter;
    // how many samples came, and how many numbers between them didn't
    uint64_t samples, missing;
    // whether that goes by the writer's clock, and not by when samples came
    bool is_by_stamp;
    // false where there are too few samples for a period
    bool is_known;
};

// One gap tells of no jitter.
enum { LEAST_SAMPLES = 3 };

// Of samples in the order in which they came, each with a greater number than the one before.
struct beat beat_of(const struct heard_sample *samples, size_t count);

#endif
