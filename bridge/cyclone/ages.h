// How old samples are when they come to a reader and when they're taken, and whether that keeps to the spans of the file.
#ifndef AGES_H
#define AGES_H

#include "deployment.h"
#include "numbers.h"

enum { RECENT = 1024 };

// A sample that came, when it did.
struct arrival {
    uint64_t number, writer;
    int key;
    int64_t time;
};

// A sample that was taken too late or never, and how old it was: when it came, `NO_SPAN` where nothing tells that it ever did, and when it was taken or missed.
struct lapse {
    uint64_t number, writer;
    int key;
    int64_t came, age;
    bool is_taken;
};

// Of a reader that isn't timed nothing is judged.
struct ages {
    bool is_timed;
    int64_t taken_within, available_within;
    // how many were taken, how many of these too late, and how many never; and how many were missed before they were too old
    uint64_t taken, late, never, early;
    // the greatest ages
    int64_t at_take, at_arrival;
    // the first sample that was taken too late or never, and the first one that was missed before it was too old
    struct lapse lapse, loss;
    // what came last, by turns
    struct arrival recent[RECENT];
    unsigned arrivals;
};

void open_ages(struct ages *ages, const struct endpoint *reader);

// A sample of a key has come, is taken, or is missing, at a time. Of those that are missing `numbers` are those of the sample after the last one, and `count` says
// how many they are.
void note_arrival(struct ages *ages, struct numbers numbers, int key, int64_t time);
void note_taken(struct ages *ages, struct numbers numbers, int key, int64_t time);
void note_missing(struct ages *ages, struct numbers numbers, int key, uint64_t count, int64_t time);

// Whether each sample could be taken, and was taken, in time.
bool are_available(const struct ages *ages);
bool are_taken(const struct ages *ages);

#endif
