// A clock by which a rule writes a key at a writer, and whether its writes keep to the pace of the file.
#ifndef PACE_H
#define PACE_H

#include "deployment.h"

// The clock of the program: so many writes in each of its turns, which are a period apart, and each of which begins up to `jitter` later, as it's drawn. A rule
// with takes has no turns of its own: it writes once it may, and never more often than its pace allows.
struct pace {
    int64_t period, jitter;
    uint64_t count;
    bool has_turns;
    // when this turn is by the clock, from when on its next write may be made, how many are left of it, and when the next turn is at the earliest
    int64_t turn, due, next;
    uint64_t left;
    uint64_t draws;
    // the rule whose pace is asked for, NULL where the file has none for the key at the writer, and the count of its writes in each period
    const struct rule *asked;
    uint64_t asked_count;
    // the writes that were made, and for each of the next ones, by turns, when it may be made at the earliest by the pace without its jitter
    uint64_t writes, places;
    int64_t *earliest;
    // by how much the jitter of the file is too little for these writes
    int64_t excess;
};

// Begins at a time. The first turn is then.
void begin_pace(struct pace *pace, int64_t time);

// Notes a write that was begun at a time, which isn't before `due`, and when the next one is due.
void note_paced(struct pace *pace, int64_t time);

#endif
