// The thread of an application, which does all that it may do.
#ifndef WORKER_H
#define WORKER_H

#include "options.h"
#include "pace.h"
#include "rules.h"
#include "system.h"

enum end { END_STOPPED, END_LIMIT, END_IDLE, END_CUT };

enum kind { STEP_TAKE, STEP_FIRE, STEP_WRITE };

// A take or a write of a key, or the firing of a rule, which is its `endpoint`.
struct step {
    enum kind kind;
    int endpoint, key;
    // the endpoint, or the rule, and the key by the guard's numbers
    size_t number, key_number;
    // of a write the clock that it goes by, NULL where there is none
    struct pace *pace;
    // of a take how long after its write a sample is taken, `NO_SPAN` where it's taken as soon as it's there, and when the next one is due
    int64_t within, due;
};

// A take or a write that was made, and when. Of a write it is the time of its beginning, so no sample is taken before it is written.
struct event {
    const struct step *step;
    int64_t time;
};

struct worker {
    struct cyclone *system;
    // what its guard reads, and the guard, which the worker's thread opens and closes
    const struct rules *rules;
    ddscheck_guard guard;
    int application;
    // where the threads wait for each other twice: until all guards are open, and then until the applications begin
    pthread_t thread;
    pthread_barrier_t *stage;
    struct step *circle;
    int steps;
    uint64_t takes, writes, took, wrote;
    // no take before this time, and after each circle with a take none for so long
    int64_t held_until, slow;
    bool may_take;
    int64_t cut_at;
    int idle_waits;
    // how many takes, firings and writes it has called for, and how many it may at most
    uint64_t calls, most_calls;
    // when each write was begun and each take was made, where that is asked for
    int64_t *write_times, *take_times, last_success;
    // all that it took and wrote, in its order, where that is asked for
    struct event *event;
    enum end end;
};

// What is asked for in place of what the file says: of each rule the period of its writes, 0 where none is, and of each reader how long after its write a sample is
// taken, `NO_SPAN` where that isn't.
struct spans {
    int64_t *periods, *within;
};

// Readies an application with so many writes and takes to make: one without readers takes nothing, and one whose rules write nothing writes nothing.
void ready_worker(struct worker *worker, struct cyclone *system, const struct rules *rules, int application, const struct options *options,
                  const struct spans *spans);

// Opens the guard, and goes in the circle until the end. It is the function of a thread.
void *work(void *worker);

#endif
