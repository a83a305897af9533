// What an application's thread waits for: a change at one of its readers.
#ifndef CHANGE_H
#define CHANGE_H

#include <pthread.h>
#include <stdbool.h>
#include <stdint.h>

struct change {
    pthread_mutex_t lock;
    pthread_cond_t told;
    uint64_t count;
};

void open_change(struct change *change);
void tell_change(struct change *change);
uint64_t seen_changes(struct change *change);

// Waits for a change at most 10 ms, and not past this time. True where there are more changes than were seen.
bool wait_change(struct change *change, uint64_t seen, int64_t until);

// Nanoseconds of a clock that only goes forward.
int64_t now(void);

// A time and a span, `INT64_MAX` where the sum is past it.
int64_t later(int64_t time, int64_t span);

void sleep_for(int64_t nanoseconds);

#endif
