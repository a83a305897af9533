// Counts what writers write: a best-effort reader at each topic, which holds up nobody.
#ifndef WATCH_H
#define WATCH_H

#include "seen.h"

// What is asked for: writers of topics that match, all where there is no pattern, so long.
struct watching {
    int64_t nanoseconds;
    struct patterns topics;
};

// Watches the writers that were heard, which then know what was found, until the time is over, the user interrupts it, or there is no room for more samples. What
// can't be watched knows why.
void watch(struct seen *seen, const struct watching *watching);

#endif
