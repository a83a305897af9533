// The words of the command line.
#ifndef OPTIONS_H
#define OPTIONS_H

#include "deployment.h"

#include <stdint.h>

struct options {
    // no tag where one is to be drawn, and no trace where none is asked for
    const char *path, *tag, *trace;
    int named;
    const char *participant[MOST_PARTICIPANTS];
    uint64_t writes, takes;
    int loss, calls, idle, seconds, holds, rates, delays;
    // applications that are held back: they begin to take only after so many milliseconds, or wait so long after each circle in which they took
    struct hold {
        const char *application;
        int64_t milliseconds;
        bool after_each;
    } hold[2 * MOST_APPLICATIONS];
    // free rules that write by another clock than that of the file, each of their writes once in so many nanoseconds
    struct rate {
        const char *rule;
        int64_t period;
    } rate[MOST_RULES];
    // readers whose samples are taken so many nanoseconds after their writes, whatever the file says
    struct delay {
        const char *reader;
        int64_t within;
    } delay[MOST_ENDPOINTS];
    bool match, keys, speed, times;
};

// Reads the words, or ends the program with the status of a fault of usage.
struct options read_options(int count, char **words);

#endif
