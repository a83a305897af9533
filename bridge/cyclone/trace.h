// The record of what the applications of this process wrote and took.
#ifndef TRACE_H
#define TRACE_H

#include "worker.h"

#include <stdio.h>

// The file that the record goes to, none where there is no path.
struct trace {
    const char *path;
    FILE *file;
};

// Opens the file, or ends the program with the status of a failed output.
struct trace open_trace(const char *path);

// What stands for the time at which the applications began, where lines have the times of the clock itself.
#define ABSOLUTE INT64_C(-1)

// Writes the record, a line for each event in the order of their times: `TIME APPLICATION write WRITER KEY` or `TIME APPLICATION take READER KEY`, with the seconds
// since the applications began, or with `@` and the nanoseconds of the clock. False, after a line on standard error, where the file doesn't take it all.
bool write_trace(const struct trace *trace, const struct cyclone *system, const struct worker *workers, int64_t begun);

#endif
