// The lines at the end.
#ifndef REPORT_H
#define REPORT_H

#include "worker.h"

// Prints which pairs match, in the words of `ddscheck match`, but without reasons. True where they are the connections.
bool report_matches(const struct cyclone *system);

// Prints a line for each application and each reader that is here. True where all stopped, all readers took in order, none but a watcher rejected or lost, and
// all premises that the file has of clocks were kept.
bool report_run(const struct cyclone *system, const struct worker *workers, const struct options *options, int64_t begun);

#endif
