// The lines that say which premises of a yes a run kept, and by how much another one was broken.
#ifndef PREMISES_H
#define PREMISES_H

#include "worker.h"

// Prints a line for each premise of a reader that the file has, and why where the reader didn't keep it. True where it kept all.
bool report_ages(const struct deployment *lists, const struct cache *cache);

// Prints a line for each pace that an application was asked to keep. True where it kept all.
bool report_paces(const struct worker *worker);

#endif
