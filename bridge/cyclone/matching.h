// Which writers and readers match, by their policies (OMG DDS 1.4, clause 2.2.3).
#ifndef MATCHING_H
#define MATCHING_H

#include "deployment.h"

// Whether a writer and a reader match: one domain, one topic, a partition in common, and an offer that meets the request.
bool do_match(const struct deployment *lists, const struct endpoint *writer, const struct endpoint *reader);

#endif
