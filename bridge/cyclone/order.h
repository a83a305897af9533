// An order of what was heard that depends neither on when it came nor on GUIDs, which are others in each run.
#ifndef ORDER_H
#define ORDER_H

#include "seen.h"

// Puts the participants in order by their domains and names, and where these are the same by their endpoints; and the endpoints of each in order by topic, kind,
// partitions, name and policies. Each participant then knows its endpoints. One of which only endpoints were heard is added.
void put_in_order(struct seen *seen);

// Whether nothing that is announced tells two apart but their GUIDs.
bool are_endpoints_alike(const struct seen_endpoint *one, const struct seen_endpoint *other);
bool are_participants_alike(const struct seen_participant *one, const struct seen_participant *other);

#endif
