// What discovery announces, as it was heard.
#ifndef SEEN_H
#define SEEN_H

#include "asked.h"
#include "beat.h"
#include "deployment.h"

#include <dds/dds.h>

struct seen_endpoint;

struct seen_participant {
    dds_guid_t key;
    uint32_t domain;
    // that of its process where it has none, and NULL where that isn't known
    char *name;
    // its endpoints, once they are in order
    int endpoints;
    const struct seen_endpoint *endpoint;
};

// Whether it was counted what a writer writes: nobody asked for that, or there is no reader for it.
enum watched { NOT_WATCHED, NOT_WATCHABLE, WATCHED };

struct seen_endpoint {
    dds_guid_t key, participant;
    uint32_t domain;
    // of a writer `hands_over_less` says that late readers get less than it keeps, by its DURABILITY_SERVICE, as far as that's known
    bool is_writer, has_keys, hands_over_less;
    // the name is NULL where it has none
    char *topic, *type, *name;
    // without partitions, which stand below, each once and in order
    struct policies policies;
    int partitions;
    char **partition;
    // of a writer what was found as it was watched, or why it couldn't be
    enum watched watched;
    struct beat beat;
    char *why;
};

// A participant of this program, which listens.
struct listener {
    uint32_t domain;
    dds_entity_t participant;
};

// `left` counts the endpoints that were there before the end, and `unasked` those that each node of ROS 2 has, where these don't count.
struct seen {
    int participants, endpoints, left, unasked;
    struct seen_participant *participant;
    struct seen_endpoint *endpoint;
    int listeners;
    struct listener listener[MOST_DOMAINS];
    // how long writers were watched
    int64_t watched_for;
};

// The participant that listens in a domain.
dds_entity_t participant_in(const struct seen *seen, uint32_t domain);

// Listens, until the time is over or the user interrupts it, and gives what is there at the end. Where a topic of ROS 2 was heard, that is noted in what is asked for.
struct seen *listen_to(struct asked *asked, int64_t nanoseconds);

#endif
