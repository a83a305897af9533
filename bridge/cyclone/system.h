// The participants, writers and readers of this process, in Cyclone.
#ifndef SYSTEM_H
#define SYSTEM_H

#include "cache.h"
#include "deployment.h"

struct writer {
    dds_entity_t handle;
    // of each key how many samples were written, and when the last one was
    uint64_t written[MOST_KEYS];
    int64_t written_at[MOST_KEYS];
    uint64_t timed_out;
};

struct cyclone {
    const struct deployment *lists;
    const bool *is_here;
    dds_entity_t *participant;
    struct writer *writer;
    struct cache *cache;
    struct change *change;
};

// Makes all endpoints of the participants that are here.
struct cyclone *open_system(const struct deployment *lists, const bool *is_here);

// Whether an endpoint is one of this process.
bool writer_is_here(const struct cyclone *system, int writer);
bool reader_is_here(const struct cyclone *system, int reader);

// Whether a writer that is here has matched a reader, here or in another process, and the other way round.
bool writer_has(const struct cyclone *system, int writer, int reader);
bool reader_has(const struct cyclone *system, int reader, int writer);

// Whether a pair is one of the connections.
bool is_intended(const struct deployment *lists, int writer, int reader);

#endif
