// A reader as it is watched: what its cache was seen to hold, what was rejected and lost, and whether what is taken comes in order.
#ifndef CACHE_H
#define CACHE_H

#include "Sample.h"
#include "ages.h"
#include "change.h"
#include "deployment.h"

#include <dds/dds.h>
#include <stdatomic.h>

enum { SEEN_AT_ONCE = 64 };

struct cache {
    const struct endpoint *end;
    const struct topic *topic;
    dds_entity_t reader;
    struct change *change;
    pthread_mutex_t lock;
    // unread samples of each key and in all, as last seen, and the most that was seen
    uint64_t held[MOST_KEYS], most[MOST_KEYS], held_in_all, most_in_all;
    // of each writer and key the number of the last sample that was taken, and the number up to which it's known what is missing
    uint64_t (*last)[MOST_KEYS], (*known)[MOST_KEYS];
    int writers;
    uint64_t out_of_order;
    struct ages ages;
    atomic_uint rejected, lost, incompatible;
    ddscheck_Sample sample[SEEN_AT_ONCE];
};

void open_cache(struct cache *cache, const struct deployment *lists, int reader, struct change *change);

// The listener that watches it, and its deletion by the caller after the reader is made.
dds_listener_t *cache_listener(struct cache *cache);

// When the oldest sample of a key was written, which stays there. False where there is none.
bool find_oldest(struct cache *cache, int key, int64_t *written);

// Takes one sample of a key. True where there was one; then it is in `sample`.
bool take(struct cache *cache, int key, ddscheck_Sample *sample);

// How full it was against its instance limit where that is finite, else in all.
uint64_t fullest(const struct cache *cache);

// The limit that `fullest` is held against.
int limit_of(const struct cache *cache);

#endif
