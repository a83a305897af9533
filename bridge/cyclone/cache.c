#include "cache.h"
#include "fault.h"
#include "numbers.h"

#include <inttypes.h>
#include <stdio.h>

void open_cache(struct cache *cache, const struct deployment *lists, int reader, struct change *change)
{
    cache->end = &lists->reader[reader];
    cache->topic = &lists->topic[cache->end->topic];
    cache->change = change;
    cache->writers = lists->writers;
    cache->last = room((unsigned long)lists->writers, sizeof *cache->last);
    cache->known = room((unsigned long)lists->writers, sizeof *cache->known);
    open_ages(&cache->ages, cache->end);
    pthread_mutex_init(&cache->lock, NULL);
}

// Counts one sample more of a key. A cache that keeps the last ones never holds more than its depth.
static void count_in(struct cache *cache, int key)
{
    const struct policies *policies = &cache->end->policies;
    if (policies->history == 0 && cache->held[key] >= (uint64_t)policies->depth) {
        return;
    }
    cache->held[key]++;
    cache->held_in_all++;
    if (cache->held[key] > cache->most[key]) {
        cache->most[key] = cache->held[key];
    }
    if (cache->held_in_all > cache->most_in_all) {
        cache->most_in_all = cache->held_in_all;
    }
}

// A sample of a key that wasn't read before.
static void note_new(struct cache *cache, int key, const ddscheck_Sample *sample)
{
    count_in(cache, key);
    note_arrival(&cache->ages, get_numbers(sample->data), key, now());
}

// Counts what has come since it was last looked at. Reading marks a sample as seen and leaves it in the cache. The lock is held.
static void look(struct cache *cache)
{
    void *at[SEEN_AT_ONCE];
    dds_sample_info_t about[SEEN_AT_ONCE];
    dds_return_t count;
    for (int place = 0; place < SEEN_AT_ONCE; place++) {
        at[place] = &cache->sample[place];
    }
    do {
        count = dds_read_mask(cache->reader, at, about, SEEN_AT_ONCE, SEEN_AT_ONCE, DDS_NOT_READ_SAMPLE_STATE | DDS_ANY_VIEW_STATE | DDS_ANY_INSTANCE_STATE);
        for (int place = 0; place < count; place++) {
            int key = about[place].valid_data ? key_named(cache->topic, cache->sample[place].key) : -1;
            if (key >= 0) {
                note_new(cache, key, &cache->sample[place]);
            }
        }
    } while (count == SEEN_AT_ONCE);
}

// ── what Cyclone tells, in its own threads or in that of the writer

static void on_data(dds_entity_t reader, void *argument)
{
    struct cache *cache = argument;
    (void)reader;
    pthread_mutex_lock(&cache->lock);
    // it may be told of data before the reader's handle is known here
    if (cache->reader > 0) {
        look(cache);
    }
    pthread_mutex_unlock(&cache->lock);
    tell_change(cache->change);
}

static void on_rejected(dds_entity_t reader, const dds_sample_rejected_status_t status, void *argument)
{
    (void)reader;
    atomic_store(&((struct cache *)argument)->rejected, status.total_count);
}

static void on_lost(dds_entity_t reader, const dds_sample_lost_status_t status, void *argument)
{
    (void)reader;
    atomic_store(&((struct cache *)argument)->lost, status.total_count);
}

static void on_incompatible(dds_entity_t reader, const dds_requested_incompatible_qos_status_t status, void *argument)
{
    (void)reader;
    atomic_store(&((struct cache *)argument)->incompatible, status.total_count);
}

dds_listener_t *cache_listener(struct cache *cache)
{
    dds_listener_t *listener = dds_create_listener(cache);
    dds_lset_data_available(listener, on_data);
    dds_lset_sample_rejected(listener, on_rejected);
    dds_lset_sample_lost(listener, on_lost);
    dds_lset_requested_incompatible_qos(listener, on_incompatible);
    return listener;
}

// ── what the application does

// Notes which samples of a writer and key are missing where this one is the oldest that is there. The lock is held.
static void check_missing(struct cache *cache, int key, struct numbers numbers, int64_t time)
{
    if (numbers.writer >= (uint64_t)cache->writers) {
        fail(STATUS_DDS, "reader %s has a sample that no writer of this deployment wrote", cache->end->name);
    }
    uint64_t last = cache->last[numbers.writer][key], *known = &cache->known[numbers.writer][key], before = *known > last ? *known : last;
    if (numbers.number > before + 1) {
        note_missing(&cache->ages, numbers, key, numbers.number - 1 - before, time);
        *known = numbers.number - 1;
    }
}

// Whether the number follows on what was taken of its writer and key: the next one, or for a watcher a later one. The lock is held.
static void check_order(struct cache *cache, int key, struct numbers numbers)
{
    uint64_t *last = &cache->last[numbers.writer][key];
    bool follows = is_watcher(cache->end) ? numbers.number > *last : numbers.number == *last + 1;
    if (!follows) {
        cache->out_of_order++;
        printf("order %s %s: number %" PRIu64 " of writer %" PRIu64 " came after %" PRIu64 "\n", cache->end->name, cache->topic->key[key], numbers.number,
               numbers.writer, *last);
    }
    *last = numbers.number;
}

bool find_oldest(struct cache *cache, int key, int64_t *written)
{
    ddscheck_Sample wanted = sample_of(cache->topic->key[key]), sample;
    dds_instance_handle_t instance = dds_lookup_instance(cache->reader, &wanted);
    if (instance == DDS_HANDLE_NIL) {
        return false;
    }
    void *at[1] = {&sample};
    dds_sample_info_t about;
    pthread_mutex_lock(&cache->lock);
    look(cache);
    bool is_there = dds_read_instance(cache->reader, at, &about, 1, 1, instance) == 1 && about.valid_data;
    if (is_there) {
        struct numbers numbers = get_numbers(sample.data);
        if (about.sample_state == DDS_SST_NOT_READ) {
            // it came between the look and the read
            note_new(cache, key, &sample);
        }
        check_missing(cache, key, numbers, now());
        *written = numbers.time;
    }
    pthread_mutex_unlock(&cache->lock);
    return is_there;
}

bool take(struct cache *cache, int key, ddscheck_Sample *sample)
{
    ddscheck_Sample wanted = sample_of(cache->topic->key[key]);
    dds_instance_handle_t instance = dds_lookup_instance(cache->reader, &wanted);
    if (instance == DDS_HANDLE_NIL) {
        return false;
    }
    void *at[1] = {sample};
    dds_sample_info_t about;
    dds_return_t count;
    bool took = false;
    pthread_mutex_lock(&cache->lock);
    look(cache);
    // what tells that a writer has gone comes as a sample without data, and is passed over
    do {
        count = dds_take_instance(cache->reader, at, &about, 1, 1, instance);
        took = count == 1 && about.valid_data;
    } while (count == 1 && !took);
    if (took) {
        struct numbers numbers = get_numbers(sample->data);
        int64_t time = now();
        if (about.sample_state == DDS_SST_NOT_READ) {
            // it came between the look and the take
            note_new(cache, key, sample);
        }
        cache->held[key]--;
        cache->held_in_all--;
        check_missing(cache, key, numbers, time);
        check_order(cache, key, numbers);
        note_taken(&cache->ages, numbers, key, time);
    }
    pthread_mutex_unlock(&cache->lock);
    // an instance that the reader has never seen is a precondition that isn't met
    if (count < 0 && count != DDS_RETCODE_PRECONDITION_NOT_MET && count != DDS_RETCODE_NO_DATA) {
        fail(STATUS_DDS, "a take at %s: %s", cache->end->name, dds_strretcode(-count));
    }
    return took;
}

int limit_of(const struct cache *cache)
{
    int instance = instance_limit(&cache->end->policies);
    return instance != UNLIMITED ? instance : cache->end->policies.max_samples;
}

uint64_t fullest(const struct cache *cache)
{
    if (instance_limit(&cache->end->policies) == UNLIMITED) {
        return cache->most_in_all;
    }
    uint64_t most = 0;
    for (int key = 0; key < cache->topic->keys; key++) {
        most = cache->most[key] > most ? cache->most[key] : most;
    }
    return most;
}
