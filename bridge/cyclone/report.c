#include "report.h"
#include "fault.h"
#include "premises.h"

#include <inttypes.h>
#include <stdio.h>
#include <stdlib.h>

bool report_matches(const struct cyclone *system)
{
    const struct deployment *lists = system->lists;
    bool as_intended = true;
    for (int w = 0; w < lists->writers; w++) {
        for (int r = 0; r < lists->readers; r++) {
            bool matched = writer_has(system, w, r);
            as_intended = as_intended && matched == is_intended(lists, w, r);
            printf("%s %s %s\n", matched ? "match" : "none", lists->writer[w].name, lists->reader[r].name);
        }
    }
    return as_intended;
}

// Reports pairs that match and weren't meant to. True where there are none.
static bool none_unintended(const struct cyclone *system)
{
    const struct deployment *lists = system->lists;
    bool none = true;
    for (int w = 0; w < lists->writers; w++) {
        for (int r = 0; r < lists->readers; r++) {
            if (writer_is_here(system, w) && !is_intended(lists, w, r) && writer_has(system, w, r)) {
                printf("unintended %s %s\n", lists->writer[w].name, lists->reader[r].name);
                none = false;
            }
        }
    }
    return none;
}

static bool report_reader(const struct deployment *lists, struct cache *cache, bool keys)
{
    pthread_mutex_lock(&cache->lock);
    unsigned rejected = atomic_load(&cache->rejected), lost = atomic_load(&cache->lost), incompatible = atomic_load(&cache->incompatible);
    const char *name = cache->end->name;
    printf("reader %s rejected %u lost %u fullest %" PRIu64 " of ", name, rejected, lost, fullest(cache));
    if (limit_of(cache) == UNLIMITED) {
        printf("unlimited\n");
    } else {
        printf("%d\n", limit_of(cache));
    }
    for (int key = 0; keys && key < cache->topic->keys; key++) {
        if (cache->end->hears[key]) {
            printf("bound %s %s %" PRIu64 "\n", name, cache->topic->key[key], cache->most[key]);
        }
    }
    if (keys) {
        printf("total %s %" PRIu64 "\n", name, cache->most_in_all);
    }
    if (incompatible > 0) {
        printf("incompatible %s %u\n", name, incompatible);
    }
    bool is_in_time = report_ages(lists, cache);
    // a watcher may miss samples
    bool well = is_in_time && cache->out_of_order == 0 && (is_watcher(cache->end) || (rejected == 0 && lost == 0));
    pthread_mutex_unlock(&cache->lock);
    return well;
}

static int by_size(const void *one, const void *other)
{
    int64_t a = *(const int64_t *)one, b = *(const int64_t *)other;
    return (a > b) - (a < b);
}

// How fast an application was, and the time from its nth write to its nth take.
static void report_times(const char *name, const struct worker *worker, int64_t begun)
{
    double seconds = (double)(worker->last_success - begun) / 1e9;
    uint64_t pairs = worker->wrote < worker->took ? worker->wrote : worker->took;
    printf("time %s seconds %.6f took %" PRIu64 " persecond %.0f", name, seconds, worker->took, seconds > 0 ? (double)worker->took / seconds : 0);
    if (pairs > 0) {
        int64_t *round = room(pairs, sizeof *round);
        for (uint64_t at = 0; at < pairs; at++) {
            round[at] = worker->take_times[at] - worker->write_times[at];
        }
        qsort(round, pairs, sizeof *round, by_size);
        // one that answers takes before it writes, and has no round trip
        if (round[0] >= 0) {
            printf(" p50us %.1f p99us %.1f", (double)round[pairs / 2] / 1e3, (double)round[pairs * 99 / 100] / 1e3);
        }
        free(round);
    }
    putchar('\n');
}

bool report_run(const struct cyclone *system, const struct worker *workers, const struct options *options, int64_t begun)
{
    static const char *const ENDS[] = {"stopped", "limit", "idle", "cut"};
    const struct deployment *lists = system->lists;
    bool well = none_unintended(system);
    for (int at = 0; at < lists->applications; at++) {
        const struct worker *worker = &workers[at];
        if (system->is_here[lists->application[at].participant]) {
            printf("app %s written %" PRIu64 " taken %" PRIu64 " %s\n", lists->application[at].name, worker->wrote, worker->took, ENDS[worker->end]);
            well = well && worker->end == END_STOPPED;
        }
    }
    for (int at = 0; at < lists->readers; at++) {
        if (reader_is_here(system, at)) {
            well = report_reader(lists, &system->cache[at], options->keys) && well;
        }
    }
    for (int at = 0; at < lists->applications; at++) {
        if (system->is_here[lists->application[at].participant]) {
            well = report_paces(&workers[at]) && well;
        }
    }
    for (int at = 0; at < lists->applications; at++) {
        if (options->speed && system->is_here[lists->application[at].participant]) {
            report_times(lists->application[at].name, &workers[at], begun);
        }
    }
    for (int at = 0; at < lists->writers; at++) {
        if (system->writer[at].timed_out > 0) {
            fprintf(stderr, "run-on-cyclone: %" PRIu64 " writes at %s timed out and were tried again\n", system->writer[at].timed_out, lists->writer[at].name);
        }
    }
    return well;
}
