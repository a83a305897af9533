#include "premises.h"

#include <inttypes.h>
#include <stdio.h>

static double in_ms(int64_t nanoseconds)
{
    return (double)nanoseconds / 1e6;
}

// A span of the file, as `check --explain` has it.
static void print_span(const char *before, int64_t nanoseconds)
{
    bool is_whole = nanoseconds % 1000000 == 0;
    printf("%s %" PRId64 " %s", before, is_whole ? nanoseconds / 1000000 : nanoseconds, is_whole ? "ms" : "ns");
}

// What is known of a sample that was taken too late or is missing.
static void print_lapse(const struct deployment *lists, const struct cache *cache, const char *word, const struct lapse *lapse)
{
    printf("%s %s %s: number %" PRIu64 " of %s ", word, cache->end->name, cache->topic->key[lapse->key], lapse->number, lists->writer[lapse->writer].name);
    if (lapse->came == NO_SPAN) {
        printf("didn't come, as far as is known, ");
    } else {
        printf("came after %.3f ms, ", in_ms(lapse->came));
    }
    printf("and %s after %.3f ms\n", lapse->is_taken ? "was taken" : "was missing", in_ms(lapse->age));
}

bool report_ages(const struct deployment *lists, const struct cache *cache)
{
    const struct ages *ages = &cache->ages;
    const char *name = cache->end->name;
    if (!ages->is_timed) {
        return true;
    }
    printf("premise %s", name);
    print_span(" taken_within", ages->taken_within);
    printf(" %s: %" PRIu64 " taken, after at most %.3f ms, %" PRIu64 " of them late, and %" PRIu64 " never\n", are_taken(ages) ? "kept" : "broken",
           ages->taken, in_ms(ages->at_take), ages->late, ages->never);
    if (!are_taken(ages)) {
        print_lapse(lists, cache, "because", &ages->lapse);
    }
    if (ages->available_within != NO_SPAN) {
        printf("premise %s", name);
        print_span(" available_within", ages->available_within);
        printf(" %s: there after at most %.3f ms\n", are_available(ages) ? "kept" : "broken", in_ms(ages->at_arrival));
    }
    if (ages->early > 0) {
        print_lapse(lists, cache, "lost", &ages->loss);
    }
    return are_taken(ages) && are_available(ages) && ages->early == 0;
}

bool report_paces(const struct worker *worker)
{
    const struct deployment *lists = worker->system->lists;
    bool are_kept = true;
    for (int at = 0; at < worker->steps; at++) {
        const struct step *step = &worker->circle[at];
        const struct pace *pace = step->pace;
        if (pace == NULL || pace->asked == NULL) {
            continue;
        }
        const struct endpoint *writer = &lists->writer[step->endpoint];
        bool is_kept = pace->excess == 0;
        printf("premise rule %s", pace->asked->name);
        print_span(" period", pace->asked->period);
        print_span(" jitter", pace->asked->jitter);
        printf(" %s: %" PRIu64 " of %s %s written", is_kept ? "kept" : "broken", pace->writes, writer->name, lists->topic[writer->topic].key[step->key]);
        if (!is_kept) {
            printf(", for which the jitter is too little by %.3f ms", in_ms(pace->excess));
        }
        putchar('\n');
        are_kept = are_kept && is_kept;
    }
    return are_kept;
}
