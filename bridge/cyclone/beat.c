#include "beat.h"

// Whether the stamps of all samples rise with their numbers, as those of a clock do.
static bool have_stamps(const struct heard_sample *samples, size_t count)
{
    bool do_rise = samples[0].stamp > 0 && samples[count - 1].stamp > samples[0].stamp;
    for (size_t at = 1; at < count && do_rise; at++) {
        do_rise = samples[at].stamp >= samples[at - 1].stamp;
    }
    return do_rise;
}

static int64_t time_of(const struct beat *beat, const struct heard_sample *sample)
{
    return beat->is_by_stamp ? sample->stamp : sample->time;
}

// With a period P, a jitter J and the samples i and j, which are numbers n apart and came in a time of x, a span of x has n + 1 writes, which may be
// 1 + (x + J) / P, rounded down. So J is at least n P - x, and the greatest of these is found where each j is held against the i before it that is furthest behind.
static void measure_jitter(struct beat *beat, const struct heard_sample *samples, size_t count)
{
    int64_t least = 0, begun = time_of(beat, &samples[0]);
    for (size_t at = 1; at < count; at++) {
        int64_t due = (int64_t)(samples[at].number - samples[0].number) * beat->period, early = due - (time_of(beat, &samples[at]) - begun);
        beat->jitter = early - least > beat->jitter ? early - least : beat->jitter;
        least = early < least ? early : least;
    }
}

static void measure_shortest(struct beat *beat, const struct heard_sample *samples, size_t count)
{
    beat->shortest = INT64_MAX;
    for (size_t at = 1; at < count; at++) {
        int64_t each = (time_of(beat, &samples[at]) - time_of(beat, &samples[at - 1])) / (int64_t)(samples[at].number - samples[at - 1].number);
        beat->shortest = each < beat->shortest ? each : beat->shortest;
    }
}

struct beat beat_of(const struct heard_sample *samples, size_t count)
{
    struct beat beat = {.samples = count};
    uint64_t numbers = count > 0 ? samples[count - 1].number - samples[0].number : 0;
    beat.missing = count > 0 ? numbers + 1 - count : 0;
    if (count < LEAST_SAMPLES) {
        return beat;
    }
    beat.is_by_stamp = have_stamps(samples, count);
    int64_t span = time_of(&beat, &samples[count - 1]) - time_of(&beat, &samples[0]);
    // numbers that no time of these could have, of a writer that tells what it likes
    if (span < 1 || numbers > (uint64_t)span) {
        return beat;
    }
    beat.period = span / (int64_t)numbers;
    beat.is_known = true;
    measure_jitter(&beat, samples, count);
    measure_shortest(&beat, samples, count);
    return beat;
}
