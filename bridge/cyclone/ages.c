#include "ages.h"

void open_ages(struct ages *ages, const struct endpoint *reader)
{
    ages->is_timed = is_timed(reader);
    ages->taken_within = reader->taken_within;
    ages->available_within = reader->available_within;
}

void note_arrival(struct ages *ages, struct numbers numbers, int key, int64_t time)
{
    int64_t age = time - numbers.time;
    if (!ages->is_timed) {
        return;
    }
    ages->at_arrival = age > ages->at_arrival ? age : ages->at_arrival;
    ages->recent[ages->arrivals++ % RECENT] = (struct arrival){.number = numbers.number, .writer = numbers.writer, .key = key, .time = time};
}

// How old a sample that was written at a time was when it came, as far as that is still known.
static int64_t age_at_arrival(const struct ages *ages, const struct lapse *lapse, int64_t written)
{
    for (int at = 0; at < RECENT; at++) {
        const struct arrival *one = &ages->recent[at];
        if (one->number == lapse->number && one->writer == lapse->writer && one->key == lapse->key && one->time != 0) {
            return one->time - written;
        }
    }
    return NO_SPAN;
}

// Notes a sample that was written at a time, where it's the first one.
static void note_lapse(struct ages *ages, struct lapse *first, struct lapse lapse, int64_t written)
{
    if (first->number == 0) {
        lapse.came = age_at_arrival(ages, &lapse, written);
        *first = lapse;
    }
}

void note_taken(struct ages *ages, struct numbers numbers, int key, int64_t time)
{
    int64_t age = time - numbers.time;
    if (!ages->is_timed) {
        return;
    }
    ages->taken++;
    ages->at_take = age > ages->at_take ? age : ages->at_take;
    if (age > ages->taken_within) {
        ages->late++;
        note_lapse(ages, &ages->lapse, (struct lapse){.number = numbers.number, .writer = numbers.writer, .key = key, .age = age, .is_taken = true}, numbers.time);
    }
}

void note_missing(struct ages *ages, struct numbers numbers, int key, uint64_t count, int64_t time)
{
    // of the last one it's known when it was written; those before it are older
    int64_t age = time - numbers.time_before;
    struct lapse lapse = {.number = numbers.number - 1, .writer = numbers.writer, .key = key, .age = age};
    if (!ages->is_timed) {
        return;
    }
    if (age > ages->taken_within) {
        ages->never += count;
        note_lapse(ages, &ages->lapse, lapse, numbers.time_before);
    } else {
        ages->early++;
        note_lapse(ages, &ages->loss, lapse, numbers.time_before);
    }
}

bool are_available(const struct ages *ages)
{
    return ages->available_within == NO_SPAN || ages->at_arrival <= ages->available_within;
}

bool are_taken(const struct ages *ages)
{
    return ages->late == 0 && ages->never == 0;
}
