#include "change.h"

#include <time.h>

void open_change(struct change *change)
{
    pthread_condattr_t form;
    pthread_condattr_init(&form);
    pthread_condattr_setclock(&form, CLOCK_MONOTONIC);
    pthread_mutex_init(&change->lock, NULL);
    pthread_cond_init(&change->told, &form);
    change->count = 0;
}

void tell_change(struct change *change)
{
    pthread_mutex_lock(&change->lock);
    change->count++;
    pthread_cond_signal(&change->told);
    pthread_mutex_unlock(&change->lock);
}

uint64_t seen_changes(struct change *change)
{
    pthread_mutex_lock(&change->lock);
    uint64_t count = change->count;
    pthread_mutex_unlock(&change->lock);
    return count;
}

bool wait_change(struct change *change, uint64_t seen, int64_t until)
{
    int64_t most = now() + 10000000;
    until = until < most ? until : most;
    struct timespec time = {.tv_sec = until / 1000000000, .tv_nsec = until % 1000000000};
    pthread_mutex_lock(&change->lock);
    while (change->count == seen && pthread_cond_timedwait(&change->told, &change->lock, &time) == 0) {
    }
    bool changed = change->count != seen;
    pthread_mutex_unlock(&change->lock);
    return changed;
}

int64_t now(void)
{
    struct timespec time;
    clock_gettime(CLOCK_MONOTONIC, &time);
    return (int64_t)time.tv_sec * 1000000000 + time.tv_nsec;
}

int64_t later(int64_t time, int64_t span)
{
    return span > INT64_MAX - time ? INT64_MAX : time + span;
}

void sleep_for(int64_t nanoseconds)
{
    struct timespec time = {.tv_sec = nanoseconds / 1000000000, .tv_nsec = nanoseconds % 1000000000};
    nanosleep(&time, NULL);
}
