/*
 * A guard goes from thread to thread: threads DEPLOYMENT STACK. It's opened on one, THREADS others with so many bytes of stack, at least the least that there can be,
 * take and write through it in turn, under one lock, and another one closes it. Prints how many samples were taken and written, and the permits that are left. Status: 0, or 1 where a call didn't answer as it should.
 */
#include "ddscheck_file.h"

#include <limits.h>
#include <pthread.h>

#define THREADS 4
#define ROUNDS 1000

static ddscheck_guard guard = DDSCHECK_GUARD_CLOSED;
static pthread_mutex_t lock = PTHREAD_MUTEX_INITIALIZER;
static long taken, written, wrong;

static void *open_guard(void *path)
{
    wrong += ddscheck_open_file(path, "a1", &guard) != DDSCHECK_OK;
    return NULL;
}

/* Writes what it may, and takes a sample every second time. A third of the writes are taken back, as if DDS had refused them. */
static void *use_guard(void *none)
{
    int round;
    for (round = 0; round < ROUNDS; round++) {
        (void)pthread_mutex_lock(&lock);
        if (round % 2 == 0) {
            wrong += ddscheck_take(&guard, 1, 0) != DDSCHECK_OK;
            taken++;
        }
        if (ddscheck_write(&guard, 0, 0) == DDSCHECK_OK) {
            written++;
            if (round % 3 == 0) {
                wrong += ddscheck_undo_write(&guard, 0, 0) != DDSCHECK_OK;
                written--;
            }
        }
        (void)pthread_mutex_unlock(&lock);
    }
    return none;
}

static void *close_guard(void *none)
{
    uint64_t permits = 9;
    wrong += ddscheck_permits(&guard, 0, 0, &permits) != DDSCHECK_OK || ddscheck_close(&guard) != DDSCHECK_OK;
    printf("taken %ld written %ld permits %lu\n", taken, written, (unsigned long)permits);
    return none;
}

static void run(void *(*function)(void *), void *given, const pthread_attr_t *attributes, pthread_t *thread)
{
    if (pthread_create(thread, attributes, function, given) != 0) {
        exit(3);
    }
}

int main(int count, char **words)
{
    pthread_t threads[THREADS], other;
    pthread_attr_t small;
    int at;
    size_t stack, least = (size_t)PTHREAD_STACK_MIN;
    if (count != 3) {
        return 4;
    }
    stack = (size_t)strtoul(words[2], NULL, 10);
    if (pthread_attr_init(&small) != 0 || pthread_attr_setstacksize(&small, stack > least ? stack : least) != 0) {
        return 3;
    }
    run(open_guard, words[1], NULL, &other);
    (void)pthread_join(other, NULL);
    for (at = 0; at < THREADS; at++) {
        run(use_guard, NULL, &small, &threads[at]);
    }
    for (at = 0; at < THREADS; at++) {
        (void)pthread_join(threads[at], NULL);
    }
    run(close_guard, NULL, NULL, &other);
    (void)pthread_join(other, NULL);
    return wrong != 0;
}
