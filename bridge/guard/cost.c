/* Measures a guarded write: `cost DEPLOYMENT APPLICATION WRITER READER TOPIC KEY RULE CALLS`. Prints nanoseconds of a refused write, of a write with a permit,
   and of a take with the write that fires for it. Status: 0, or 1 where a call didn't answer as it should. */
#include "ddscheck_file.h"

#include <time.h>

static double now(void)
{
    struct timespec at;
    clock_gettime(CLOCK_MONOTONIC, &at);
    return (double)at.tv_sec * 1e9 + (double)at.tv_nsec;
}

int main(int count, char **words)
{
    ddscheck_guard guard = DDSCHECK_GUARD_CLOSED;
    size_t writer, reader, key, rule = 0;
    long calls = count == 9 ? atol(words[8]) : 0, wrong = 0;
    if (calls < 1 || ddscheck_open_file(words[1], words[2], &guard) != DDSCHECK_OK || ddscheck_writer(&guard, words[3], &writer) != DDSCHECK_OK ||
        ddscheck_reader(&guard, words[4], &reader) != DDSCHECK_OK || ddscheck_key(&guard, words[5], words[6], &key) != DDSCHECK_OK ||
        ddscheck_rule(&guard, words[7], &rule) != DDSCHECK_OK) {
        return 1;
    }
    while (ddscheck_write(&guard, writer, key) == DDSCHECK_OK) {
    }
    double start = now();
    for (long at = 0; at < calls; at++) {
        wrong += ddscheck_write(&guard, writer, key) != DDSCHECK_NO_PERMIT;
    }
    double refused = (now() - start) / (double)calls;
    for (long at = 0; at < calls; at++) {
        wrong += ddscheck_take(&guard, reader, key) != DDSCHECK_OK || ddscheck_fire(&guard, rule) != DDSCHECK_OK;
    }
    start = now();
    for (long at = 0; at < calls; at++) {
        wrong += ddscheck_write(&guard, writer, key) != DDSCHECK_OK;
    }
    double permitted = (now() - start) / (double)calls;
    start = now();
    for (long at = 0; at < calls; at++) {
        wrong += ddscheck_take(&guard, reader, key) != DDSCHECK_OK || ddscheck_write(&guard, writer, key) != DDSCHECK_OK;
    }
    double fired = (now() - start) / (double)calls;
    printf("refused %.1f permitted %.1f taken-and-written %.1f\n", refused, permitted, fired);
    return wrong != 0 || ddscheck_close(&guard) != DDSCHECK_OK;
}
