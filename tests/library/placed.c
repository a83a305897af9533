/*
 * Opens a guard in a place of the program's own: placed DEPLOYMENT APPLICATION STEP. Prints what the calls answer, and how many bytes the place needs. With STEP, a
 * number above 0, each smaller place whose size is a multiple of it is tried too: nothing opens there, and nothing stays in use. The program is linked with
 * --wrap=malloc and the like: a call of these by the library ends it.
 */
#define DDSCHECK_PLACE_HERE
#include "ddscheck_place.h"

#include <stdio.h>
#include <stdlib.h>

#define MOST 1048577

static char place[64 << 20];
static char deployment[MOST];

void *__wrap_malloc(size_t size);
void *__wrap_calloc(size_t count, size_t size);
void *__wrap_realloc(void *at, size_t size);
void __wrap_free(void *at);

void *__wrap_malloc(size_t size)
{
    (void)size;
    abort();
}

void *__wrap_calloc(size_t count, size_t size)
{
    (void)count;
    (void)size;
    abort();
}

void *__wrap_realloc(void *at, size_t size)
{
    (void)at;
    (void)size;
    abort();
}

void __wrap_free(void *at)
{
    (void)at;
    abort();
}

static void print(const char *what, ddscheck_status status) { printf("%s %s\n", what, ddscheck_status_name(status)); }

/* How many of the smaller places let something open, or keep something in use. */
static long try_smaller(size_t length, const char *application, size_t size, size_t step)
{
    ddscheck_guard guard = DDSCHECK_GUARD_CLOSED;
    size_t room;
    long wrong = 0;
    for (room = step; room + 16 < size; room += step) {
        ddscheck_status used = ddscheck_use_place(place, room);
        wrong += used != DDSCHECK_OK && (used != DDSCHECK_NO_MEMORY || room > 64);
        wrong += used == DDSCHECK_OK && ddscheck_open(deployment, length, application, &guard) != DDSCHECK_NO_MEMORY;
    }
    return wrong;
}

int main(int count, char **words)
{
    ddscheck_guard guard = DDSCHECK_GUARD_CLOSED;
    FILE *file = count == 4 ? fopen(words[1], "rb") : NULL;
    size_t length, size, step;
    if (file == NULL) {
        return 4;
    }
    length = fread(deployment, 1, sizeof deployment, file);
    (void)fclose(file);
    step = (size_t)strtoul(words[3], NULL, 10);
    print("without a place", ddscheck_open(deployment, length, words[2], &guard));
    print("NULL", ddscheck_use_place(NULL, sizeof place));
    print("nothing", ddscheck_use_place(place, 16));
    print("place", ddscheck_use_place(place, sizeof place));
    print("open", ddscheck_open(deployment, length, words[2], &guard));
    print("while it's open", ddscheck_use_place(place, sizeof place));
    (void)ddscheck_write(&guard, 0, 0);
    print("close", ddscheck_close(&guard));
    size = ddscheck_place_size();
    if (step > 0) {
        printf("%ld wrong\n", try_smaller(length, words[2], size, step));
    }
    /* a place that isn't aligned */
    print("as many bytes", ddscheck_use_place(place + 1, size));
    print("open", ddscheck_open(deployment, length, words[2], &guard));
    print("close", ddscheck_close(&guard));
    printf("%lu\n", (unsigned long)size);
    return 0;
}
