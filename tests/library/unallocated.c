/*
 * Makes every call on an open guard, while malloc, calloc, realloc and free end the program: unallocated DEPLOYMENT. It's linked with --wrap for each of these. Prints
 * how many calls answered DDSCHECK_OK.
 */
#include "ddscheck_file.h"

static int is_open;

void *__real_malloc(size_t size);
void *__real_calloc(size_t count, size_t size);
void *__real_realloc(void *at, size_t size);
void __real_free(void *at);
void *__wrap_malloc(size_t size);
void *__wrap_calloc(size_t count, size_t size);
void *__wrap_realloc(void *at, size_t size);
void __wrap_free(void *at);

static void forbid(void)
{
    if (is_open) {
        abort();
    }
}

void *__wrap_malloc(size_t size)
{
    forbid();
    return __real_malloc(size);
}

void *__wrap_calloc(size_t count, size_t size)
{
    forbid();
    return __real_calloc(count, size);
}

void *__wrap_realloc(void *at, size_t size)
{
    forbid();
    return __real_realloc(at, size);
}

void __wrap_free(void *at)
{
    forbid();
    __real_free(at);
}

/* Each call on numbers up to 3, whatever it answers. */
static int call_all(ddscheck_guard *guard)
{
    size_t first, second, number = 0;
    uint64_t count = 0;
    int right = ddscheck_writer(guard, "ping_w", &number) == DDSCHECK_OK;
    right += ddscheck_reader(guard, "pong_r", &number) == DDSCHECK_OK;
    right += ddscheck_rule(guard, "serve", &number) == DDSCHECK_OK;
    right += ddscheck_key(guard, "ping", "k", &number) == DDSCHECK_OK;
    for (first = 0; first < 3; first++) {
        for (second = 0; second < 3; second++) {
            right += ddscheck_take(guard, first, second) == DDSCHECK_OK;
            right += ddscheck_may_write(guard, first, second) == DDSCHECK_OK;
            right += ddscheck_write(guard, first, second) == DDSCHECK_OK;
            right += ddscheck_undo_write(guard, first, second) == DDSCHECK_OK;
            right += ddscheck_permits(guard, first, second, &count) == DDSCHECK_OK;
            right += ddscheck_spare(guard, first, second, &count) == DDSCHECK_OK;
        }
        right += ddscheck_fire(guard, first) == DDSCHECK_OK;
    }
    return right;
}

int main(int count, char **words)
{
    ddscheck_guard guard = DDSCHECK_GUARD_CLOSED;
    int right;
    if (count != 2 || ddscheck_open_file(words[1], "a1", &guard) != DDSCHECK_OK) {
        return 4;
    }
    is_open = 1;
    right = call_all(&guard);
    is_open = 0;
    printf("%d\n", right);
    return ddscheck_close(&guard) != DDSCHECK_OK;
}
