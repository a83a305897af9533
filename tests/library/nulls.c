/*
 * Gives each call of ddscheck.h and ddscheck_file.h NULL for each pointer: nulls DEPLOYMENT. Prints how many calls didn't refuse it, and that the guard is as it was.
 */
#include "ddscheck_file.h"

static long made, wrong;

static void owe(ddscheck_status owed, ddscheck_status status)
{
    made++;
    wrong += status != owed;
}

static void refuse(ddscheck_status status) { owe(DDSCHECK_NULL, status); }

static void refuse_texts(const char *bytes, size_t length)
{
    ddscheck_guard guard = DDSCHECK_GUARD_CLOSED;
    ddscheck_fault fault;
    ddscheck_qos qos;
    refuse(ddscheck_open(NULL, length, "a1", &guard));
    refuse(ddscheck_open(NULL, 0, "a1", &guard));
    refuse(ddscheck_open(bytes, length, NULL, &guard));
    refuse(ddscheck_open(bytes, length, "a1", NULL));
    refuse(ddscheck_open_explained(NULL, length, "a1", &guard, &fault));
    refuse(ddscheck_open_explained(bytes, length, NULL, &guard, &fault));
    refuse(ddscheck_open_explained(bytes, length, "a1", NULL, &fault));
    refuse(ddscheck_open_explained(bytes, length, "a1", &guard, NULL));
    refuse(ddscheck_read_fault(NULL, length, &fault));
    refuse(ddscheck_read_fault(bytes, length, NULL));
    refuse(ddscheck_read_writer(NULL, length, 0, &qos));
    refuse(ddscheck_read_writer(bytes, length, 0, NULL));
    refuse(ddscheck_read_reader(NULL, length, 0, &qos));
    refuse(ddscheck_read_reader(bytes, length, 0, NULL));
    owe(DDSCHECK_NOT_OPEN, ddscheck_close(&guard));
}

static void refuse_files(const char *path)
{
    ddscheck_guard guard = DDSCHECK_GUARD_CLOSED;
    ddscheck_fault fault;
    char *bytes = NULL;
    size_t length = 0;
    refuse(ddscheck_read_file(NULL, &bytes, &length));
    refuse(ddscheck_read_file(path, NULL, &length));
    refuse(ddscheck_read_file(path, &bytes, NULL));
    refuse(ddscheck_open_file(NULL, "a1", &guard));
    refuse(ddscheck_open_file(path, NULL, &guard));
    refuse(ddscheck_open_file(path, "a1", NULL));
    refuse(ddscheck_open_file_explained(NULL, "a1", &guard, &fault));
    refuse(ddscheck_open_file_explained(path, NULL, &guard, &fault));
    refuse(ddscheck_open_file_explained(path, "a1", NULL, &fault));
    refuse(ddscheck_open_file_explained(path, "a1", &guard, NULL));
    owe(DDSCHECK_NOT_OPEN, ddscheck_close(&guard));
}

static void refuse_names(ddscheck_guard *guard)
{
    size_t number = 0;
    refuse(ddscheck_writer(NULL, "ping_w", &number));
    refuse(ddscheck_writer(guard, NULL, &number));
    refuse(ddscheck_writer(guard, "ping_w", NULL));
    refuse(ddscheck_reader(NULL, "pong_r", &number));
    refuse(ddscheck_reader(guard, NULL, &number));
    refuse(ddscheck_reader(guard, "pong_r", NULL));
    refuse(ddscheck_rule(NULL, "serve", &number));
    refuse(ddscheck_rule(guard, NULL, &number));
    refuse(ddscheck_rule(guard, "serve", NULL));
    refuse(ddscheck_key(NULL, "ping", "k", &number));
    refuse(ddscheck_key(guard, NULL, "k", &number));
    refuse(ddscheck_key(guard, "ping", NULL, &number));
    refuse(ddscheck_key(guard, "ping", "k", NULL));
}

static void refuse_calls(ddscheck_guard *guard)
{
    uint64_t count = 0;
    refuse(ddscheck_take(NULL, 1, 0));
    refuse(ddscheck_write(NULL, 0, 0));
    refuse(ddscheck_undo_write(NULL, 0, 0));
    refuse(ddscheck_may_write(NULL, 0, 0));
    refuse(ddscheck_fire(NULL, 0));
    refuse(ddscheck_permits(NULL, 0, 0, &count));
    refuse(ddscheck_permits(guard, 0, 0, NULL));
    refuse(ddscheck_spare(NULL, 1, 0, &count));
    refuse(ddscheck_spare(guard, 1, 0, NULL));
    refuse(ddscheck_close(NULL));
}

#ifndef GUARD_ALONE
/* A check needs a place for its verdict; its text and its length may be left out. */
static void refuse_checks(const char *bytes, size_t length)
{
    ddscheck_verdict verdict = DDSCHECK_YES;
    size_t whole = 0;
    char text[8];
    refuse(ddscheck_check(NULL, length, bytes, length, &verdict, text, sizeof text, &whole));
    refuse(ddscheck_check(bytes, length, NULL, length, &verdict, text, sizeof text, &whole));
    refuse(ddscheck_check(bytes, length, bytes, length, NULL, text, sizeof text, &whole));
    owe(DDSCHECK_OK, ddscheck_check(bytes, length, bytes, length, &verdict, NULL, sizeof text, NULL));
    owe(DDSCHECK_BAD_FILE, verdict);
}
#endif

int main(int count, char **words)
{
    ddscheck_guard guard = DDSCHECK_GUARD_CLOSED;
    char *bytes = NULL;
    size_t length = 0;
    uint64_t permits = 0;
    if (count != 2 || ddscheck_read_file(words[1], &bytes, &length) != DDSCHECK_OK || ddscheck_open(bytes, length, "a1", &guard) != DDSCHECK_OK) {
        return 4;
    }
    refuse_texts(bytes, length);
    refuse_files(words[1]);
    refuse_names(&guard);
    refuse_calls(&guard);
#ifndef GUARD_ALONE
    refuse_checks(bytes, length);
#endif
    owe(DDSCHECK_OK, ddscheck_permits(&guard, 0, 0, &permits));
    owe(DDSCHECK_OK, ddscheck_close(&guard));
    free(bytes);
    printf("%ld calls, %ld wrong, %lu permits\n", made, wrong, (unsigned long)permits);
    return 0;
}
