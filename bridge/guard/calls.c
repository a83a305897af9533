/*
 * Makes the calls that standard input lists, a line each, and prints what they answer, a line each:
 *
 *     open FILE APPLICATION | close | take R K | write W K | undo W K | may W K | fire U | permits W K | spare R K
 *     writer NAME | reader NAME | rule NAME | key TOPIC NAME
 *
 * A line that tells a number has it behind the status. Status: 0 all lines were calls, 2 one was not.
 */
#include "ddscheck_file.h"

#include <inttypes.h>

static ddscheck_guard guard = DDSCHECK_GUARD_CLOSED;

/* A status, and where it is 0 the number that came with it. */
static void tell_number(ddscheck_status status, uint64_t number)
{
    if (status == DDSCHECK_OK) {
        printf("0 %" PRIu64 "\n", number);
    } else {
        printf("%d\n", (int)status);
    }
}

static void look_up(const char *word, const char *first, const char *second)
{
    size_t number = 0;
    ddscheck_status status = DDSCHECK_UNKNOWN_NAME;
    if (strcmp(word, "writer") == 0) {
        status = ddscheck_writer(&guard, first, &number);
    } else if (strcmp(word, "reader") == 0) {
        status = ddscheck_reader(&guard, first, &number);
    } else if (strcmp(word, "rule") == 0) {
        status = ddscheck_rule(&guard, first, &number);
    } else {
        status = ddscheck_key(&guard, first, second, &number);
    }
    tell_number(status, number);
}

/* Whether the word is a call with numbers; it is made then. */
static int count(const char *word, size_t first, size_t second)
{
    uint64_t number = 0;
    if (strcmp(word, "take") == 0) {
        printf("%d\n", (int)ddscheck_take(&guard, first, second));
    } else if (strcmp(word, "write") == 0) {
        printf("%d\n", (int)ddscheck_write(&guard, first, second));
    } else if (strcmp(word, "undo") == 0) {
        printf("%d\n", (int)ddscheck_undo_write(&guard, first, second));
    } else if (strcmp(word, "may") == 0) {
        printf("%d\n", (int)ddscheck_may_write(&guard, first, second));
    } else if (strcmp(word, "fire") == 0) {
        printf("%d\n", (int)ddscheck_fire(&guard, first));
    } else if (strcmp(word, "permits") == 0) {
        ddscheck_status status = ddscheck_permits(&guard, first, second, &number);
        tell_number(status, number);
    } else if (strcmp(word, "spare") == 0) {
        ddscheck_status status = ddscheck_spare(&guard, first, second, &number);
        tell_number(status, number);
    } else {
        return 0;
    }
    return 1;
}

int main(void)
{
    char line[512], word[32], first[256], second[256];
    while (fgets(line, sizeof line, stdin) != NULL) {
        first[0] = second[0] = '\0';
        if (sscanf(line, "%31s %255s %255s", word, first, second) < 1) {
            return 2;
        }
        if (strcmp(word, "open") == 0) {
            printf("%d\n", (int)ddscheck_open_file(first, second, &guard));
        } else if (strcmp(word, "close") == 0) {
            printf("%d\n", (int)ddscheck_close(&guard));
        } else if (strcmp(word, "writer") == 0 || strcmp(word, "reader") == 0 || strcmp(word, "rule") == 0 || strcmp(word, "key") == 0) {
            look_up(word, first, second);
        } else if (!count(word, (size_t)strtoull(first, NULL, 10), (size_t)strtoull(second, NULL, 10))) {
            return 2;
        }
    }
    (void)ddscheck_close(&guard);
    return 0;
}
