/*
 * Goes through PING's guard for a1 by the header's calls: calls DEPLOYMENT CERTIFICATE. Prints what each call answers, by name, and what the check says. Queries
 * get the guard as const.
 */
#include "ddscheck_file.h"

static void print(const char *what, ddscheck_status status) { printf("%s %s\n", what, ddscheck_status_name(status)); }

/* What a part of a program asks that may change nothing. */
static void ask(const ddscheck_guard *guard, size_t writer, size_t reader, size_t key)
{
    uint64_t permits = 0, spare = 0;
    size_t rule = 0;
    print("rule", ddscheck_rule(guard, "serve", &rule));
    print("may_write", ddscheck_may_write(guard, writer, key));
    print("permits", ddscheck_permits(guard, writer, key, &permits));
    print("spare", ddscheck_spare(guard, reader, key, &spare));
    printf("%lu %lu\n", (unsigned long)permits, (unsigned long)spare);
}

static void keep_rules(ddscheck_guard *guard)
{
    size_t writer = 0, reader = 0, key = 0;
    int writes = 0;
    print("writer", ddscheck_writer(guard, "ping_w", &writer));
    print("reader", ddscheck_reader(guard, "pong_r", &reader));
    print("key", ddscheck_key(guard, "ping", "k", &key));
    print("no writer", ddscheck_writer(guard, "none", &writer));
    ask(guard, writer, reader, key);
    while (ddscheck_write(guard, writer, key) == DDSCHECK_OK) {
        writes++;
    }
    printf("%d writes\n", writes);
    print("take", ddscheck_take(guard, reader, key));
    ask(guard, writer, reader, key);
    print("fire", ddscheck_fire(guard, 0));
    print("write", ddscheck_write(guard, writer, key));
    print("one too many", ddscheck_write(guard, writer, key));
    print("undo", ddscheck_undo_write(guard, writer, key));
    print("undo again", ddscheck_undo_write(guard, writer, key));
    print("undo of another's", ddscheck_undo_write(guard, writer + 1, key));
    print("write", ddscheck_write(guard, writer, key));
    print("one too many", ddscheck_write(guard, writer, key));
}

static void print_qos(const char *what, ddscheck_status status, const ddscheck_qos *qos)
{
    print(what, status);
    printf("%u %u %u %u %u %u %u\n", (unsigned)qos->durability, (unsigned)qos->reliability, (unsigned)qos->history, (unsigned)qos->depth, (unsigned)qos->max_samples,
        (unsigned)qos->max_instances, (unsigned)qos->max_samples_per_instance);
}

/* What the file says of the QoS of its endpoints; what isn't there leaves the last answer as it was. */
static void read_qos(const char *path)
{
    ddscheck_qos qos = {9, 9, 9, 9, 9, 9, 9};
    char *bytes = NULL;
    size_t length = 0;
    print("read", ddscheck_read_file(path, &bytes, &length));
    print_qos("no deployment", ddscheck_read_writer(bytes, length / 2, 0, &qos), &qos);
    print_qos("ping_w", ddscheck_read_writer(bytes, length, 0, &qos), &qos);
    print_qos("pong_r", ddscheck_read_reader(bytes, length, 1, &qos), &qos);
    print_qos("no reader", ddscheck_read_reader(bytes, length, 2, &qos), &qos);
    free(bytes);
}

#ifndef GUARD_ALONE
static size_t read_file(const char *path, char *bytes, size_t most)
{
    FILE *file = fopen(path, "rb");
    size_t length = file == NULL ? 0 : fread(bytes, 1, most, file);
    if (file != NULL) {
        (void)fclose(file);
    }
    return length;
}

static void check(const char *deployment, const char *certificate)
{
    static char first[65536], second[65536];
    char text[64];
    ddscheck_verdict verdict = DDSCHECK_BAD_FILE;
    size_t lengths[2], length = 0;
    lengths[0] = read_file(deployment, first, sizeof first);
    lengths[1] = read_file(certificate, second, sizeof second);
    print("check", ddscheck_check(first, lengths[0], second, lengths[1], &verdict, text, sizeof text, &length));
    printf("%d %lu\n%s", (int)verdict, (unsigned long)length, text);
    verdict = DDSCHECK_BAD_FILE;
    print("verdict alone", ddscheck_check(first, lengths[0], second, lengths[1], &verdict, NULL, 0, NULL));
    printf("%d\n", (int)verdict);
}
#endif

int main(int count, char **words)
{
    ddscheck_guard guard = DDSCHECK_GUARD_CLOSED;
    if (count != 3) {
        return 4;
    }
    printf("%d\n", ddscheck_version() == DDSCHECK_VERSION_NUMBER);
    print("no file", ddscheck_open_file("/nowhere", "a1", &guard));
    print("no application", ddscheck_open_file(words[1], "a3", &guard));
    print("open", ddscheck_open_file(words[1], "a1", &guard));
    print("open again", ddscheck_open_file(words[1], "a1", &guard));
    keep_rules(&guard);
    print("close", ddscheck_close(&guard));
    print("close again", ddscheck_close(&guard));
    read_qos(words[1]);
#ifndef GUARD_ALONE
    check(words[1], words[2]);
#endif
    return 0;
}
