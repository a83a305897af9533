/*
 * Opens the guard of PING's a1 beside entities of this QoS: opening DEPLOYMENT [POLICY=VALUE ..], where a policy is one of writer.history, writer.depth,
 * reader.max_samples and so on, with the numbers of ddscheck_qos. Without words the writer is RELIABLE and KEEP_ALL without limits, and so is the reader, but for
 * three samples of an instance. Prints the status by its name, and where an entity differs, its name, what differs, and the numbers of file and entity; with an open
 * guard it writes a sample of no key and one of k, and takes one of each that come from a writer without a guard, and prints what each end's status is then.
 */
#include "ddscheck_cyclone.h"

#include "Sample.h"

#include <stdio.h>
#include <stdlib.h>

/* Counts the calls in its context. */
static size_t count_keys(const void *sample, void *calls)
{
    ++*(int *)calls;
    return strcmp(((const ddscheck_Sample *)sample)->key, "k") == 0 ? 0 : DDSCHECK_NO_KEY;
}

static const char *const names[7] = {"history", "depth", "max_samples", "max_instances", "max_samples_per_instance", "reliability", "durability"};

/* The place of a policy's number. */
static uint32_t *place(ddscheck_qos *qos, size_t at)
{
    uint32_t *places[7] = {&qos->history, &qos->depth, &qos->max_samples, &qos->max_instances, &qos->max_samples_per_instance, &qos->reliability, &qos->durability};
    return places[at];
}

/* Sets what a word such as writer.depth=2 says. Answers whether it's such a word. */
static int set(ddscheck_qos *writer, ddscheck_qos *reader, const char *word)
{
    ddscheck_qos *qos = strncmp(word, "writer.", 7) == 0 ? writer : strncmp(word, "reader.", 7) == 0 ? reader : NULL;
    const char *value = strchr(word, '=');
    for (size_t at = 0; qos != NULL && value != NULL && at < 7; at++) {
        if (strlen(names[at]) == (size_t)(value - word - 7) && strncmp(names[at], word + 7, strlen(names[at])) == 0) {
            *place(qos, at) = (uint32_t)strtoul(value + 1, NULL, 10);
            return 1;
        }
    }
    return 0;
}

static int32_t limit(uint32_t number) { return number == 0 ? DDS_LENGTH_UNLIMITED : (int32_t)number; }

static dds_qos_t *made(const ddscheck_qos *qos)
{
    dds_qos_t *all = dds_create_qos();
    dds_qset_durability(all, (dds_durability_kind_t)qos->durability);
    dds_qset_reliability(all, (dds_reliability_kind_t)qos->reliability, DDS_MSECS(100));
    dds_qset_history(all, (dds_history_kind_t)qos->history, qos->history == 0 ? (int32_t)qos->depth : 1);
    dds_qset_resource_limits(all, limit(qos->max_samples), limit(qos->max_instances), limit(qos->max_samples_per_instance));
    return all;
}

static void write_key(ddscheck_dds_end *writer, const char *key)
{
    ddscheck_Sample sample;
    memset(&sample, 0, sizeof sample);
    (void)snprintf(sample.key, sizeof sample.key, "%s", key);
    dds_return_t answer = ddscheck_dds_write(writer, &sample);
    printf("write %s %d %s\n", key, answer == DDS_RETCODE_OK, ddscheck_status_name(writer->status));
}

static void take_key(ddscheck_dds_end *reader, dds_entity_t other, const char *key)
{
    ddscheck_Sample sample;
    void *samples[1] = {&sample};
    dds_sample_info_t info;
    dds_return_t taken = 0;
    memset(&sample, 0, sizeof sample);
    (void)snprintf(sample.key, sizeof sample.key, "%s", key);
    (void)dds_write(other, &sample);
    for (int at = 0; at < 500 && taken == 0; at++) {
        dds_sleepfor(DDS_MSECS(10));
        taken = ddscheck_dds_take(reader, samples, &info, 1, 1);
    }
    printf("take %s %d %s\n", key, (int)taken, ddscheck_status_name(reader->status));
}

/* What an open guard answers for samples of a key and of none. */
static void use(ddscheck_dds_end *writer, ddscheck_dds_end *reader, dds_entity_t participant, dds_entity_t pong)
{
    ddscheck_qos qos = {0, 1, 1, 0, 0, 0, 0};
    dds_qos_t *reliable = made(&qos);
    dds_entity_t other = dds_create_writer(participant, pong, reliable, NULL);
    dds_delete_qos(reliable);
    write_key(writer, "x");
    write_key(writer, "k");
    take_key(reader, other, "x");
    take_key(reader, other, "k");
    printf("%d calls\n", *(int *)writer->context);
}

/* How many of the calls let NULL through. */
static int count_wrong(const char *path, ddscheck_dds_end *end)
{
    ddscheck_guard guard = DDSCHECK_GUARD_CLOSED;
    ddscheck_dds_difference difference;
    ddscheck_dds_end keyless = DDSCHECK_DDS_END(0, NULL, NULL);
    ddscheck_dds_name named = {"ping_w", end}, nameless = {NULL, end}, endless = {"ping_w", NULL}, without_keys = {"ping_w", &keyless};
    ddscheck_Sample sample;
    int wrong = ddscheck_dds_open(NULL, "a1", &guard, &named, 1, &difference) != DDSCHECK_NULL;
    wrong += ddscheck_dds_open(path, NULL, &guard, &named, 1, &difference) != DDSCHECK_NULL;
    wrong += ddscheck_dds_open(path, "a1", NULL, &named, 1, &difference) != DDSCHECK_NULL;
    wrong += ddscheck_dds_open(path, "a1", &guard, NULL, 1, &difference) != DDSCHECK_NULL;
    wrong += ddscheck_dds_open(path, "a1", &guard, &named, 1, NULL) != DDSCHECK_NULL;
    wrong += ddscheck_dds_open(path, "a1", &guard, &nameless, 1, &difference) != DDSCHECK_NULL;
    wrong += ddscheck_dds_open(path, "a1", &guard, &endless, 1, &difference) != DDSCHECK_NULL;
    wrong += ddscheck_dds_open(path, "a1", &guard, &without_keys, 1, &difference) != DDSCHECK_NULL;
    wrong += ddscheck_dds_take(NULL, NULL, NULL, 1, 1) != DDS_RETCODE_BAD_PARAMETER;
    wrong += ddscheck_dds_write(NULL, &sample) != DDS_RETCODE_BAD_PARAMETER;
    wrong += ddscheck_dds_write(end, NULL) != DDS_RETCODE_BAD_PARAMETER;
    wrong += ddscheck_dds_undo_write(NULL, &sample) != DDSCHECK_NULL;
    wrong += ddscheck_dds_undo_write(end, NULL) != DDSCHECK_NULL;
    return wrong;
}

int main(int count, char **words)
{
    ddscheck_qos of_writer = {0, 1, 1, 0, 0, 0, 0}, of_reader = {0, 1, 1, 0, 0, 0, 3};
    ddscheck_guard guard = DDSCHECK_GUARD_CLOSED;
    int calls = 0;
    ddscheck_dds_end writer = DDSCHECK_DDS_END(0, count_keys, &calls), reader = DDSCHECK_DDS_END(0, count_keys, &calls);
    ddscheck_dds_name ends[2] = {{"ping_w", &writer}, {"pong_r", &reader}};
    ddscheck_dds_difference difference;
    for (int at = 2; at < count; at++) {
        if (!set(&of_writer, &of_reader, words[at])) {
            return 4;
        }
    }
    dds_entity_t participant = dds_create_participant(DDS_DOMAIN_DEFAULT, NULL, NULL);
    dds_entity_t ping = dds_create_topic(participant, &ddscheck_Sample_desc, "ping", NULL, NULL), pong = dds_create_topic(participant, &ddscheck_Sample_desc, "pong", NULL, NULL);
    dds_qos_t *first = made(&of_writer), *second = made(&of_reader);
    writer.entity = dds_create_writer(participant, ping, first, NULL);
    reader.entity = dds_create_reader(participant, pong, second, NULL);
    dds_delete_qos(first);
    dds_delete_qos(second);
    if (writer.entity < 0 || reader.entity < 0) {
        return 3;
    }
    int wrong = count_wrong(words[1], &writer);
    ddscheck_status status = ddscheck_dds_open(words[1], "a1", &guard, ends, 2, &difference);
    if (wrong > 0) {
        printf("%d calls took NULL\n", wrong);
    }
    printf("%s", ddscheck_status_name(status));
    if (status == DDSCHECK_OTHER_QOS) {
        printf(" %s %s %u %u", difference.end, difference.what, (unsigned)difference.of_file, (unsigned)difference.of_entity);
    }
    printf("\n%s\n", ddscheck_status_name(ddscheck_may_write(&guard, 0, 0)));
    if (status == DDSCHECK_OK) {
        use(&writer, &reader, participant, pong);
    }
    (void)ddscheck_close(&guard);
    dds_delete(participant);
    return 0;
}
