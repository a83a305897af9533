#include "watch.h"
#include "change.h"
#include "fault.h"
#include "interrupt.h"
#include "raw.h"

#include <stdio.h>
#include <stdlib.h>
#include <string.h>

// How many readers there are at most, what is kept of each between two looks, how many samples are taken at once, and of how many the times are kept in all.
enum { MOST_POSTS = MOST_ENDPOINTS, DEPTH = 8192, AT_ONCE = 64, MOST_HEARD = 4194304 };
#define LOOK INT64_C(5000000)

// The samples of a writer so far.
struct log {
    struct seen_endpoint *writer;
    dds_instance_handle_t handle;
    struct heard_sample *sample;
    size_t count, space;
};

// A reader, and the writers that it's there for, which are the logs from `first` on.
struct post {
    dds_entity_t reader;
    int first, count;
};

struct watch {
    int posts, logs;
    struct post *post;
    struct log *log;
    size_t heard;
};

// ── readers

// Whether one reader hears both writers: they're of one topic, and have the same partitions and ownership.
static bool is_alike(const struct seen_endpoint *one, const struct seen_endpoint *other)
{
    if (one->domain != other->domain || strcmp(one->topic, other->topic) != 0 || strcmp(one->type, other->type) != 0 || one->has_keys != other->has_keys ||
        one->policies.ownership != other->policies.ownership || one->partitions != other->partitions) {
        return false;
    }
    for (int at = 0; at < one->partitions; at++) {
        if (strcmp(one->partition[at], other->partition[at]) != 0) {
            return false;
        }
    }
    return true;
}

// A partition that this one matches, and which is no pattern: two patterns never match.
static char *plain_partition(const char *partition)
{
    char *found = room(strlen(partition) + 1, 1), *end = found;
    for (const char *at = partition; *at != '\0'; at++) {
        if (*at != '*') {
            *end++ = *at == '?' ? 'x' : *at;
        }
    }
    return found;
}

static void set_partitions(dds_qos_t *qos, const struct seen_endpoint *writer)
{
    char **names = room((unsigned long)writer->partitions, sizeof *names);
    for (int at = 0; at < writer->partitions; at++) {
        names[at] = plain_partition(writer->partition[at]);
    }
    if (writer->partitions > 0) {
        dds_qset_partition(qos, (uint32_t)writer->partitions, (const char **)names);
    }
    for (int at = 0; at < writer->partitions; at++) {
        free(names[at]);
    }
    free(names);
}

// A reader that asks for as little as it can, so that each writer of these matches. Below 0 where Cyclone makes none.
static dds_entity_t open_reader(dds_entity_t participant, const struct seen_endpoint *writer)
{
    dds_qos_t *group = dds_create_qos(), *qos = dds_create_qos();
    set_partitions(group, writer);
    dds_qset_reliability(qos, DDS_RELIABILITY_BEST_EFFORT, 0);
    dds_qset_history(qos, DDS_HISTORY_KEEP_LAST, DEPTH);
    dds_qset_latency_budget(qos, DDS_INFINITY);
    dds_qset_ownership(qos, (dds_ownership_kind_t)writer->policies.ownership);
    dds_entity_t topic = raw_topic(participant, writer->topic, writer->type, writer->has_keys);
    dds_entity_t subscriber = topic < 0 ? topic : dds_create_subscriber(participant, group, NULL);
    dds_entity_t reader = subscriber < 0 ? subscriber : dds_create_reader(subscriber, topic, qos, NULL);
    dds_delete_qos(group);
    dds_delete_qos(qos);
    return reader;
}

// Why there is no reader, where Cyclone says this.
static char *why_none(dds_entity_t reader)
{
    char *text;
    FILE *out = open_text(&text);
    fprintf(out, "Cyclone makes no reader for it: %s", dds_strretcode(-reader));
    close_text(out);
    return text;
}

static bool is_asked(const struct watching *watching, const struct seen_endpoint *end)
{
    return end->is_writer && (watching->topics.count == 0 || has_some(&watching->topics, end->topic));
}

// Adds a reader for this writer and all that are like it.
static void add_post(struct watch *watched, struct seen *seen, const struct watching *watching, int first)
{
    struct seen_endpoint *writer = &seen->endpoint[first];
    struct post *post = &watched->post[watched->posts++];
    *post = (struct post){.reader = open_reader(participant_in(seen, writer->domain), writer), .first = watched->logs};
    for (int at = first; at < seen->endpoints; at++) {
        struct seen_endpoint *end = &seen->endpoint[at];
        if (is_asked(watching, end) && end->watched == NOT_WATCHED && is_alike(writer, end)) {
            end->watched = post->reader < 0 ? NOT_WATCHABLE : WATCHED;
            end->why = post->reader < 0 ? why_none(post->reader) : NULL;
            watched->log[watched->logs++] = (struct log){.writer = end};
            post->count++;
        }
    }
}

// There are as many readers as there may be.
static void leave_out(struct seen_endpoint *writer)
{
    static char why[] = "as many topics are watched as a file may have";
    writer->watched = NOT_WATCHABLE;
    writer->why = why;
}

// ── samples

static bool is_writer(const struct log *log, dds_entity_t reader, dds_instance_handle_t handle)
{
    dds_builtintopic_endpoint_t *found = dds_get_matched_publication_data(reader, handle);
    bool is_it = found != NULL && memcmp(&found->key, &log->writer->key, sizeof found->key) == 0;
    if (found != NULL) {
        dds_builtintopic_free_endpoint(found);
    }
    return is_it;
}

// The log of the writer that Cyclone has by this handle, NULL where it is none of these.
static struct log *log_of(struct watch *watched, const struct post *post, dds_instance_handle_t handle)
{
    struct log *unknown = NULL;
    for (int at = post->first; at < post->first + post->count; at++) {
        if (watched->log[at].handle == handle) {
            return &watched->log[at];
        }
        bool is_it = unknown == NULL && watched->log[at].handle == DDS_HANDLE_NIL && is_writer(&watched->log[at], post->reader, handle);
        unknown = is_it ? &watched->log[at] : unknown;
    }
    if (unknown != NULL) {
        unknown->handle = handle;
    }
    return unknown;
}

static void add_sample(struct watch *watched, struct log *log, const struct heard_sample *sample)
{
    if (log->count > 0 && sample->number <= log->sample[log->count - 1].number) {
        return;
    }
    if (log->count == log->space) {
        log->space = log->space > 0 ? 2 * log->space : 256;
        log->sample = realloc(log->sample, log->space * sizeof *log->sample);
        if (log->sample == NULL) {
            fail(STATUS_DDS, "memory ran out");
        }
    }
    log->sample[log->count++] = *sample;
    watched->heard++;
}

static void take_all(struct watch *watched, const struct post *post)
{
    struct raw raw[AT_ONCE];
    void *place[AT_ONCE];
    dds_sample_info_t about[AT_ONCE];
    dds_return_t count;
    for (int at = 0; at < AT_ONCE; at++) {
        place[at] = &raw[at];
    }
    do {
        count = dds_take(post->reader, place, about, AT_ONCE, AT_ONCE);
        for (int at = 0; at < count; at++) {
            struct log *log = about[at].valid_data ? log_of(watched, post, about[at].publication_handle) : NULL;
            if (log != NULL) {
                add_sample(watched, log, &(struct heard_sample){.number = raw[at].number, .stamp = about[at].source_timestamp, .time = raw[at].time});
            }
        }
    } while (count == AT_ONCE && watched->heard < MOST_HEARD);
}

// ── all of it

static void listen(struct watch *watched, int64_t nanoseconds)
{
    int64_t until = later(now(), nanoseconds);
    while (now() < until && watched->heard < MOST_HEARD && !is_interrupted()) {
        sleep_for(LOOK);
        for (int at = 0; at < watched->posts; at++) {
            if (watched->post[at].reader >= 0) {
                take_all(watched, &watched->post[at]);
            }
        }
    }
}

void watch(struct seen *seen, const struct watching *watching)
{
    struct watch watched = {.post = room((unsigned long)seen->endpoints, sizeof *watched.post), .log = room((unsigned long)seen->endpoints, sizeof *watched.log)};
    note_interrupts();
    int64_t begun = now();
    for (int at = 0; at < seen->endpoints && !is_interrupted(); at++) {
        struct seen_endpoint *end = &seen->endpoint[at];
        if (!is_asked(watching, end) || end->watched != NOT_WATCHED) {
            continue;
        }
        if (watched.posts == MOST_POSTS) {
            leave_out(end);
        } else {
            add_post(&watched, seen, watching, at);
        }
    }
    listen(&watched, watching->nanoseconds);
    seen->watched_for = now() - begun;
    obey_interrupts();
    for (int at = 0; at < watched.logs; at++) {
        struct log *log = &watched.log[at];
        log->writer->beat = beat_of(log->sample, log->count);
        free(log->sample);
    }
    free(watched.post);
    free(watched.log);
}
