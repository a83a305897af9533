/* PING on Cyclone DDS, as examples/ping/ping.toml has it: what the guarded programs in C and in C++ share. */
#ifndef PING_H
#define PING_H

#include "Sample.h"
#include "ddscheck_cyclone.h"
#include "ddscheck_file.h"

#include <stdio.h>
#include <stdlib.h>
#include <string.h>

/* an application of PING: its name, and the names of what it writes and takes */
struct ping_side {
    const char *application, *writer, *writes, *reader, *takes;
};

static const struct ping_side ping_sides[2] = {
    {"a1", "ping_w", "ping", "pong_r", "pong"},
    {"a2", "pong_w", "pong", "ping_r", "ping"},
};

/* the write too many that is planted: none, one that the guard is asked for, one past the guard */
enum ping_bug { PING_NO_BUG, PING_BUG, PING_PAST };

/* the words of the command line: DEPLOYMENT APPLICATION SAMPLES TAG TRACE [--bug|--past] */
struct ping_words {
    const char *deployment;
    const struct ping_side *side;
    long samples;
    const char *tag;
    FILE *trace;
    enum ping_bug bug;
};

static inline int ping_read_words(int count, char **words, struct ping_words *read)
{
    if (count < 6 || count > 7 || (count == 7 && strcmp(words[6], "--bug") != 0 && strcmp(words[6], "--past") != 0)) {
        return 0;
    }
    read->deployment = words[1];
    read->side = strcmp(words[2], "a1") == 0 ? &ping_sides[0] : strcmp(words[2], "a2") == 0 ? &ping_sides[1] : NULL;
    read->samples = atol(words[3]);
    read->tag = words[4];
    read->trace = fopen(words[5], "w");
    read->bug = count < 7 ? PING_NO_BUG : strcmp(words[6], "--bug") == 0 ? PING_BUG : PING_PAST;
    return read->side != NULL && read->samples > 0 && read->trace != NULL;
}

/* Notes a sample that was written, or taken, as a line of the trace. */
static inline void ping_wrote(const struct ping_words *words)
{
    (void)fprintf(words->trace, "%lld %s write %s k\n", (long long)dds_time(), words->side->application, words->side->writer);
}

static inline void ping_took(const struct ping_words *words)
{
    (void)fprintf(words->trace, "%lld %s take %s k\n", (long long)dds_time(), words->side->application, words->side->reader);
}

/* The number of a sample's key: PING has one key, k. */
static inline size_t ping_key(const void *sample, void *context)
{
    (void)context;
    const ddscheck_Sample *read = (const ddscheck_Sample *)sample;
    return strcmp(read->key, "k") == 0 ? 0 : DDSCHECK_NO_KEY;
}

/* Cyclone on loopback alone; processes with another tag are not seen. */
static inline void ping_configure(const char *tag)
{
    char text[1024];
    (void)snprintf(text, sizeof text,
                   "<CycloneDDS><Domain Id=\"any\"><General><Interfaces><NetworkInterface name=\"lo\"/></Interfaces><AllowMulticast>false</AllowMulticast></General>"
                   "<Discovery><Tag>%s</Tag><ParticipantIndex>auto</ParticipantIndex><MaxAutoParticipantIndex>40</MaxAutoParticipantIndex>"
                   "<Peers><Peer Address=\"127.0.0.1\"/></Peers><SPDPInterval>250 ms</SPDPInterval></Discovery></Domain></CycloneDDS>",
                   tag);
    (void)setenv("CYCLONEDDS_URI", text, 1);
}

/* RELIABLE and KEEP_ALL, and at most so many samples of an instance, 0 for any number. */
static inline dds_qos_t *ping_qos(int32_t samples)
{
    dds_qos_t *qos = dds_create_qos();
    dds_qset_reliability(qos, DDS_RELIABILITY_RELIABLE, DDS_SECS(1));
    dds_qset_history(qos, DDS_HISTORY_KEEP_ALL, 1);
    dds_qset_resource_limits(qos, DDS_LENGTH_UNLIMITED, DDS_LENGTH_UNLIMITED, samples > 0 ? samples : DDS_LENGTH_UNLIMITED);
    return qos;
}

/* The writer and the reader of a side; false where Cyclone makes none, or the other side doesn't come within ten seconds. */
static inline int ping_meet(const struct ping_side *side, dds_entity_t *writer, dds_entity_t *reader)
{
    dds_entity_t participant = dds_create_participant(0, NULL, NULL);
    dds_entity_t writes = dds_create_topic(participant, &ddscheck_Sample_desc, side->writes, NULL, NULL);
    dds_entity_t takes = dds_create_topic(participant, &ddscheck_Sample_desc, side->takes, NULL, NULL);
    dds_qos_t *of_writer = ping_qos(0), *of_reader = ping_qos(3);
    *writer = dds_create_writer(participant, writes, of_writer, NULL);
    *reader = dds_create_reader(participant, takes, of_reader, NULL);
    dds_delete_qos(of_writer);
    dds_delete_qos(of_reader);
    for (int at = 0; *writer > 0 && *reader > 0 && at < 1000; at++) {
        dds_publication_matched_status_t out;
        dds_subscription_matched_status_t in;
        if (dds_get_publication_matched_status(*writer, &out) == 0 && dds_get_subscription_matched_status(*reader, &in) == 0 && out.current_count > 0 &&
            in.current_count > 0) {
            /* the other side may still be about to see this one */
            dds_sleepfor(DDS_MSECS(500));
            return 1;
        }
        dds_sleepfor(DDS_MSECS(10));
    }
    return 0;
}

/* How many samples a reader rejected. */
static inline uint32_t ping_rejected(dds_entity_t reader)
{
    dds_sample_rejected_status_t status;
    return dds_get_sample_rejected_status(reader, &status) == 0 ? status.total_count : UINT32_MAX;
}

#endif
