/* The deployment of examples/ping on Cyclone DDS, in one process: the first application writes three samples and one more for each answer that it
   takes, the second answers each sample that it takes. It prints how many samples a second were written and taken, and the processor's part.

   ping alone N          both sides in one domain, by one thread, which takes what has come and never waits
   ping local N          both sides in one domain, a thread each: Cyclone DDS delivers within the process
   ping net N PERMILLE   a domain object for each side, which speak over the loopback device, and so many of a thousand packets are lost on purpose

   To build it, with Debian's cyclonedds-dev:
   idlc Number.idl && cc -O2 -o ping ping.c Number.c -lddsc -lpthread */
#include "Number.h"
#include <dds/dds.h>
#include <pthread.h>
#include <stdio.h>
#include <stdlib.h>
#include <string.h>
#include <sys/resource.h>
#include <time.h>

#define FIRST 3
#define TAKEN 16

typedef struct {
    dds_entity_t participant, writer, reader, waitset;
    long writes, takes, limit;
    int starts;
} side;

static void need(dds_return_t code, const char *what) {
    if (code < 0) {
        fprintf(stderr, "%s: %s\n", what, dds_strretcode(code));
        exit(1);
    }
}

static void open_side(side *s, dds_domainid_t domain, const char *writes, const char *reads) {
    s->participant = dds_create_participant(domain, NULL, NULL);
    need(s->participant, "participant");
    dds_qos_t *qos = dds_create_qos();
    dds_qset_reliability(qos, DDS_RELIABILITY_RELIABLE, DDS_INFINITY);
    dds_qset_history(qos, DDS_HISTORY_KEEP_ALL, 0);
    dds_entity_t out = dds_create_topic(s->participant, &ping_Number_desc, writes, qos, NULL);
    need(out, "topic");
    dds_entity_t in = dds_create_topic(s->participant, &ping_Number_desc, reads, qos, NULL);
    need(in, "topic");
    s->writer = dds_create_writer(s->participant, out, qos, NULL);
    need(s->writer, "writer");
    dds_qset_resource_limits(qos, DDS_LENGTH_UNLIMITED, DDS_LENGTH_UNLIMITED, FIRST);
    s->reader = dds_create_reader(s->participant, in, qos, NULL);
    need(s->reader, "reader");
    dds_delete_qos(qos);
    s->waitset = dds_create_waitset(s->participant);
    need(s->waitset, "waitset");
    dds_entity_t condition = dds_create_readcondition(s->reader, DDS_ANY_STATE);
    need(condition, "condition");
    need(dds_waitset_attach(s->waitset, condition, 0), "attach");
}

static void await_match(const side *s) {
    dds_publication_matched_status_t writer;
    dds_subscription_matched_status_t reader;
    do {
        dds_sleepfor(DDS_MSECS(10));
        need(dds_get_publication_matched_status(s->writer, &writer), "status");
        need(dds_get_subscription_matched_status(s->reader, &reader), "status");
    } while (writer.current_count < 1 || reader.current_count < 1);
}

static void write_one(side *s) {
    ping_Number sample;
    memset(&sample, 0, sizeof sample);
    strcpy(sample.key, "k");
    memcpy(sample.payload, &s->writes, sizeof s->writes);
    need(dds_write(s->writer, &sample), "write");
    s->writes++;
}

static void take_ready(side *s) {
    void *samples[TAKEN] = {0};
    dds_sample_info_t infos[TAKEN];
    int count = dds_take(s->reader, samples, infos, TAKEN, TAKEN);
    need(count, "take");
    for (int i = 0; i < count; i++) {
        if (!infos[i].valid_data) continue;
        s->takes++;
        if (s->writes < s->limit) write_one(s);
    }
    need(dds_return_loan(s->reader, samples, count), "loan");
}

static void write_first(side *s) {
    for (int i = 0; i < s->starts; i++) write_one(s);
}

static void *run_side(void *from) {
    side *s = from;
    write_first(s);
    while (s->takes < s->limit) {
        dds_attach_t ready;
        need(dds_waitset_wait(s->waitset, &ready, 1, DDS_SECS(10)), "wait");
        take_ready(s);
    }
    return NULL;
}

static void run_by_one_thread(side *one, side *two) {
    write_first(one);
    while (one->takes < one->limit) {
        take_ready(two);
        take_ready(one);
    }
}

static void run_by_two_threads(side *one, side *two) {
    pthread_t first, second;
    pthread_create(&first, NULL, run_side, one);
    pthread_create(&second, NULL, run_side, two);
    pthread_join(first, NULL);
    pthread_join(second, NULL);
}

static double seconds(clockid_t clock) {
    struct timespec now;
    clock_gettime(clock, &now);
    return now.tv_sec + now.tv_nsec / 1e9;
}

static void open_domains(int permille) {
    char config[400];
    snprintf(config, sizeof config,
             "<Discovery><ExternalDomainId>77</ExternalDomainId></Discovery>"
             "<General><Interfaces><NetworkInterface name=\"lo\" multicast=\"false\"/></Interfaces></General>"
             "<Internal><Test><XmitLossiness>%d</XmitLossiness></Test></Internal>",
             permille);
    need(dds_create_domain(0, config), "domain");
    need(dds_create_domain(1, config), "domain");
}

int main(int count, char **words) {
    int over_net = count == 4 && strcmp(words[1], "net") == 0;
    int by_one = count == 3 && strcmp(words[1], "alone") == 0;
    if (!over_net && !by_one && !(count == 3 && strcmp(words[1], "local") == 0)) {
        fprintf(stderr, "ping alone N | ping local N | ping net N PERMILLE\n");
        return 4;
    }
    if (over_net) open_domains(atoi(words[3]));
    side one = {.limit = atol(words[2]), .starts = FIRST}, two = {.limit = atol(words[2])};
    open_side(&one, 0, "ping", "pong");
    open_side(&two, over_net ? 1 : 0, "pong", "ping");
    await_match(&one);
    await_match(&two);
    double began = seconds(CLOCK_MONOTONIC), used = seconds(CLOCK_PROCESS_CPUTIME_ID);
    (by_one ? run_by_one_thread : run_by_two_threads)(&one, &two);
    double took = seconds(CLOCK_MONOTONIC) - began;
    used = seconds(CLOCK_PROCESS_CPUTIME_ID) - used;
    printf("%ld samples in %.2f s: %.0f a second, %.2f processors\n", one.takes + two.takes, took, (one.takes + two.takes) / took, used / took);
    return 0;
}
