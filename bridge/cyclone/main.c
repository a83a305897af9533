// Runs a deployment over Eclipse Cyclone DDS: its participants, writers and readers with their policies and limits, and its applications by their rules.
#include "change.h"
#include "fault.h"
#include "meeting.h"
#include "options.h"
#include "qos.h"
#include "report.h"
#include "tag.h"
#include "trace.h"
#include "worker.h"

#include <stdio.h>
#include <stdlib.h>
#include <string.h>
#include <unistd.h>

// How long the other processes are waited for before the first write, and after they should have ended.
#define MEETING INT64_C(60000000000)
#define PARTING INT64_C(30000000000)
// How long one that isn't heard of is waited for at least.
#define SILENCE INT64_C(2000000000)

// Which participants run in this process.
static void choose(const struct deployment *lists, const struct options *options, bool *is_here)
{
    for (int at = 0; at < lists->participants; at++) {
        is_here[at] = options->named == 0;
    }
    for (int word = 0; word < options->named; word++) {
        int at = 0;
        while (at < lists->participants && strcmp(lists->participant[at].name, options->participant[word]) != 0) {
            at++;
        }
        if (at == lists->participants) {
            fail(STATUS_USAGE, "the deployment has no participant %s", options->participant[word]);
        }
        is_here[at] = true;
    }
}

// Of each rule the period that is asked for, 0 where none is.
static int64_t *periods_of(const struct deployment *lists, const struct options *options)
{
    int64_t *periods = room((unsigned long)lists->rules, sizeof *periods);
    for (int word = 0; word < options->rates; word++) {
        const struct rate *rate = &options->rate[word];
        bool is_found = false;
        // a rule with a key for each entry stands there once for each
        for (int at = 0; at < lists->rules; at++) {
            if (lists->rule[at].is_free && strcmp(lists->rule[at].name, rate->rule) == 0) {
                periods[at] = rate->period;
                is_found = true;
            }
        }
        if (!is_found) {
            fail(STATUS_USAGE, "the deployment has no free rule %s", rate->rule);
        }
    }
    return periods;
}

// Of each reader how long after its write a sample is asked to be taken, `NO_SPAN` where it isn't.
static int64_t *delays_of(const struct deployment *lists, const struct options *options)
{
    int64_t *within = room((unsigned long)lists->readers, sizeof *within);
    for (int at = 0; at < lists->readers; at++) {
        within[at] = NO_SPAN;
    }
    for (int word = 0; word < options->delays; word++) {
        int at = 0;
        while (at < lists->readers && strcmp(lists->reader[at].name, options->delay[word].reader) != 0) {
            at++;
        }
        if (at == lists->readers) {
            fail(STATUS_USAGE, "the deployment has no reader %s", options->delay[word].reader);
        }
        within[at] = options->delay[word].within;
    }
    return within;
}

static void hold(const struct deployment *lists, const struct options *options, struct worker *workers, int64_t begun)
{
    for (int word = 0; word < options->holds; word++) {
        int at = 0;
        const struct hold *held = &options->hold[word];
        while (at < lists->applications && strcmp(lists->application[at].name, held->application) != 0) {
            at++;
        }
        if (at == lists->applications) {
            fail(STATUS_USAGE, "the deployment has no application %s", held->application);
        }
        if (held->after_each) {
            workers[at].slow = held->milliseconds * 1000000;
        } else {
            workers[at].held_until = begun + held->milliseconds * 1000000;
        }
    }
}

// Makes a thread for each application that is here, and waits until all guards are open. The threads then wait at the stage.
static void start(const struct cyclone *system, struct worker *workers, pthread_barrier_t *stage)
{
    const struct deployment *lists = system->lists;
    unsigned here = 0;
    for (int at = 0; at < lists->applications; at++) {
        here += system->is_here[lists->application[at].participant];
    }
    pthread_barrier_init(stage, NULL, here + 1);
    for (int at = 0; at < lists->applications; at++) {
        struct worker *worker = &workers[at];
        worker->stage = stage;
        if (system->is_here[lists->application[at].participant] && pthread_create(&worker->thread, NULL, work, worker) != 0) {
            fail(STATUS_DDS, "no thread can be made");
        }
    }
    pthread_barrier_wait(stage);
}

// Runs the applications that are here to their ends. Gives when they began.
static int64_t run(const struct cyclone *system, struct worker *workers, const struct options *options, pthread_barrier_t *stage)
{
    const struct deployment *lists = system->lists;
    int64_t begun = now();
    hold(lists, options, workers, begun);
    for (int at = 0; at < lists->applications; at++) {
        workers[at].cut_at = begun + (int64_t)options->seconds * 1000000000;
        workers[at].last_success = begun;
    }
    pthread_barrier_wait(stage);
    for (int at = 0; at < lists->applications; at++) {
        if (system->is_here[lists->application[at].participant]) {
            pthread_join(workers[at].thread, NULL);
        }
    }
    return begun;
}

// Ends the process where Cyclone doesn't come back from taking down its entities.
static void *end_late(void *status)
{
    sleep(3);
    _exit(*(int *)status);
}

static _Noreturn void leave(int status)
{
    static int kept;
    pthread_t thread;
    status = checked_output(status);
    kept = status;
    if (pthread_create(&thread, NULL, end_late, &kept) == 0) {
        dds_delete(DDS_CYCLONEDDS_HANDLE);
    }
    _exit(status);
}

// Readies Cyclone for this run, where the environment doesn't.
static void prepare(const struct deployment *lists, const struct options *options, const bool *is_here)
{
    struct wire wire = {.tag = options->tag, .loss = options->loss, .processes = options->named > 0 ? lists->participants : 1};
    for (int at = 0; at < lists->participants; at++) {
        uint32_t domain = lists->participant[at].domain;
        if (domain > HIGHEST_DOMAIN) {
            fail(STATUS_DDS, "Cyclone has no domain above %d, and %s is in %u", HIGHEST_DOMAIN, lists->participant[at].name, domain);
        }
        wire.highest_domain = domain > wire.highest_domain ? domain : wire.highest_domain;
    }
    if (getenv("CYCLONEDDS_URI") != NULL) {
        if (options->loss > 0 || options->tag != NULL) {
            fail(STATUS_USAGE, "--loss and --tag set Cyclone's configuration, and CYCLONEDDS_URI does so too");
        }
        return;
    }
    if (wire.tag == NULL) {
        wire.tag = drawn_tag(lists, is_here);
    }
    configure(&wire);
}

int main(int count, char **words)
{
    guard_output();
    struct options options = read_options(count, words);
    struct deployment *lists = read_deployment(options.path);
    bool is_here[MOST_PARTICIPANTS];
    choose(lists, &options, is_here);
    struct spans spans = {.periods = periods_of(lists, &options), .within = delays_of(lists, &options)};
    prepare(lists, &options, is_here);
    struct cyclone *system = open_system(lists, is_here);
    if (options.match) {
        if (options.named > 0) {
            fail(STATUS_USAGE, "--match needs all participants in one process");
        }
        leave(report_matches(system) ? STATUS_YES : STATUS_NO);
    }
    struct trace trace = open_trace(options.trace);
    struct meeting *meeting = open_meeting(system);
    struct rules rules = rules_of(lists);
    struct worker *workers = room((unsigned long)lists->applications, sizeof *workers);
    for (int at = 0; at < lists->applications; at++) {
        ready_worker(&workers[at], system, &rules, at, &options, &spans);
    }
    pthread_barrier_t stage;
    start(system, workers, &stage);
    if (!meet(meeting, now() + MEETING)) {
        leave(STATUS_NO);
    }
    int64_t begun = run(system, workers, &options, &stage);
    // the others began at nearly the same time, and are cut after as many seconds if they were told as many
    int64_t silence = options.idle * INT64_C(10000000);
    bool all_ended = part(meeting, begun + (int64_t)options.seconds * 1000000000 + PARTING, silence < SILENCE ? SILENCE : silence);
    int status = report_run(system, workers, &options, begun) && all_ended ? STATUS_YES : STATUS_NO;
    leave(write_trace(&trace, system, workers, options.times ? ABSOLUTE : begun) ? status : STATUS_DDS);
}
