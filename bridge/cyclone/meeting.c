#include "meeting.h"
#include "fault.h"
#include "numbers.h"

#include <stdio.h>
#include <stdlib.h>
#include <string.h>

// A domain in which no participant of the deployment is. Cyclone delivers all samples of a domain one after the other, so in the same one a sample that a full
// reader rejects would hold up what is said here.
static dds_domainid_t free_domain(const struct deployment *lists)
{
    dds_domainid_t domain = 0;
    for (int at = 0; at < lists->participants; at++) {
        if (lists->participant[at].domain == domain) {
            domain++;
            at = -1;
        }
    }
    return domain;
}

static void say(struct meeting *meeting)
{
    const struct deployment *lists = meeting->system->lists;
    for (int at = 0; at < lists->participants; at++) {
        if (meeting->system->is_here[at]) {
            ddscheck_Sample sample = sample_of(lists->participant[at].name);
            sample.data[0] = (uint8_t)meeting->said;
            dds_write(meeting->writer, &sample);
        }
    }
}

// How often a process says where it is: many do so more rarely, since each of them tells each other one.
static int64_t beat_of(const struct meeting *meeting)
{
    return meeting->system->lists->participants * INT64_C(20000000);
}

// How often a process looks whether something has changed.
static int64_t look_of(const struct meeting *meeting)
{
    return beat_of(meeting) / 32;
}

// Says the same again and again.
static void *go_on_saying(void *argument)
{
    struct meeting *meeting = argument;
    while (true) {
        sleep_for(beat_of(meeting));
        say(meeting);
    }
    return NULL;
}

static void say_now(struct meeting *meeting, enum stage stage)
{
    bool is_first = meeting->said == STAGE_AWAY;
    meeting->said = stage;
    if (meeting->is_alone) {
        return;
    }
    say(meeting);
    if (is_first && pthread_create(&meeting->beat, NULL, go_on_saying, meeting) != 0) {
        fail(STATUS_DDS, "no thread can be made");
    }
}

// One topic keeps the last word of each participant.
static void open_topic(struct meeting *meeting, dds_domainid_t domain)
{
    dds_qos_t *qos = dds_create_qos();
    dds_qset_durability(qos, DDS_DURABILITY_TRANSIENT_LOCAL);
    dds_qset_reliability(qos, DDS_RELIABILITY_RELIABLE, DDS_SECS(1));
    dds_qset_history(qos, DDS_HISTORY_KEEP_LAST, 1);
    dds_qset_writer_data_lifecycle(qos, false);
    meeting->participant = dds_create_participant(domain, NULL, NULL);
    dds_entity_t topic = dds_create_topic(meeting->participant, &ddscheck_Sample_desc, "ddscheck_meeting", NULL, NULL);
    meeting->reader = dds_create_reader(meeting->participant, topic, qos, NULL);
    meeting->writer = dds_create_writer(meeting->participant, topic, qos, NULL);
    dds_delete_qos(qos);
    if (meeting->participant < 0 || topic < 0 || meeting->reader < 0 || meeting->writer < 0) {
        fail(STATUS_DDS, "Cyclone makes no topic where the processes meet");
    }
}

struct meeting *open_meeting(struct cyclone *system)
{
    const struct deployment *lists = system->lists;
    struct meeting *meeting = room(1, sizeof *meeting);
    meeting->system = system;
    meeting->is_alone = true;
    meeting->stage = room((unsigned long)lists->participants, sizeof *meeting->stage);
    meeting->heard = room((unsigned long)lists->participants, sizeof *meeting->heard);
    for (int at = 0; at < lists->participants; at++) {
        meeting->is_alone = meeting->is_alone && system->is_here[at];
    }
    if (!meeting->is_alone) {
        open_topic(meeting, free_domain(lists));
    }
    return meeting;
}

// Whether a participant has come to this stage, or isn't waited for there: before the first write, nobody waits for one that may be late.
static bool has_come(const struct meeting *meeting, int participant, enum stage stage)
{
    bool is_awaited = stage == STAGE_ENDED || !meeting->system->lists->participant[participant].may_be_late;
    return !is_awaited || meeting->stage[participant] >= stage;
}

// Whether all participants have come to this stage, by what they have said so far.
static bool have_come(struct meeting *meeting, enum stage stage)
{
    const struct deployment *lists = meeting->system->lists;
    ddscheck_Sample sample;
    void *at[1] = {&sample};
    dds_sample_info_t about;
    if (meeting->is_alone) {
        return true;
    }
    while (dds_take(meeting->reader, at, &about, 1, 1) == 1) {
        for (int p = 0; about.valid_data && p < lists->participants; p++) {
            if (strcmp(lists->participant[p].name, sample.key) == 0) {
                meeting->heard[p] = now();
                meeting->stage[p] = sample.data[0] > meeting->stage[p] ? sample.data[0] : meeting->stage[p];
            }
        }
    }
    for (int p = 0; p < lists->participants; p++) {
        if (!has_come(meeting, p, stage)) {
            return false;
        }
    }
    return true;
}

// Whether an intended pair has matched, as far as that is known here.
static bool has_met(const struct cyclone *system, const struct connection *pair)
{
    return (!writer_is_here(system, pair->writer) || writer_has(system, pair->writer, pair->reader)) &&
           (!reader_is_here(system, pair->reader) || reader_has(system, pair->reader, pair->writer));
}

static bool all_met(const struct cyclone *system, bool tell)
{
    bool all = true;
    for (int at = 0; at < system->lists->connections; at++) {
        const struct connection *pair = &system->lists->connection[at];
        if (!is_late_pair(system->lists, pair->writer, pair->reader) && !has_met(system, pair)) {
            all = false;
            if (!tell) {
                return false;
            }
            printf("unmatched %s %s\n", system->lists->writer[pair->writer].name, system->lists->reader[pair->reader].name);
        }
    }
    return all;
}

// Whether all participants of this process may be late, so that it waits for nobody.
static bool may_be_late(const struct cyclone *system)
{
    for (int at = 0; at < system->lists->participants; at++) {
        if (system->is_here[at] && !system->lists->participant[at].may_be_late) {
            return false;
        }
    }
    return true;
}

bool meet(struct meeting *meeting, int64_t until)
{
    while (!all_met(meeting->system, false)) {
        if (now() >= until) {
            all_met(meeting->system, true);
            return false;
        }
        sleep_for(look_of(meeting));
    }
    say_now(meeting, STAGE_MATCHED);
    while (!may_be_late(meeting->system) && !have_come(meeting, STAGE_MATCHED)) {
        if (now() >= until) {
            fprintf(stderr, "run-on-cyclone: not all participants have come; all processes of a run have the same document and tag\n");
            return false;
        }
        sleep_for(look_of(meeting));
    }
    return true;
}

// Waits until what was written here is acknowledged. A reader that rejects what it is sent never does so, and a process that was killed neither, so this has an end.
static void wait_for_acks(const struct cyclone *system, int64_t until)
{
    int64_t most = now() + 2000000000;
    until = until < most ? until : most;
    for (int at = 0; at < system->lists->writers; at++) {
        int64_t left = until - now();
        if (writer_is_here(system, at) && left > 0) {
            dds_wait_for_acks(system->writer[at].handle, left);
        }
    }
}

// Whether a participant may still come, and never was heard of.
static bool is_to_come(const struct meeting *meeting, int participant)
{
    return meeting->system->lists->participant[participant].may_be_late && meeting->stage[participant] == STAGE_AWAY;
}

// Reports the participants that haven't ended and weren't heard of since a time. True where there are some.
static bool are_silent(const struct meeting *meeting, int64_t since)
{
    const struct deployment *lists = meeting->system->lists;
    bool found = false;
    for (int at = 0; at < lists->participants; at++) {
        if (meeting->stage[at] < STAGE_ENDED && !is_to_come(meeting, at) && meeting->heard[at] < since) {
            fprintf(stderr, "run-on-cyclone: participant %s is silent and waited for no longer\n", lists->participant[at].name);
            found = true;
        }
    }
    return found;
}

// Whether each process that was heard here has matched in the other direction too.
static bool all_can_hear(const struct meeting *meeting)
{
    return dds_get_matched_subscriptions(meeting->writer, NULL, 0) >= dds_get_matched_publications(meeting->reader, NULL, 0);
}

// Says for the last time that all have ended here, so that each process hears it before this one leaves: one that came late may have matched only by half.
static void take_leave(struct meeting *meeting)
{
    int64_t until = now() + DDS_SECS(2);
    while (!all_can_hear(meeting) && now() < until) {
        sleep_for(look_of(meeting));
    }
    say(meeting);
    dds_wait_for_acks(meeting->writer, DDS_SECS(2));
}

bool part(struct meeting *meeting, int64_t until, int64_t silence)
{
    const struct deployment *lists = meeting->system->lists;
    silence += 8 * beat_of(meeting);
    wait_for_acks(meeting->system, until);
    say_now(meeting, STAGE_ENDED);
    // what was said while the applications ran is heard only now, so all have been silent for no time yet
    have_come(meeting, STAGE_ENDED);
    for (int at = 0; at < lists->participants; at++) {
        meeting->heard[at] = now();
    }
    while (!have_come(meeting, STAGE_ENDED) && now() < until) {
        if (are_silent(meeting, now() - silence)) {
            return false;
        }
        sleep_for(look_of(meeting));
    }
    if (!meeting->is_alone) {
        take_leave(meeting);
    }
    return true;
}
