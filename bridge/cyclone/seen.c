#include "seen.h"
#include "change.h"
#include "fault.h"
#include "interrupt.h"
#include "policy.h"

#include <stdlib.h>
#include <string.h>

enum { AT_ONCE = 64 };

static void *one_more(void *list, int count, size_t size)
{
    // lists grow by doubling, at each power of two
    if ((count & (count - 1)) == 0) {
        list = realloc(list, (size_t)(count > 0 ? 2 * count : 1) * size);
        if (list == NULL) {
            fail(STATUS_DDS, "memory ran out");
        }
    }
    return list;
}

static char *copy_of(const char *text)
{
    char *found = strdup(text);
    if (found == NULL) {
        fail(STATUS_DDS, "memory ran out");
    }
    return found;
}

// ── policies

// What isn't announced stays as the default of its kind of endpoint.
static struct policies policies_of(const dds_qos_t *qos, bool is_writer)
{
    struct policies found = default_policies(is_writer);
    dds_durability_kind_t durability;
    dds_presentation_access_scope_kind_t scope;
    dds_ownership_kind_t ownership;
    dds_liveliness_kind_t liveliness;
    dds_reliability_kind_t reliability;
    dds_destination_order_kind_t order;
    dds_duration_t blocking;
    if (dds_qget_durability(qos, &durability)) {
        found.durability = (int)durability;
    }
    if (dds_qget_presentation(qos, &scope, &found.coherent, &found.ordered)) {
        found.access_scope = (int)scope;
    }
    dds_qget_deadline(qos, &found.deadline);
    dds_qget_latency_budget(qos, &found.latency_budget);
    if (dds_qget_ownership(qos, &ownership)) {
        found.ownership = (int)ownership;
    }
    if (dds_qget_liveliness(qos, &liveliness, &found.lease)) {
        found.liveliness = (int)liveliness;
    }
    if (dds_qget_reliability(qos, &reliability, &blocking)) {
        found.reliability = (int)reliability;
    }
    if (dds_qget_destination_order(qos, &order)) {
        found.destination_order = (int)order;
    }
    return found;
}

static bool is_count(int number)
{
    return number >= 1 || number == UNLIMITED;
}

// Whether an endpoint is one of Cyclone, by its vendor's number.
static bool is_of_cyclone(const dds_guid_t *key)
{
    static const uint8_t CYCLONE[] = {0x01, 0x10};
    return memcmp(key->v, CYCLONE, sizeof CYCLONE) == 0;
}

// Cyclone announces history and limits that aren't its defaults. Other vendors may: what isn't Cyclone's default was announced, and all else is untold, as is what no
// endpoint can have.
static void add_cache(struct policies *found, const dds_qos_t *qos, const dds_guid_t *key)
{
    bool is_cyclone = is_of_cyclone(key);
    struct policies told = *found;
    dds_history_kind_t history = DDS_HISTORY_KEEP_LAST;
    bool has_history = dds_qget_history(qos, &history, &told.depth);
    told.history = (int)history;
    told.depth = told.history == DDS_HISTORY_KEEP_LAST ? told.depth : 1;
    bool has_limits = dds_qget_resource_limits(qos, &told.max_samples, &told.max_instances, &told.max_samples_per_instance);
    has_history = has_history && (is_cyclone || told.history != found->history || told.depth != found->depth);
    has_limits = has_limits && (is_cyclone || told.max_samples != UNLIMITED || told.max_instances != UNLIMITED || told.max_samples_per_instance != UNLIMITED);
    bool are_counts = told.depth >= 1 && is_count(told.max_samples) && is_count(told.max_instances) && is_count(told.max_samples_per_instance);
    bool is_possible = are_counts && is_consistent(&told);
    if (!has_history || !is_possible) {
        told.history = told.depth = UNTOLD;
    }
    if (!has_limits || !is_possible) {
        told.max_samples = told.max_instances = told.max_samples_per_instance = UNTOLD;
    }
    *found = told;
}

// Whether late readers get less than a writer keeps. Cyclone goes by DURABILITY_SERVICE; of other vendors that isn't known.
static bool hands_over_less(const struct seen_endpoint *writer, const dds_qos_t *qos)
{
    const struct policies *p = &writer->policies;
    dds_history_kind_t kind = DDS_HISTORY_KEEP_LAST;
    int32_t depth = 1;
    if (!writer->is_writer || p->durability == 0 || !is_of_cyclone(&writer->key) || !dds_qget_durability_service(qos, NULL, &kind, &depth, NULL, NULL, NULL)) {
        return false;
    }
    return kind == DDS_HISTORY_KEEP_LAST && (p->history == DDS_HISTORY_KEEP_ALL || depth < p->depth);
}

// The name that goes along with an entity, NULL where there is none.
static char *entity_name(const dds_qos_t *qos)
{
    char *name = NULL, *found = NULL;
    if (dds_qget_entity_name(qos, &name) && name != NULL && *name != '\0') {
        found = copy_of(name);
    }
    dds_free(name);
    return found;
}

// The name of a participant, else that of its process, which Cyclone announces. NULL where there is neither.
static char *participant_name(const dds_qos_t *qos)
{
    char *name = entity_name(qos), *process = NULL;
    if (name == NULL && dds_qget_prop(qos, "__ProcessName", &process) && process != NULL && *process != '\0') {
        name = copy_of(process);
    }
    dds_free(process);
    return name;
}

// ── what is heard

static void add_participant(struct seen *seen, uint32_t domain, const dds_builtintopic_participant_t *heard)
{
    seen->participant = one_more(seen->participant, seen->participants, sizeof *seen->participant);
    seen->participant[seen->participants++] = (struct seen_participant){.key = heard->key, .domain = domain, .name = participant_name(heard->qos)};
}

static int by_text(const void *one, const void *other)
{
    return strcmp(*(char *const *)one, *(char *const *)other);
}

// The partitions, without those that come again. No partition and one without a name are the same.
static void add_partitions(struct seen_endpoint *found, const dds_qos_t *qos)
{
    uint32_t count = 0;
    dds_qget_partition(qos, &count, &found->partition);
    if (count > 0) {
        qsort(found->partition, count, sizeof *found->partition, by_text);
    }
    for (uint32_t at = 0; at < count; at++) {
        if (found->partitions == 0 || strcmp(found->partition[found->partitions - 1], found->partition[at]) != 0) {
            found->partition[found->partitions++] = found->partition[at];
        }
    }
    if (found->partitions == 1 && *found->partition[0] == '\0') {
        found->partitions = 0;
    }
}

// Whether the type has keys, which the last byte of a GUID tells (DDSI-RTPS 2.5, clause 9.3.1.2).
static bool has_keys(const dds_guid_t *key)
{
    enum { KIND = 0x3f, WRITER_WITHOUT = 0x03, READER_WITHOUT = 0x04 };
    int kind = key->v[sizeof key->v - 1] & KIND;
    return kind != WRITER_WITHOUT && kind != READER_WITHOUT;
}

static void add_endpoint(struct seen *seen, uint32_t domain, bool is_writer, const dds_builtintopic_endpoint_t *heard)
{
    seen->endpoint = one_more(seen->endpoint, seen->endpoints, sizeof *seen->endpoint);
    struct seen_endpoint *found = &seen->endpoint[seen->endpoints++];
    *found = (struct seen_endpoint){
        .key = heard->key,
        .participant = heard->participant_key,
        .domain = domain,
        .is_writer = is_writer,
        .has_keys = has_keys(&heard->key),
        .topic = copy_of(heard->topic_name),
        .type = copy_of(heard->type_name),
        .name = entity_name(heard->qos),
        .policies = policies_of(heard->qos, is_writer),
    };
    add_cache(&found->policies, heard->qos, &heard->key);
    found->hands_over_less = hands_over_less(found, heard->qos);
    add_partitions(found, heard->qos);
}

enum kind { PARTICIPANTS, WRITERS, READERS };

// The builtin reader of a kind, with the participant that listens, which doesn't count.
struct ear {
    enum kind kind;
    uint32_t domain;
    dds_guid_t self;
    dds_entity_t reader;
};

static bool is_own(const struct ear *ear, const dds_guid_t *key)
{
    return memcmp(&ear->self, key, sizeof *key) == 0;
}

static void note(struct seen *seen, struct asked *asked, const struct ear *ear, const void *sample, const dds_sample_info_t *about)
{
    bool is_there = about->instance_state == DDS_IST_ALIVE;
    if (!about->valid_data) {
        return;
    }
    if (ear->kind == PARTICIPANTS) {
        const dds_builtintopic_participant_t *heard = sample;
        if (is_there && !is_own(ear, &heard->key)) {
            add_participant(seen, ear->domain, heard);
        }
    } else {
        const dds_builtintopic_endpoint_t *heard = sample;
        if (is_own(ear, &heard->participant_key)) {
            return;
        }
        asked->is_ros = asked->is_ros || is_of_ros(heard->topic_name);
        if (!is_by_pattern(asked, heard->topic_name)) {
            return;
        }
        if (is_there) {
            add_endpoint(seen, ear->domain, ear->kind == WRITERS, heard);
        } else {
            seen->left++;
        }
    }
}

static void take_all(struct seen *seen, struct asked *asked, const struct ear *ear)
{
    void *sample[AT_ONCE];
    dds_sample_info_t about[AT_ONCE];
    dds_return_t count;
    do {
        memset(sample, 0, sizeof sample);
        count = dds_take(ear->reader, sample, about, AT_ONCE, AT_ONCE);
        for (int at = 0; at < count; at++) {
            note(seen, asked, ear, sample[at], &about[at]);
        }
        if (count > 0) {
            dds_return_loan(ear->reader, sample, count);
        }
    } while (count > 0);
    if (count < 0) {
        fail(STATUS_DDS, "what discovery announces can't be taken: %s", dds_strretcode(-count));
    }
}

static void open_ears(struct seen *seen, uint32_t domain, struct ear *ears)
{
    static const dds_entity_t TOPICS[] = {DDS_BUILTIN_TOPIC_DCPSPARTICIPANT, DDS_BUILTIN_TOPIC_DCPSPUBLICATION, DDS_BUILTIN_TOPIC_DCPSSUBSCRIPTION};
    dds_entity_t participant = dds_create_participant(domain, NULL, NULL);
    dds_guid_t self;
    if (participant < 0 || dds_get_guid(participant, &self) != DDS_RETCODE_OK) {
        fail(STATUS_DDS, "Cyclone makes no participant in domain %u: %s", domain, dds_strretcode(-participant));
    }
    seen->listener[seen->listeners++] = (struct listener){.domain = domain, .participant = participant};
    for (int kind = PARTICIPANTS; kind <= READERS; kind++) {
        ears[kind] = (struct ear){.kind = (enum kind)kind, .domain = domain, .self = self, .reader = dds_create_reader(participant, TOPICS[kind], NULL, NULL)};
        if (ears[kind].reader < 0) {
            fail(STATUS_DDS, "Cyclone makes no reader of what discovery announces: %s", dds_strretcode(-ears[kind].reader));
        }
    }
}

// Leaves out what isn't asked for of a system of ROS 2, which is known once all was heard.
static void leave_unasked(struct seen *seen, const struct asked *asked)
{
    int kept = 0;
    for (int at = 0; at < seen->endpoints; at++) {
        if (is_asked_for(asked, seen->endpoint[at].topic)) {
            seen->endpoint[kept++] = seen->endpoint[at];
        }
    }
    seen->unasked = seen->endpoints - kept;
    seen->endpoints = kept;
}

dds_entity_t participant_in(const struct seen *seen, uint32_t domain)
{
    int at = 0;
    while (at + 1 < seen->listeners && seen->listener[at].domain != domain) {
        at++;
    }
    return seen->listener[at].participant;
}

struct seen *listen_to(struct asked *asked, int64_t nanoseconds)
{
    int count = asked->domains * (READERS + 1);
    struct ear *ears = room((unsigned long)count, sizeof *ears);
    struct seen *seen = room(1, sizeof *seen);
    note_interrupts();
    for (int at = 0; at < asked->domains; at++) {
        open_ears(seen, asked->domain[at], &ears[at * (READERS + 1)]);
    }
    int64_t until = now() + nanoseconds;
    while (now() < until && !is_interrupted()) {
        sleep_for(20000000);
    }
    // what was heard is printed now, and another signal ends that
    obey_interrupts();
    for (int at = 0; at < count; at++) {
        take_all(seen, asked, &ears[at]);
    }
    leave_unasked(seen, asked);
    free(ears);
    return seen;
}
