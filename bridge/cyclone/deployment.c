#include "deployment.h"
#include "fault.h"
#include "json.h"

#include <string.h>

const char *const DURABILITY[] = {"VOLATILE", "TRANSIENT_LOCAL", "TRANSIENT", "PERSISTENT", NULL};
const char *const ACCESS_SCOPE[] = {"INSTANCE", "TOPIC", "GROUP", NULL};
const char *const OWNERSHIP[] = {"SHARED", "EXCLUSIVE", NULL};
const char *const LIVELINESS[] = {"AUTOMATIC", "MANUAL_BY_PARTICIPANT", "MANUAL_BY_TOPIC", NULL};
const char *const RELIABILITY[] = {"BEST_EFFORT", "RELIABLE", NULL};
const char *const DESTINATION_ORDER[] = {"BY_RECEPTION_TIMESTAMP", "BY_SOURCE_TIMESTAMP", NULL};
const char *const HISTORY[] = {"KEEP_LAST", "KEEP_ALL", NULL};
const char *const JOINS[] = {"before", "any", NULL};

// A list of at most so many entries.
static const cJSON *short_list(const cJSON *entry, const char *name, int most)
{
    const cJSON *entries = list(entry, name);
    if (cJSON_GetArraySize(entries) > most) {
        fail(STATUS_FILE, "%s has more entries than the %d that it may have", name, most);
    }
    return entries;
}

static unsigned long size_of(const cJSON *entries)
{
    return (unsigned long)cJSON_GetArraySize(entries);
}

// A limit of a cache.
static int limit(const cJSON *entry, const char *name)
{
    return (int)number_or(entry, name, "unlimited", UNLIMITED, 1, INT32_MAX);
}

// A number of nanoseconds.
static int64_t span(const cJSON *entry, const char *name)
{
    return number_or(entry, name, "infinite", FOREVER, 0, FOREVER);
}

static struct policies read_policies(const cJSON *entry)
{
    struct policies found = {
        .durability = word(entry, "durability", DURABILITY),
        .access_scope = word(entry, "access_scope", ACCESS_SCOPE),
        .coherent = truth(entry, "coherent"),
        .ordered = truth(entry, "ordered"),
        .deadline = span(entry, "deadline"),
        .latency_budget = span(entry, "latency_budget"),
        .ownership = word(entry, "ownership", OWNERSHIP),
        .liveliness = word(entry, "liveliness", LIVELINESS),
        .lease = span(entry, "lease"),
        .reliability = word(entry, "reliability", RELIABILITY),
        .destination_order = word(entry, "destination_order", DESTINATION_ORDER),
        .history = word(entry, "history", HISTORY),
        .depth = (int)number(entry, "depth", 1, INT32_MAX),
        .max_samples = limit(entry, "max_samples"),
        .max_instances = limit(entry, "max_instances"),
        .max_samples_per_instance = limit(entry, "max_samples_per_instance"),
    };
    const cJSON *name;
    cJSON_ArrayForEach(name, short_list(entry, "partitions", MOST_PARTITIONS)) {
        found.partition[found.partitions++] = partition_of(name);
    }
    return found;
}

bool is_consistent(const struct policies *policies)
{
    int each = policies->max_samples_per_instance, all = policies->max_samples;
    return each == UNLIMITED || ((all == UNLIMITED || each <= all) && (policies->history == 1 || policies->depth <= each));
}

int key_named(const struct topic *topic, const char *name)
{
    for (int key = 0; key < topic->keys; key++) {
        if (strcmp(topic->key[key], name) == 0) {
            return key;
        }
    }
    return -1;
}

bool rule_writes(const struct rule *rule, int writer, int key)
{
    for (int at = 0; at < rule->writes; at++) {
        if (rule->write[at].endpoint == writer && rule->write[at].key == key) {
            return true;
        }
    }
    return false;
}

bool is_free(const struct deployment *lists, int writer, int key)
{
    for (int at = 0; at < lists->rules; at++) {
        if (lists->rule[at].is_free && rule_writes(&lists->rule[at], writer, key)) {
            return true;
        }
    }
    return false;
}

bool is_paced(const struct deployment *lists, int writer, int key)
{
    for (int at = 0; at < lists->rules; at++) {
        if (lists->rule[at].period == 0 && rule_writes(&lists->rule[at], writer, key)) {
            return false;
        }
    }
    return true;
}

bool is_late_pair(const struct deployment *lists, int writer, int reader)
{
    return lists->participant[lists->writer[writer].participant].may_be_late || lists->participant[lists->reader[reader].participant].may_be_late;
}

bool is_watcher(const struct endpoint *reader)
{
    return reader->policies.reliability == 0 || reader->may_lose;
}

bool is_timed(const struct endpoint *reader)
{
    return reader->taken_within != NO_SPAN && !is_watcher(reader);
}

int instance_limit(const struct policies *policies)
{
    return policies->history == 0 ? policies->depth : policies->max_samples_per_instance;
}

static int key_of(const struct topic *topic, const cJSON *value)
{
    const char *name = name_of(value, "a key");
    int key = key_named(topic, name);
    if (key < 0) {
        fail(STATUS_FILE, "topic %s has no key %s", topic->name, name);
    }
    return key;
}

// ── the sections

// The names of a section, in its order.
struct names {
    int count;
    const char *name[MOST_ENDPOINTS];
};

// What is read, and the names by which its parts speak of one another.
struct reading {
    const cJSON *all;
    struct deployment *found;
    struct names participants, topics, writers, readers, applications;
};

static int place_of(const struct names *names, const char *name)
{
    for (int at = 0; at < names->count; at++) {
        if (strcmp(names->name[at], name) == 0) {
            return at;
        }
    }
    return -1;
}

static int named(const struct names *names, const char *name)
{
    int at = place_of(names, name);
    if (at < 0) {
        fail(STATUS_FILE, "nothing has the name %s", name);
    }
    return at;
}

// The name of an entry, which no entry before it has. Lists are cut to their limits before, so there is room.
static const char *new_name(struct names *names, const cJSON *entry)
{
    const char *name = name_in(entry, "name");
    if (place_of(names, name) >= 0) {
        fail(STATUS_FILE, "the name %s stands twice", name);
    }
    return names->name[names->count++] = name;
}

static void read_participants(struct reading *reading)
{
    struct deployment *found = reading->found;
    const cJSON *entries = short_list(reading->all, "participants", MOST_PARTICIPANTS), *entry;
    found->participant = room(size_of(entries), sizeof *found->participant);
    cJSON_ArrayForEach(entry, entries) {
        found->participant[found->participants++] = (struct participant){
            .name = new_name(&reading->participants, entry),
            .domain = (uint32_t)number(entry, "domain", 0, INT32_MAX),
            // only version 4 of the file tells of it
            .may_be_late = word_or_absent(entry, "joins", JOINS) == 1,
        };
    }
}

static void read_topics(struct reading *reading)
{
    struct deployment *found = reading->found;
    const cJSON *entries = short_list(reading->all, "topics", MOST_ENDPOINTS), *entry, *value;
    found->topic = room(size_of(entries), sizeof *found->topic);
    cJSON_ArrayForEach(entry, entries) {
        struct topic *topic = &found->topic[found->topics++];
        topic->name = new_name(&reading->topics, entry);
        topic->type = type_in(entry, "type");
        cJSON_ArrayForEach(value, short_list(entry, "keys", MOST_KEYS)) {
            const char *key = name_of(value, "a key");
            if (key_named(topic, key) >= 0) {
                fail(STATUS_FILE, "topic %s has the key %s twice", topic->name, key);
            }
            topic->key[topic->keys++] = key;
        }
        if (topic->keys == 0) {
            fail(STATUS_FILE, "topic %s has no key", topic->name);
        }
    }
}

static void read_filter(const cJSON *entry, const struct topic *topic, struct endpoint *end)
{
    const cJSON *keys = short_list(entry, "filter", topic->keys), *value;
    cJSON_ArrayForEach(value, keys) {
        int key = key_of(topic, value);
        if (end->hears[key]) {
            fail(STATUS_FILE, "the filter of %s has %s twice", end->name, topic->key[key]);
        }
        end->hears[key] = true;
    }
    end->has_filter = cJSON_GetArraySize(keys) < topic->keys;
}

// The writers or the readers.
static struct endpoint *read_endpoints(struct reading *reading, const char *name, struct names *names, int *count)
{
    const cJSON *entries = short_list(reading->all, name, MOST_ENDPOINTS), *entry;
    struct endpoint *ends = room(size_of(entries), sizeof *ends);
    cJSON_ArrayForEach(entry, entries) {
        struct endpoint *end = &ends[(*count)++];
        end->name = new_name(names, entry);
        end->participant = named(&reading->participants, name_in(entry, "participant"));
        end->topic = named(&reading->topics, name_in(entry, "topic"));
        end->application = -1;
        end->taken_within = end->available_within = NO_SPAN;
        end->policies = read_policies(entry);
        if (!is_consistent(&end->policies)) {
            fail(STATUS_FILE, "the depth and limits of %s contradict each other", end->name);
        }
        if (strcmp(name, "readers") == 0) {
            read_filter(entry, &reading->found->topic[end->topic], end);
            // only version 3 of the file tells of it
            end->may_lose = truth_or_absent(entry, "may_lose");
            // and only version 4 of these
            end->taken_within = number_or_absent(entry, "taken_within", NO_SPAN, 0, FOREVER);
            end->available_within = number_or_absent(entry, "available_within", NO_SPAN, 0, FOREVER);
        }
    }
    return ends;
}

// Notes what of the writers, or of the readers, the next application owns.
static void own(const struct reading *reading, const char *kind, const struct names *names, struct endpoint *ends, const cJSON *entry)
{
    const struct deployment *found = reading->found;
    const cJSON *name;
    cJSON_ArrayForEach(name, list(entry, kind)) {
        struct endpoint *end = &ends[named(names, name_of(name, "an endpoint"))];
        if (end->application >= 0 || end->participant != found->application[found->applications].participant) {
            fail(STATUS_FILE, "%s has two owners, or one at another participant", end->name);
        }
        end->application = found->applications;
    }
}

static void all_owned(const struct endpoint *ends, int count)
{
    for (int at = 0; at < count; at++) {
        if (ends[at].application < 0) {
            fail(STATUS_FILE, "%s has no owner", ends[at].name);
        }
    }
}

static void read_applications(struct reading *reading)
{
    struct deployment *found = reading->found;
    const cJSON *entries = short_list(reading->all, "applications", MOST_APPLICATIONS), *entry;
    found->application = room(size_of(entries), sizeof *found->application);
    cJSON_ArrayForEach(entry, entries) {
        found->application[found->applications] = (struct application){
            .name = new_name(&reading->applications, entry),
            .participant = named(&reading->participants, name_in(entry, "participant")),
        };
        own(reading, "writers", &reading->writers, found->writer, entry);
        own(reading, "readers", &reading->readers, found->reader, entry);
        found->applications++;
    }
    all_owned(found->writer, found->writers);
    all_owned(found->reader, found->readers);
}

static bool is_among(const struct portion *portions, int count, const struct portion *one)
{
    for (int at = 0; at < count; at++) {
        if (portions[at].endpoint == one->endpoint && portions[at].key == one->key) {
            return true;
        }
    }
    return false;
}

// What a rule takes, or what it writes.
static int read_portions(const struct reading *reading, const cJSON *entry, bool takes, const struct rule *rule, struct portion *portions)
{
    const struct deployment *found = reading->found;
    const cJSON *each;
    int count = 0;
    cJSON_ArrayForEach(each, short_list(entry, takes ? "takes" : "writes", MOST_PORTIONS)) {
        int end = named(takes ? &reading->readers : &reading->writers, name_in(each, takes ? "reader" : "writer"));
        const struct endpoint *at = takes ? &found->reader[end] : &found->writer[end];
        struct portion portion = {
            .endpoint = end,
            .key = key_of(&found->topic[at->topic], field(each, "key")),
            .count = (uint64_t)number(each, "count", 1, MOST_COUNT),
        };
        if (at->application != rule->application || (takes && !at->hears[portion.key]) || is_among(portions, count, &portion)) {
            fail(STATUS_FILE, "rule %s has an element twice, of another application, or with a key that its reader's filter leaves out", rule->name);
        }
        portions[count++] = portion;
    }
    return count;
}

static void read_rules(struct reading *reading)
{
    enum { UNENDING = -1 };
    struct deployment *found = reading->found;
    const cJSON *entries = short_list(reading->all, "rules", MOST_RULES), *entry;
    found->rule = room(size_of(entries), sizeof *found->rule);
    cJSON_ArrayForEach(entry, entries) {
        struct rule *rule = &found->rule[found->rules++];
        // a rule with a key for each entry stands there once for each, so its name may come again
        rule->name = name_in(entry, "name");
        rule->application = named(&reading->applications, name_in(entry, "application"));
        rule->takes = read_portions(reading, entry, true, rule, rule->take);
        rule->writes = read_portions(reading, entry, false, rule, rule->write);
        int64_t start = number_or(entry, "start", "unlimited", UNENDING, 0, MOST_COUNT);
        rule->is_free = start == UNENDING;
        rule->start = rule->is_free ? 0 : (uint64_t)start;
        rule->period = number_or_absent(entry, "period", 0, 1, FOREVER);
        rule->jitter = number_or_absent(entry, "jitter", 0, 0, FOREVER);
        if (rule->is_free && rule->takes > 0) {
            fail(STATUS_FILE, "rule %s takes something, so its start is a number", rule->name);
        }
    }
}

static void read_connections(struct reading *reading)
{
    struct deployment *found = reading->found;
    const cJSON *entries = short_list(reading->all, "connections", MOST_ENDPOINTS * MOST_ENDPOINTS), *entry;
    found->connection = room(size_of(entries), sizeof *found->connection);
    cJSON_ArrayForEach(entry, entries) {
        found->connection[found->connections++] = (struct connection){
            .writer = named(&reading->writers, name_in(entry, "writer")),
            .reader = named(&reading->readers, name_in(entry, "reader")),
        };
    }
}

struct deployment *deployment_of(const cJSON *all)
{
    struct deployment *found = room(1, sizeof *found);
    struct reading reading = {.all = all, .found = found};
    read_participants(&reading);
    read_topics(&reading);
    found->writer = read_endpoints(&reading, "writers", &reading.writers, &found->writers);
    found->reader = read_endpoints(&reading, "readers", &reading.readers, &found->readers);
    read_applications(&reading);
    read_rules(&reading);
    read_connections(&reading);
    return found;
}

struct deployment *read_deployment(const char *path)
{
    uint64_t fingerprint;
    // the texts of the document are used as long as the program runs, so it is never freed
    struct deployment *found = deployment_of(read_document(path, &fingerprint));
    found->fingerprint = fingerprint;
    return found;
}
