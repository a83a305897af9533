#include "rules.h"
#include "fault.h"

#include <inttypes.h>
#include <stdio.h>

// ── the text: names of the lists have no letter that a text of TOML would escape

static void put_participants(FILE *out, const struct deployment *lists)
{
    fprintf(out, "participants = [\n");
    for (int at = 0; at < lists->participants; at++) {
        fprintf(out, "{ name = \"%s\", domain = %" PRIu32 " },\n", lists->participant[at].name, lists->participant[at].domain);
    }
    fprintf(out, "]\n");
}

// The keys of a topic that are among these, all of them where there are none to compare with.
static void put_keys(FILE *out, const struct topic *topic, const bool *among)
{
    const char *comma = "";
    for (int key = 0; key < topic->keys; key++) {
        if (among == NULL || among[key]) {
            fprintf(out, "%s\"%s\"", comma, topic->key[key]);
            comma = ", ";
        }
    }
}

static void put_topics(FILE *out, const struct deployment *lists)
{
    fprintf(out, "topics = [\n");
    for (int at = 0; at < lists->topics; at++) {
        const struct topic *topic = &lists->topic[at];
        fprintf(out, "{ name = \"%s\", type = \"%s\", keys = [", topic->name, topic->type);
        put_keys(out, topic, NULL);
        fprintf(out, "] },\n");
    }
    fprintf(out, "]\n");
}

static void put_endpoints(FILE *out, const struct deployment *lists, const char *section, const struct endpoint *ends, int count)
{
    fprintf(out, "%s = [\n", section);
    for (int at = 0; at < count; at++) {
        const struct endpoint *end = &ends[at];
        const struct topic *topic = &lists->topic[end->topic];
        fprintf(out, "{ name = \"%s\", participant = \"%s\", topic = \"%s\"", end->name, lists->participant[end->participant].name, topic->name);
        if (end->has_filter) {
            fprintf(out, ", filter = [");
            put_keys(out, topic, end->hears);
            fprintf(out, "]");
        }
        fprintf(out, " },\n");
    }
    fprintf(out, "]\n");
}

// The names of the endpoints that an application owns.
static void put_owned(FILE *out, const struct endpoint *ends, int count, int application)
{
    const char *comma = "";
    for (int at = 0; at < count; at++) {
        if (ends[at].application == application) {
            fprintf(out, "%s\"%s\"", comma, ends[at].name);
            comma = ", ";
        }
    }
}

static void put_applications(FILE *out, const struct deployment *lists)
{
    fprintf(out, "applications = [\n");
    for (int at = 0; at < lists->applications; at++) {
        const struct application *one = &lists->application[at];
        fprintf(out, "{ name = \"%s\", participant = \"%s\", writers = [", one->name, lists->participant[one->participant].name);
        put_owned(out, lists->writer, lists->writers, at);
        fprintf(out, "], readers = [");
        put_owned(out, lists->reader, lists->readers, at);
        fprintf(out, "] },\n");
    }
    fprintf(out, "]\n");
}

// What a rule takes, or what it writes.
static void put_portions(FILE *out, const struct deployment *lists, const char *kind, const struct portion *portions, int count)
{
    const struct endpoint *ends = strcmp(kind, "reader") == 0 ? lists->reader : lists->writer;
    const char *comma = "";
    for (int at = 0; at < count; at++) {
        const struct endpoint *end = &ends[portions[at].endpoint];
        const char *key = lists->topic[end->topic].key[portions[at].key];
        fprintf(out, "%s{ %s = \"%s\", key = \"%s\", count = %" PRIu64 " }", comma, kind, end->name, key, portions[at].count);
        comma = ", ";
    }
}

static void put_rules(FILE *out, const struct deployment *lists)
{
    fprintf(out, "rules = [\n");
    for (int at = 0; at < lists->rules; at++) {
        const struct rule *rule = &lists->rule[at];
        fprintf(out, "{ name = \"%d\", application = \"%s\", takes = [", at, lists->application[rule->application].name);
        put_portions(out, lists, "reader", rule->take, rule->takes);
        fprintf(out, "], writes = [");
        put_portions(out, lists, "writer", rule->write, rule->writes);
        if (rule->is_free) {
            fprintf(out, "], start = \"unlimited\" },\n");
        } else {
            fprintf(out, "], start = %" PRIu64 " },\n", rule->start);
        }
    }
    fprintf(out, "]\n");
}

struct rules rules_of(const struct deployment *lists)
{
    struct rules rules = {.text = NULL, .length = 0};
    FILE *out = open_memstream(&rules.text, &rules.length);
    if (out == NULL) {
        fail(STATUS_DDS, "memory ran out");
    }
    fprintf(out, "version = 3\n");
    put_participants(out, lists);
    put_topics(out, lists);
    put_endpoints(out, lists, "writers", lists->writer, lists->writers);
    put_endpoints(out, lists, "readers", lists->reader, lists->readers);
    put_applications(out, lists);
    put_rules(out, lists);
    bool is_whole = ferror(out) == 0;
    if (fclose(out) != 0 || !is_whole) {
        fail(STATUS_DDS, "memory ran out");
    }
    return rules;
}

// ── the guard

void expect(ddscheck_status status, const char *what, const char *name)
{
    if (status == DDSCHECK_NO_MEMORY) {
        fail(STATUS_DDS, "memory ran out");
    }
    if (status != DDSCHECK_OK) {
        fail(STATUS_DDS, "the guard refuses %s %s: its status is %d", what, name, (int)status);
    }
}

void open_guard(ddscheck_guard *guard, const struct rules *rules, const char *application)
{
    expect(ddscheck_open(rules->text, rules->length, application, guard), "the application", application);
}

size_t writer_number(ddscheck_guard *guard, const struct endpoint *writer)
{
    size_t number = 0;
    expect(ddscheck_writer(guard, writer->name, &number), "the writer", writer->name);
    return number;
}

size_t reader_number(ddscheck_guard *guard, const struct endpoint *reader)
{
    size_t number = 0;
    expect(ddscheck_reader(guard, reader->name, &number), "the reader", reader->name);
    return number;
}

size_t key_number(ddscheck_guard *guard, const struct topic *topic, int key)
{
    size_t number = 0;
    expect(ddscheck_key(guard, topic->name, topic->key[key], &number), "the key", topic->key[key]);
    return number;
}

size_t rule_number(ddscheck_guard *guard, int rule)
{
    char name[16];
    size_t number = 0;
    snprintf(name, sizeof name, "%d", rule);
    expect(ddscheck_rule(guard, name, &number), "the rule", name);
    return number;
}
