#include "print.h"
#include "fault.h"
#include "matching.h"
#include "names.h"
#include "policy.h"

#include <stdio.h>
#include <stdlib.h>
#include <string.h>

// What is printed: with comments or without, and so many connections at most. The pairs that match are counted with the connections, which also tell of each
// participant whether a reliable reader of it or of its writers is matched, and whether one of them would miss what was written before the two have matched.
struct form {
    const struct printing *printing;
    bool has_comments;
    int connections, pairs;
    bool is_relied_on[MOST_PARTICIPANTS], has_to_be_early[MOST_PARTICIPANTS];
};

// ── policies

static void print_true(FILE *out, const char *field, bool value)
{
    if (value) {
        fprintf(out, "%s = true\n", field);
    }
}

static void print_partitions(FILE *out, const struct policies *policies)
{
    for (int at = 0; at < policies->partitions; at++) {
        fprintf(out, "%s\"%s\"", at == 0 ? "partitions = [" : ", ", policies->partition[at]);
    }
    if (policies->partitions > 0) {
        fputs("]\n", out);
    }
}

// The policies that aren't the defaults of the file, and all that discovery doesn't tell.
static void print_policies(FILE *out, const struct policies *policies, bool is_writer, const struct form *form)
{
    const struct assumption *assumption = form->printing->assumption;
    struct policies usual = default_policies(is_writer), filled = assumption != NULL ? assumed_policies(policies, assumption) : *policies;
    for (int policy = 0; policy < POLICIES; policy++) {
        int64_t told = policy_value(policies, policy), value = policy_value(&filled, policy);
        if (told == policy_value(&usual, policy)) {
            continue;
        }
        fprintf(out, "%s = ", POLICY_NAME[policy]);
        print_value(out, policy, value);
        if (told != value && form->has_comments) {
            fprintf(out, " # not announced; the default of %s", assumption->name);
        }
        fputc('\n', out);
    }
    print_partitions(out, policies);
}

// ── who may come late

// Whether a writer could have to refuse what it writes, since it keeps all for readers that come late.
static bool may_be_full(const struct policies *writer)
{
    return writer->history == 1 && (writer->max_samples > 0 || writer->max_samples_per_instance > 0);
}

// Notes what a pair that matches says of its participants.
static void note_pair(struct form *form, const struct endpoint *writer, const struct endpoint *reader)
{
    if (reader->policies.reliability == 0) {
        return;
    }
    bool are_durable = writer->policies.durability > 0 && reader->policies.durability > 0;
    bool is_handed = are_durable && !writer->hands_over_less && !may_be_full(&writer->policies);
    int ends[] = {writer->participant, reader->participant};
    for (int at = 0; at < 2; at++) {
        form->is_relied_on[ends[at]] = true;
        form->has_to_be_early[ends[at]] = form->has_to_be_early[ends[at]] || !is_handed;
    }
}

// ── sections

static void print_participants(FILE *out, const struct captured *captured, const struct form *form)
{
    for (int at = 0; at < captured->lists.participants; at++) {
        const struct participant *one = &captured->lists.participant[at];
        const char *notes = form->has_comments ? captured->participant_notes[at] : "";
        fprintf(out, "\n%s[[participants]]\nname = \"%s\"\ndomain = %u\n", notes, one->name, one->domain);
        if (form->has_comments && form->is_relied_on[at] && !form->has_to_be_early[at]) {
            fputs("# joins = \"any\" # in version 4, if it may come at any time: its reliable pairs are TRANSIENT_LOCAL\n", out);
        }
    }
}

// A topic without key fields has one instance.
static void print_keys(FILE *out, const struct topic *topic, const struct form *form)
{
    if (topic->keys == 0 && form->printing->assumption == NULL) {
        fputs("keys = [\"?\"]\n", out);
    } else if (!form->has_comments) {
        fprintf(out, "keys = [\"%s\"]\n", topic->key[0]);
    } else {
        fprintf(out, "keys = [\"%s\"] # %s\n", topic->key[0],
                topic->keys > 0 ? "its type has no key fields, so it has one instance" : "not announced; write a name for each instance in its place");
    }
}

static void print_topics(FILE *out, const struct captured *captured, const struct form *form)
{
    for (int at = 0; at < captured->lists.topics; at++) {
        const struct topic *one = &captured->lists.topic[at];
        const char *notes = form->has_comments ? captured->topic_notes[at] : "";
        fprintf(out, "\n%s[[topics]]\nname = \"%s\"\ntype = \"%s\"\n", notes, one->name, one->type);
        print_keys(out, one, form);
    }
}

// A filter goes by keys, so there is none where there are no keys.
static void print_filter(FILE *out, const struct topic *topic, const struct form *form)
{
    if (topic->keys > 0) {
        return;
    }
    if (form->printing->assumption == NULL) {
        fputs("filter = \"?\"\n", out);
    } else if (form->has_comments) {
        fprintf(out, "# filter: none, which isn't announced but the default of %s\n", form->printing->assumption->name);
    }
}

static void print_endpoints(FILE *out, const struct captured *captured, const struct form *form, bool is_writer)
{
    const struct deployment *lists = &captured->lists;
    for (int at = 0; at < (is_writer ? lists->writers : lists->readers); at++) {
        const struct endpoint *one = is_writer ? &lists->writer[at] : &lists->reader[at];
        const char *notes = !form->has_comments ? "" : is_writer ? captured->writer_notes[at] : captured->reader_notes[at];
        fprintf(out, "\n%s[[%s]]\nname = \"%s\"\nparticipant = \"%s\"\ntopic = \"%s\"\n", notes, is_writer ? "writers" : "readers", one->name,
                lists->participant[one->participant].name, lists->topic[one->topic].name);
        if (!is_writer) {
            print_filter(out, &lists->topic[one->topic], form);
        }
        print_true(out, "may_lose", one->may_lose);
        print_policies(out, &one->policies, is_writer, form);
    }
}

// The names of a participant's writers or readers.
static void print_owned(FILE *out, const char *field, const struct endpoint *ends, int count, int participant)
{
    const char *before = "";
    fprintf(out, "%s = [", field);
    for (int at = 0; at < count; at++) {
        if (ends[at].participant == participant) {
            fprintf(out, "%s\"%s\"", before, ends[at].name);
            before = ", ";
        }
    }
    fputs("]\n", out);
}

static void print_applications(FILE *out, const struct deployment *lists)
{
    for (int at = 0; at < lists->participants; at++) {
        const char *name = lists->participant[at].name;
        fprintf(out, "\n[[applications]]\nname = \"%s\"\nparticipant = \"%s\"\n", name, name);
        print_owned(out, "writers", lists->writer, lists->writers, at);
        print_owned(out, "readers", lists->reader, lists->readers, at);
    }
}

static void print_rules(FILE *out, const struct captured *captured, const struct form *form)
{
    const struct deployment *lists = &captured->lists;
    for (int at = 0; at < lists->writers; at++) {
        const struct endpoint *one = &lists->writer[at];
        fprintf(out, "\n[[rules]]\nname = \"%s\"\napplication = \"%s\"\neach = true\nwrites = [{ writer = \"%s\", count = 1 }]\nstart = \"unlimited\"\n%s", one->name,
                lists->participant[one->participant].name, one->name, form->has_comments ? captured->beats[at] : "");
    }
}

// Prints the pairs that match, as many as the form allows, in one list, which has to stand before all tables, and counts all of them.
static void print_connections(FILE *out, const struct deployment *lists, struct form *form)
{
    form->pairs = 0;
    for (int at = 0; at < lists->writers * lists->readers; at++) {
        const struct endpoint *writer = &lists->writer[at / lists->readers], *reader = &lists->reader[at % lists->readers];
        if (!do_match(lists, writer, reader)) {
            continue;
        }
        note_pair(form, writer, reader);
        if (form->pairs++ < form->connections) {
            fprintf(out, "%s  { writer = \"%s\", reader = \"%s\" },\n", form->pairs == 1 ? "connections = [\n" : "", writer->name, reader->name);
        }
    }
    if (form->pairs > 0 && form->connections > 0) {
        fputs("]\n", out);
    }
}

// ── the heading

static void print_patterns(FILE *out, const char *what, const struct patterns *patterns)
{
    for (int at = 0; at < patterns->count; at++) {
        fputs(at == 0 ? what : ", ", out);
        print_quoted(out, patterns->pattern[at]);
    }
    if (patterns->count > 0) {
        fputc('\n', out);
    }
}

// Each of the topics that there is no room for.
static void print_left(FILE *out, const struct choice *choice)
{
    for (int at = 0; at < choice->topics; at++) {
        const struct heard_topic *topic = &choice->topic[at];
        if (!topic->is_kept) {
            fputs("#   ", out);
            print_quoted(out, topic->endpoint[0]->end->topic);
            fprintf(out, " (writers: %d, readers: %d)\n", topic->writers, topic->endpoints - topic->writers);
        }
    }
}

// Says of a file in which something isn't what that is.
static void print_cuts(FILE *out, const struct captured *captured, const struct form *form)
{
    fputs("# INCOMPLETE: this isn't the whole system, and no command reads the file as long as the entry `incomplete` stands here\n", out);
    for (const char *line = captured->cuts; *line != '\0'; line += strcspn(line, "\n") + 1) {
        fprintf(out, "# %.*s\n", (int)strcspn(line, "\n"), line);
    }
    if (form->connections < form->pairs) {
        fprintf(out, "# the file is full, so of %d connections it has %d\n", form->pairs, form->connections);
    }
    if (form->has_comments) {
        print_left(out, &captured->choice);
    }
}

static bool is_incomplete(const struct captured *captured, const struct form *form)
{
    return *captured->cuts != '\0' || form->connections < form->pairs;
}

// Whether a `"?"` stands for something.
static bool has_untold(const struct deployment *lists)
{
    bool found = false;
    for (int at = 0; at < lists->topics; at++) {
        found = found || lists->topic[at].keys == 0;
    }
    for (int at = 0; at < lists->writers + lists->readers; at++) {
        const struct endpoint *one = at < lists->writers ? &lists->writer[at] : &lists->reader[at - lists->writers];
        found = found || one->policies.history == UNTOLD || one->policies.max_samples == UNTOLD;
    }
    return found;
}

static void print_heading(FILE *out, const struct captured *captured, const struct form *form)
{
    const struct printing *printing = form->printing;
    if (is_incomplete(captured, form)) {
        print_cuts(out, captured, form);
    }
    fputs("# captured by bridge/cyclone; the connections are the pairs whose policies match\n", out);
    if (printing->assumption != NULL) {
        fprintf(out, "# what discovery doesn't tell is assumed to be as %s has it by default\n", printing->assumption->name);
    } else if (has_untold(&captured->lists)) {
        fputs("# \"?\" stands for what discovery doesn't tell: no command reads the file before something else stands there\n", out);
    }
    print_patterns(out, "# only topics that match ", &printing->asked->topics);
    print_patterns(out, "# without topics that match ", &printing->asked->excluded);
    if (printing->unasked > 0) {
        fputs("# without what each node of ROS 2 has: its parameter services, rt/rosout and rt/parameter_events\n", out);
    }
    fprintf(out, "%sversion = %d\n", is_incomplete(captured, form) ? "incomplete = true\n" : "", printing->version);
}

// ── the text

// A text in this form, which then knows how many pairs match.
static char *form_text(const struct captured *captured, struct form *form)
{
    char *text, *connections;
    FILE *list = open_text(&connections);
    print_connections(list, &captured->lists, form);
    close_text(list);
    FILE *out = open_text(&text);
    print_heading(out, captured, form);
    fputs(connections, out);
    free(connections);
    print_participants(out, captured, form);
    print_topics(out, captured, form);
    print_endpoints(out, captured, form, true);
    print_endpoints(out, captured, form, false);
    print_applications(out, &captured->lists);
    print_rules(out, captured, form);
    close_text(out);
    return text;
}

// Leaves out what makes a text of this size too long: first comments, then connections.
static void shorten(struct form *form, size_t size)
{
    if (form->has_comments) {
        form->has_comments = false;
        return;
    }
    // about as many as the text is too long by, and some more, so that it ends soon
    int left = form->connections < form->pairs ? form->connections : form->pairs, fitting = (int)((double)left * MOST_TEXT / (double)size) - left / 64 - 1;
    form->connections = fitting > 0 ? fitting : 0;
}

char *deployment_text(struct captured *captured, const struct printing *printing)
{
    struct form form = {.printing = printing, .has_comments = true, .connections = MOST_ENDPOINTS * MOST_ENDPOINTS};
    char *text = form_text(captured, &form);
    size_t size = strlen(text);
    while (size > MOST_TEXT && (form.has_comments || form.connections > 0)) {
        shorten(&form, size);
        free(text);
        text = form_text(captured, &form);
        size = strlen(text);
    }
    if (size > MOST_TEXT) {
        free(text);
        return NULL;
    }
    if (!form.has_comments) {
        fprintf(stderr, "capture: a file has at most %d bytes, so comments are left out\n", MOST_TEXT);
    }
    if (form.connections < form.pairs) {
        fprintf(stderr, "capture: the file is full, so of %d connections it has %d\n", form.pairs, form.connections);
    }
    captured->is_incomplete = is_incomplete(captured, &form);
    return text;
}
