#include "against.h"
#include "fault.h"
#include "json.h"
#include "names.h"
#include "policy.h"

#include <errno.h>
#include <fcntl.h>
#include <stdlib.h>
#include <string.h>
#include <sys/wait.h>
#include <unistd.h>

// ── the file

static _Noreturn void run_show(const char *program, const char *path, const int *ends)
{
    dup2(ends[1], STDOUT_FILENO);
    execlp(program, program, "show", "--", path, (char *)NULL);
    fail(STATUS_FILE, "%s does not run (%s): have it on PATH, name it by DDSCHECK, or give what `ddscheck show` prints in a file .json", program,
         strerror(errno));
}

// The document that `ddscheck show` prints of a file.
static char *shown(const char *path, size_t *length)
{
    const char *named = getenv("DDSCHECK"), *program = named != NULL && *named != '\0' ? named : "ddscheck";
    int ends[2], status;
    if (pipe2(ends, O_CLOEXEC) != 0) {
        fail(STATUS_DDS, "no pipe can be made: %s", strerror(errno));
    }
    pid_t child = fork();
    if (child < 0) {
        fail(STATUS_DDS, "no process can be made: %s", strerror(errno));
    }
    if (child == 0) {
        run_show(program, path, ends);
    }
    close(ends[1]);
    FILE *output = fdopen(ends[0], "rb");
    if (output == NULL) {
        fail(STATUS_DDS, "memory ran out");
    }
    char *bytes = stream_bytes(output, path, length);
    if (waitpid(child, &status, 0) != child || status != 0) {
        fail(STATUS_FILE, "%s can't be compared with: %s doesn't show it", path, program);
    }
    return bytes;
}

const struct deployment *file_to_compare(const char *path)
{
    size_t ending = strlen(".json"), length = strlen(path);
    if (length > ending && strcmp(path + length - ending, ".json") == 0) {
        return read_deployment(path);
    }
    const cJSON *document;
    const char *why;
    char *bytes = shown(path, &length);
    if (!parse_document(bytes, length, &document, &why)) {
        fail(STATUS_FILE, "%s: %s", path, why);
    }
    free(bytes);
    return deployment_of(document);
}

// ── what differs

struct comparison {
    const struct deployment *file, *system;
    const struct asked *asked;
    FILE *out;
    bool is_json;
    int differences, uncompared;
};

static void begin(struct comparison *all, const char *difference)
{
    fprintf(all->out, all->is_json ? "%s{\"difference\":\"%s\"" : "%s%s", all->is_json && all->differences > 0 ? "," : "", difference);
    all->differences++;
}

// An endpoint that is in one of the two alone.
static void tell_alone(struct comparison *all, const char *difference, const char *kind, const struct deployment *lists, const struct endpoint *end)
{
    const struct participant *participant = &lists->participant[end->participant];
    const char *topic = lists->topic[end->topic].name;
    begin(all, difference);
    if (all->is_json) {
        fprintf(all->out, ",\"domain\":%u,\"kind\":\"%s\",\"name\":\"%s\",\"participant\":\"%s\",\"topic\":\"%s\"}", participant->domain, kind, end->name,
                participant->name, topic);
    } else {
        fprintf(all->out, " %s %s topic %s participant %s domain %u\n", kind, end->name, topic, participant->name, participant->domain);
    }
}

// Something of an entry that is in both. The texts of the file and of the system are values as documents have them.
static void tell_value(struct comparison *all, const char *kind, const char *name, const char *what, const char *file, const char *system)
{
    begin(all, "differs");
    if (all->is_json) {
        fprintf(all->out, ",\"file\":%s,\"kind\":\"%s\",\"name\":\"%s\",\"system\":%s,\"what\":\"%s\"}", file, kind, name, system, what);
    } else {
        fprintf(all->out, " %s %s %s file %s system %s\n", kind, name, what, file, system);
    }
}

// ── policies

// A policy that discovery doesn't tell doesn't differ, nor does the depth of what keeps all.
static bool does_policy_differ(const struct policies *file, const struct policies *system, int policy)
{
    int64_t one = policy_value(file, policy), other = policy_value(system, policy);
    if (other == UNTOLD || (strcmp(POLICY_NAME[policy], "depth") == 0 && (file->history != 0 || system->history != 0))) {
        return false;
    }
    // the file has numbers above 2^53 as the nearest double
    return (double)one != (double)other;
}

static bool has_partition(const struct policies *policies, const char *name)
{
    bool is_there = policies->partitions == 0 && *name == '\0';
    for (int at = 0; at < policies->partitions; at++) {
        is_there = is_there || strcmp(policies->partition[at], name) == 0;
    }
    return is_there;
}

static bool has_partitions(const struct policies *one, const struct policies *other)
{
    bool has_all = other->partitions > 0 || has_partition(one, "");
    for (int at = 0; at < other->partitions; at++) {
        has_all = has_all && has_partition(one, other->partition[at]);
    }
    return has_all;
}

static bool do_partitions_differ(const struct policies *one, const struct policies *other)
{
    return !has_partitions(one, other) || !has_partitions(other, one);
}

static bool are_same(const struct policies *file, const struct policies *system)
{
    bool is_same = !do_partitions_differ(file, system);
    for (int policy = 0; policy < POLICIES; policy++) {
        is_same = is_same && !does_policy_differ(file, system, policy);
    }
    return is_same;
}

static char *value_text(const struct policies *policies, int policy)
{
    char *text;
    FILE *out = open_text(&text);
    print_value(out, policy, policy_value(policies, policy));
    close_text(out);
    return text;
}

static char *partitions_text(const struct policies *policies)
{
    char *text;
    FILE *out = open_text(&text);
    fputc('[', out);
    for (int at = 0; at < policies->partitions; at++) {
        fprintf(out, "%s\"%s\"", at == 0 ? "" : ",", policies->partition[at]);
    }
    fputc(']', out);
    close_text(out);
    return text;
}

static void compare_policies(struct comparison *all, const char *kind, const struct endpoint *file, const struct endpoint *system)
{
    for (int policy = 0; policy <= POLICIES; policy++) {
        bool is_last = policy == POLICIES;
        if (is_last ? !do_partitions_differ(&file->policies, &system->policies) : !does_policy_differ(&file->policies, &system->policies, policy)) {
            continue;
        }
        char *one = is_last ? partitions_text(&file->policies) : value_text(&file->policies, policy);
        char *other = is_last ? partitions_text(&system->policies) : value_text(&system->policies, policy);
        tell_value(all, kind, file->name, is_last ? "partitions" : POLICY_NAME[policy], one, other);
        free(one);
        free(other);
    }
}

// ── which endpoint of the system is which of the file

static bool is_compared(const struct comparison *all, const struct endpoint *end)
{
    uint32_t domain = all->file->participant[end->participant].domain;
    bool is_heard = false;
    for (int at = 0; at < all->asked->domains; at++) {
        is_heard = is_heard || all->asked->domain[at] == domain;
    }
    return is_heard && is_asked_for(all->asked, all->file->topic[end->topic].name);
}

// How close two are, from 0 to 7, and -1 where they aren't in one domain and on one topic. A name in common counts most, then that of the participants, then the
// policies.
enum { CLOSEST = 7 };

static int closeness(const struct comparison *all, const struct endpoint *one, const struct endpoint *other)
{
    const struct participant *participant = &all->file->participant[one->participant], *found = &all->system->participant[other->participant];
    if (participant->domain != found->domain || strcmp(all->file->topic[one->topic].name, all->system->topic[other->topic].name) != 0) {
        return -1;
    }
    return 4 * (strcmp(one->name, other->name) == 0) + 2 * (strcmp(participant->name, found->name) == 0) + are_same(&one->policies, &other->policies);
}

// What stands for no partner: of one that isn't there, and of one that isn't compared.
enum { MISSING = -1, UNCOMPARED = -2 };

// Gives each of the file's endpoints the closest of the system's that is left, the closest pairs first.
static void pair_up(const struct comparison *all, bool are_writers, int *partner, bool *is_taken)
{
    const struct endpoint *ends = are_writers ? all->file->writer : all->file->reader, *found = are_writers ? all->system->writer : all->system->reader;
    int count = are_writers ? all->file->writers : all->file->readers, most = are_writers ? all->system->writers : all->system->readers;
    for (int at = 0; at < count; at++) {
        partner[at] = is_compared(all, &ends[at]) ? MISSING : UNCOMPARED;
    }
    for (int close = CLOSEST; close >= 0; close--) {
        for (int at = 0; at < count; at++) {
            for (int other = 0; partner[at] == MISSING && other < most; other++) {
                if (!is_taken[other] && closeness(all, &ends[at], &found[other]) == close) {
                    partner[at] = other;
                    is_taken[other] = true;
                }
            }
        }
    }
}

static void compare_endpoints(struct comparison *all, bool are_writers)
{
    const char *kind = are_writers ? "writer" : "reader";
    const struct endpoint *ends = are_writers ? all->file->writer : all->file->reader, *found = are_writers ? all->system->writer : all->system->reader;
    int count = are_writers ? all->file->writers : all->file->readers, most = are_writers ? all->system->writers : all->system->readers;
    int partner[MOST_ENDPOINTS];
    bool is_taken[MOST_ENDPOINTS] = {false};
    pair_up(all, are_writers, partner, is_taken);
    for (int at = 0; at < count; at++) {
        if (partner[at] >= 0) {
            compare_policies(all, kind, &ends[at], &found[partner[at]]);
        } else if (partner[at] == MISSING) {
            tell_alone(all, "missing", kind, all->file, &ends[at]);
        } else {
            all->uncompared++;
        }
    }
    for (int at = 0; at < most; at++) {
        if (!is_taken[at]) {
            tell_alone(all, "extra", kind, all->system, &found[at]);
        }
    }
}

static void compare_types(struct comparison *all)
{
    for (int at = 0; at < all->file->topics; at++) {
        const struct topic *one = &all->file->topic[at];
        for (int other = 0; other < all->system->topics; other++) {
            const struct topic *found = &all->system->topic[other];
            if (strcmp(one->name, found->name) == 0 && !is_same_type(one->type, found->type)) {
                char file[MOST_TYPE + 3], system[MOST_TYPE + 3];
                snprintf(file, sizeof file, "\"%s\"", one->type);
                snprintf(system, sizeof system, "\"%s\"", found->type);
                tell_value(all, "topic", one->name, "type", file, system);
            }
        }
    }
}

// What of the system no file has room for, so that it wasn't compared.
static void tell_cuts(struct comparison *all, const char *cuts)
{
    for (const char *line = cuts; *line != '\0'; line += strcspn(line, "\n") + 1) {
        begin(all, "incomplete");
        fprintf(all->out, all->is_json ? ",\"what\":\"%.*s\"}" : " %.*s\n", (int)strcspn(line, "\n"), line);
    }
}

bool print_differences(const struct deployment *file, const struct captured *captured, const struct asked *asked, bool is_json)
{
    char *text;
    struct comparison all = {.file = file, .system = &captured->lists, .asked = asked, .out = open_text(&text), .is_json = is_json};
    compare_types(&all);
    compare_endpoints(&all, true);
    compare_endpoints(&all, false);
    tell_cuts(&all, captured->cuts);
    close_text(all.out);
    if (is_json) {
        printf("{\"answer\":\"%s\",\"differences\":[%s]}\n", all.differences == 0 ? "yes" : "no", text);
    } else {
        fputs(text, stdout);
    }
    free(text);
    if (all.uncompared > 0) {
        fprintf(stderr, "capture: %d writers and readers of the file are in other domains, or on topics that aren't asked for, and aren't compared\n",
                all.uncompared);
    }
    return all.differences == 0;
}
