#include "policy.h"

#include <inttypes.h>
#include <stddef.h>

enum kind { WORD, TRUTH, SPAN, COUNT };

struct form {
    enum kind kind;
    size_t place;
    const char *const *words;
};

static const struct form FORM[POLICIES] = {
    {WORD, offsetof(struct policies, durability), DURABILITY},
    {WORD, offsetof(struct policies, access_scope), ACCESS_SCOPE},
    {TRUTH, offsetof(struct policies, coherent), NULL},
    {TRUTH, offsetof(struct policies, ordered), NULL},
    {SPAN, offsetof(struct policies, deadline), NULL},
    {SPAN, offsetof(struct policies, latency_budget), NULL},
    {WORD, offsetof(struct policies, ownership), OWNERSHIP},
    {WORD, offsetof(struct policies, liveliness), LIVELINESS},
    {SPAN, offsetof(struct policies, lease), NULL},
    {WORD, offsetof(struct policies, reliability), RELIABILITY},
    {WORD, offsetof(struct policies, destination_order), DESTINATION_ORDER},
    {WORD, offsetof(struct policies, history), HISTORY},
    {COUNT, offsetof(struct policies, depth), NULL},
    {COUNT, offsetof(struct policies, max_samples), NULL},
    {COUNT, offsetof(struct policies, max_instances), NULL},
    {COUNT, offsetof(struct policies, max_samples_per_instance), NULL},
};

const char *const POLICY_NAME[POLICIES] = {
    "durability", "access_scope", "coherent", "ordered", "deadline", "latency_budget", "ownership", "liveliness", "lease", "reliability", "destination_order",
    "history", "depth", "max_samples", "max_instances", "max_samples_per_instance",
};

int64_t policy_value(const struct policies *policies, int policy)
{
    const void *place = (const char *)policies + FORM[policy].place;
    switch (FORM[policy].kind) {
    case TRUTH:
        return *(const bool *)place;
    case SPAN:
        return *(const int64_t *)place;
    default:
        return *(const int *)place;
    }
}

struct policies default_policies(bool is_writer)
{
    return (struct policies){.deadline = FOREVER, .lease = FOREVER, .reliability = is_writer, .depth = 1, .max_samples = UNLIMITED, .max_instances = UNLIMITED,
                             .max_samples_per_instance = UNLIMITED};
}

void print_value(FILE *out, int policy, int64_t value)
{
    const struct form *form = &FORM[policy];
    if (value == UNTOLD) {
        fputs("\"?\"", out);
    } else if (form->kind == WORD) {
        fprintf(out, "\"%s\"", form->words[value]);
    } else if (form->kind == TRUTH) {
        fputs(value ? "true" : "false", out);
    } else if (form->kind == SPAN && value == FOREVER) {
        fputs("\"infinite\"", out);
    } else if (form->kind == COUNT && value == UNLIMITED) {
        fputs("\"unlimited\"", out);
    } else {
        fprintf(out, "%" PRId64, value);
    }
}
