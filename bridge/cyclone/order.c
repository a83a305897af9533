#include "order.h"
#include "fault.h"
#include "policy.h"

#include <stdlib.h>
#include <string.h>

// ── orders

static int by_number(int64_t one, int64_t other)
{
    return (one > other) - (one < other);
}

static int by_text(const char *one, const char *other)
{
    // what has no name comes last
    return one == NULL || other == NULL ? (one == NULL) - (other == NULL) : strcmp(one, other);
}

static int by_partitions(const struct seen_endpoint *one, const struct seen_endpoint *other)
{
    int order = 0;
    for (int at = 0; order == 0 && at < one->partitions && at < other->partitions; at++) {
        order = strcmp(one->partition[at], other->partition[at]);
    }
    return order != 0 ? order : by_number(one->partitions, other->partitions);
}

static int by_policies(const struct policies *one, const struct policies *other)
{
    int order = 0;
    for (int policy = 0; order == 0 && policy < POLICIES; policy++) {
        order = by_number(policy_value(one, policy), policy_value(other, policy));
    }
    return order;
}

// By what is announced of endpoints, writers first.
static int by_announcement(const struct seen_endpoint *one, const struct seen_endpoint *other)
{
    int order = strcmp(one->topic, other->topic);
    order = order != 0 ? order : strcmp(one->type, other->type);
    order = order != 0 ? order : by_number(other->is_writer, one->is_writer);
    order = order != 0 ? order : by_partitions(one, other);
    order = order != 0 ? order : by_text(one->name, other->name);
    order = order != 0 ? order : by_policies(&one->policies, &other->policies);
    return order != 0 ? order : by_number(one->has_keys, other->has_keys);
}

// By domain and GUID, since domains number theirs by themselves.
static int by_key(uint32_t domain, const dds_guid_t *key, uint32_t other_domain, const dds_guid_t *other)
{
    int order = by_number(domain, other_domain);
    return order != 0 ? order : memcmp(key, other, sizeof *key);
}

static int by_owner(const void *one, const void *other)
{
    const struct seen_endpoint *a = one, *b = other;
    int order = by_key(a->domain, &a->participant, b->domain, &b->participant);
    return order != 0 ? order : by_announcement(a, b);
}

static int by_guid(const void *one, const void *other)
{
    const struct seen_participant *a = one, *b = other;
    return by_key(a->domain, &a->key, b->domain, &b->key);
}

static int by_endpoints(const void *one, const void *other)
{
    const struct seen_participant *a = one, *b = other;
    int order = by_number(a->domain, b->domain);
    order = order != 0 ? order : by_text(a->name, b->name);
    for (int at = 0; order == 0 && at < a->endpoints && at < b->endpoints; at++) {
        order = by_announcement(&a->endpoint[at], &b->endpoint[at]);
    }
    return order != 0 ? order : by_number(a->endpoints, b->endpoints);
}

static void sort(void *list, int count, size_t size, int (*order)(const void *, const void *))
{
    if (count > 0) {
        qsort(list, (size_t)count, size, order);
    }
}

bool are_endpoints_alike(const struct seen_endpoint *one, const struct seen_endpoint *other)
{
    return by_announcement(one, other) == 0;
}

bool are_participants_alike(const struct seen_participant *one, const struct seen_participant *other)
{
    return by_endpoints(one, other) == 0;
}

// ── what belongs to which participant

// Adds a participant for the endpoints, of which this is the first, of one that wasn't heard itself.
static void add_silent(struct seen *seen, const struct seen_endpoint *end)
{
    seen->participant = realloc(seen->participant, (size_t)(seen->participants + 1) * sizeof *seen->participant);
    if (seen->participant == NULL) {
        fail(STATUS_DDS, "memory ran out");
    }
    seen->participant[seen->participants++] = (struct seen_participant){.key = end->participant, .domain = end->domain};
}

static int owner_order(const struct seen_participant *participant, const struct seen_endpoint *end)
{
    return by_key(participant->domain, &participant->key, end->domain, &end->participant);
}

// Gives each participant its endpoints, both lists being in the order of GUIDs. Silent ones are added behind.
static void give_endpoints(struct seen *seen)
{
    int heard = seen->participants, participant = 0;
    for (int at = 0; at < seen->endpoints; at++) {
        const struct seen_endpoint *end = &seen->endpoint[at];
        while (participant < heard && owner_order(&seen->participant[participant], end) < 0) {
            participant++;
        }
        struct seen_participant *owner = participant < heard ? &seen->participant[participant] : NULL;
        if (owner == NULL || owner_order(owner, end) != 0) {
            if (seen->participants == heard || owner_order(&seen->participant[seen->participants - 1], end) != 0) {
                add_silent(seen, end);
            }
            owner = &seen->participant[seen->participants - 1];
        }
        owner->endpoint = owner->endpoints++ == 0 ? end : owner->endpoint;
    }
}

void put_in_order(struct seen *seen)
{
    sort(seen->endpoint, seen->endpoints, sizeof *seen->endpoint, by_owner);
    sort(seen->participant, seen->participants, sizeof *seen->participant, by_guid);
    give_endpoints(seen);
    sort(seen->participant, seen->participants, sizeof *seen->participant, by_endpoints);
}
