#include "matching.h"

#include <limits.h>
#include <string.h>

// The right parts of a name, a bit for each: bit k is for its last k bytes. A name has at most 64 bytes.
typedef unsigned __int128 parts;

// A name without wildcards, with the parts whose first byte each byte of a pattern but `*` stands for.
struct plain {
    size_t length;
    parts beginning[UCHAR_MAX + 1];
};

static void index_name(struct plain *plain, const char *name)
{
    *plain = (struct plain){.length = strlen(name)};
    for (size_t at = 0; at < plain->length; at++) {
        plain->beginning[(unsigned char)name[at]] |= (parts)1 << (plain->length - at);
    }
    plain->beginning['?'] = ~(parts)0;
}

// Whether the name has a pattern, in which `*` stands for any bytes and `?` for one. From the back of the pattern on, each byte turns the parts that the bytes behind
// it stand for into those that it stands for with them: `*` adds all that are longer.
static bool has_pattern(const struct plain *plain, const char *pattern)
{
    parts found = 1;
    for (size_t at = strlen(pattern); at > 0 && found != 0; at--) {
        unsigned char byte = (unsigned char)pattern[at - 1];
        found = byte == '*' ? found | -found : found << 1 & plain->beginning[byte];
    }
    return (found >> plain->length & 1) != 0;
}

static bool is_pattern(const char *name)
{
    return strpbrk(name, "*?") != NULL;
}

// The names of a list; none count as one empty name.
static const char *partition_at(const struct policies *policies, int at)
{
    return policies->partitions == 0 ? "" : policies->partition[at];
}

static int partitions_of(const struct policies *policies)
{
    return policies->partitions == 0 ? 1 : policies->partitions;
}

// Whether a name without wildcards has some pattern of a list, in which a name is a pattern, too.
static bool meets_some(const char *name, const struct policies *others)
{
    struct plain plain;
    index_name(&plain, name);
    for (int at = 0; at < partitions_of(others); at++) {
        if (has_pattern(&plain, partition_at(others, at))) {
            return true;
        }
    }
    return false;
}

static bool some_meets(const struct policies *names, const struct policies *others)
{
    for (int at = 0; at < partitions_of(names); at++) {
        const char *name = partition_at(names, at);
        if (!is_pattern(name) && meets_some(name, others)) {
            return true;
        }
    }
    return false;
}

// Two patterns never match.
static bool partitions_match(const struct policies *one, const struct policies *other)
{
    return some_meets(one, other) || some_meets(other, one);
}

// The words of each policy rise in the order in which an offer meets requests.
static bool is_met(const struct policies *offered, const struct policies *requested)
{
    return offered->durability >= requested->durability && offered->access_scope >= requested->access_scope &&
           (offered->coherent || !requested->coherent) && (offered->ordered || !requested->ordered) && offered->deadline <= requested->deadline &&
           offered->latency_budget <= requested->latency_budget && offered->ownership == requested->ownership &&
           offered->liveliness >= requested->liveliness && offered->lease <= requested->lease && offered->reliability >= requested->reliability &&
           offered->destination_order >= requested->destination_order;
}

bool do_match(const struct deployment *lists, const struct endpoint *writer, const struct endpoint *reader)
{
    return lists->participant[writer->participant].domain == lists->participant[reader->participant].domain && writer->topic == reader->topic &&
           partitions_match(&writer->policies, &reader->policies) && is_met(&writer->policies, &reader->policies);
}
