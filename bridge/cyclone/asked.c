#include "asked.h"

#include <fnmatch.h>
#include <stddef.h>
#include <string.h>

static const char *const SERVICES[] = {
    "describe_parameters", "get_parameter_types", "get_parameters", "list_parameters", "set_parameters", "set_parameters_atomically", NULL,
};

static bool has_prefix(const char *text, const char *prefix)
{
    return strncmp(text, prefix, strlen(prefix)) == 0;
}

// Whether a text ends with a `/`, these two words and nothing more.
static bool has_ending(const char *text, const char *one, const char *other)
{
    size_t length = strlen(text), ending = 1 + strlen(one) + strlen(other);
    if (length < ending) {
        return false;
    }
    const char *at = text + length - ending;
    return *at == '/' && has_prefix(at + 1, one) && strcmp(at + 1 + strlen(one), other) == 0;
}

bool is_of_ros(const char *topic)
{
    return has_prefix(topic, "rt/");
}

bool is_of_each_node(const char *topic)
{
    if (strcmp(topic, "rt/rosout") == 0 || strcmp(topic, "rt/parameter_events") == 0) {
        return true;
    }
    bool is_request = has_prefix(topic, "rq/"), is_service = is_request || has_prefix(topic, "rr/"), is_found = false;
    for (int at = 0; is_service && SERVICES[at] != NULL; at++) {
        is_found = is_found || has_ending(topic, SERVICES[at], is_request ? "Request" : "Reply");
    }
    return is_found;
}

bool has_some(const struct patterns *patterns, const char *topic)
{
    for (int at = 0; at < patterns->count; at++) {
        if (fnmatch(patterns->pattern[at], topic, 0) == 0) {
            return true;
        }
    }
    return false;
}

bool is_by_pattern(const struct asked *asked, const char *topic)
{
    return (asked->topics.count == 0 || has_some(&asked->topics, topic)) && !has_some(&asked->excluded, topic);
}

bool is_asked_for(const struct asked *asked, const char *topic)
{
    return is_by_pattern(asked, topic) && (!asked->is_ros || asked->has_all || !is_of_each_node(topic));
}
