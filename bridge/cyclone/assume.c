#include "assume.h"
#include "policy.h"

#include <stddef.h>
#include <string.h>

#define WITHOUT_LIMITS .max_samples = UNLIMITED, .max_instances = UNLIMITED, .max_samples_per_instance = UNLIMITED

// OMG DDS 1.4, clause 2.2.3, Cyclone DDS and RTI Connext have the same ones. ROS 2 sets the depth of its default profile, and no limits. Fast DDS's limits are
// those by which tools/dds-xml imports its profiles.
static const struct assumption KNOWN[] = {
    {"dds", "DDS", {.depth = 1, WITHOUT_LIMITS}},
    {"ros2", "ROS 2", {.depth = 10, WITHOUT_LIMITS}},
    {"cyclone", "Cyclone DDS", {.depth = 1, WITHOUT_LIMITS}},
    {"fastdds", "Fast DDS", {.depth = 1, .max_samples = 5000, .max_instances = 10, .max_samples_per_instance = 400}},
    {"connext", "RTI Connext", {.depth = 1, WITHOUT_LIMITS}},
};

const struct assumption *assumption_for(const char *word)
{
    for (size_t at = 0; at < sizeof KNOWN / sizeof *KNOWN; at++) {
        if (strcmp(KNOWN[at].word, word) == 0) {
            return &KNOWN[at];
        }
    }
    return NULL;
}

struct policies assumed_policies(const struct policies *policies, const struct assumption *assumption)
{
    struct policies found = *policies;
    if (found.history == UNTOLD) {
        found.history = assumption->policies.history;
        found.depth = assumption->policies.depth;
    }
    if (found.max_samples == UNTOLD) {
        found.max_samples = assumption->policies.max_samples;
        found.max_instances = assumption->policies.max_instances;
        found.max_samples_per_instance = assumption->policies.max_samples_per_instance;
    }
    return is_consistent(&found) ? found : *policies;
}
