// Endpoints of which topics are asked for.
#ifndef ASKED_H
#define ASKED_H

#include <stdbool.h>
#include <stdint.h>

enum { MOST_DOMAINS = 16, MOST_PATTERNS = 16 };

// Patterns as a shell has them.
struct patterns {
    int count;
    const char *pattern[MOST_PATTERNS];
};

struct asked {
    int domains;
    uint32_t domain[MOST_DOMAINS];
    // topics that count, all where there is none, and those among them that don't
    struct patterns topics, excluded;
    // whether it is a system of ROS 2, and whether what each of its nodes has counts
    bool is_ros, has_all;
};

// Whether a topic is one of ROS 2.
bool is_of_ros(const char *topic);

// Whether each node of ROS 2 has this topic: its parameter services, its log and the changes of its parameters.
bool is_of_each_node(const char *topic);

// Whether a topic matches one of these.
bool has_some(const struct patterns *patterns, const char *topic);

// Whether the patterns let a topic pass.
bool is_by_pattern(const struct asked *asked, const char *topic);

// Whether a topic passes the patterns, and isn't one that each node of ROS 2 has where these don't count.
bool is_asked_for(const struct asked *asked, const char *topic);

#endif
