// Which of the topics that were heard a file has room for.
#ifndef CHOICE_H
#define CHOICE_H

#include "seen.h"

struct heard_endpoint {
    const struct seen_endpoint *end;
    int participant, topic;
};

// A topic is one of a name and a type.
struct heard_topic {
    int endpoints, writers;
    const struct heard_endpoint **endpoint;
    bool is_kept;
};

enum list { PARTICIPANT_LIST, TOPIC_LIST, WRITER_LIST, READER_LIST, LISTS };

// All endpoints in the order of their participants, and all topics in that of their names and types. Of these whole ones are kept, the ones with the most endpoints
// first, and of each list it is known how many were heard, how many are kept, and whether it has no room for all topics.
struct choice {
    int endpoints, topics, most_topics;
    struct heard_endpoint *endpoint;
    struct heard_topic *topic;
    bool *is_participant_kept;
    int heard[LISTS], kept[LISTS];
    bool is_full[LISTS];
};

// Of what was heard, in its order, at most so many topics are kept.
struct choice choice_of(const struct seen *seen, int most_topics);

// The most that a file has of a list, and what it is called.
extern const int LIST_MOST[LISTS];
extern const char *const LIST_NAME[LISTS];

#endif
