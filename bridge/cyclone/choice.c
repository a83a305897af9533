#include "choice.h"
#include "fault.h"

#include <stdlib.h>
#include <string.h>

// versions 3 and 4 of the file have the same ones
const int LIST_MOST[LISTS] = {MOST_PARTICIPANTS, MOST_ENDPOINTS, MOST_ENDPOINTS, MOST_ENDPOINTS};
const char *const LIST_NAME[LISTS] = {"participants", "topics", "writers", "readers"};

static int by_topic(const struct heard_endpoint *one, const struct heard_endpoint *other)
{
    int order = strcmp(one->end->topic, other->end->topic);
    return order != 0 ? order : strcmp(one->end->type, other->end->type);
}

static int by_topic_and_place(const void *one, const void *other)
{
    const struct heard_endpoint *const *a = one, *const *b = other;
    int order = by_topic(*a, *b);
    return order != 0 ? order : (*a > *b) - (*a < *b);
}

// The topics with the most endpoints first, and else as they stand.
static int by_endpoints(const void *one, const void *other)
{
    struct heard_topic *const *a = one, *const *b = other;
    int order = (*a)->endpoints < (*b)->endpoints ? 1 : (*a)->endpoints > (*b)->endpoints ? -1 : 0;
    return order != 0 ? order : (*a > *b) - (*a < *b);
}

static void list_endpoints(struct choice *choice, const struct seen *seen)
{
    choice->endpoint = room((unsigned long)seen->endpoints, sizeof *choice->endpoint);
    for (int participant = 0; participant < seen->participants; participant++) {
        const struct seen_participant *owner = &seen->participant[participant];
        for (int at = 0; at < owner->endpoints; at++) {
            choice->endpoint[choice->endpoints++] = (struct heard_endpoint){.end = &owner->endpoint[at], .participant = participant};
            choice->heard[owner->endpoint[at].is_writer ? WRITER_LIST : READER_LIST]++;
        }
    }
    choice->heard[PARTICIPANT_LIST] = seen->participants;
}

static void list_topics(struct choice *choice)
{
    struct heard_endpoint **ends = room((unsigned long)choice->endpoints, sizeof *ends);
    choice->topic = room((unsigned long)choice->endpoints, sizeof *choice->topic);
    for (int at = 0; at < choice->endpoints; at++) {
        ends[at] = &choice->endpoint[at];
    }
    if (choice->endpoints > 0) {
        qsort(ends, (size_t)choice->endpoints, sizeof *ends, by_topic_and_place);
    }
    for (int at = 0; at < choice->endpoints; at++) {
        if (at == 0 || by_topic(ends[at - 1], ends[at]) != 0) {
            choice->topic[choice->topics++] = (struct heard_topic){.endpoint = (const struct heard_endpoint **)&ends[at]};
        }
        ends[at]->topic = choice->topics - 1;
        choice->topic[choice->topics - 1].endpoints++;
        choice->topic[choice->topics - 1].writers += ends[at]->end->is_writer;
    }
    choice->heard[TOPIC_LIST] = choice->topics;
}

// How much a topic would add to each list. Its endpoints come in the order of their participants.
static void count_topic(const struct choice *choice, const struct heard_topic *topic, int more[LISTS])
{
    more[PARTICIPANT_LIST] = 0;
    more[TOPIC_LIST] = 1;
    more[WRITER_LIST] = topic->writers;
    more[READER_LIST] = topic->endpoints - topic->writers;
    for (int at = 0; at < topic->endpoints; at++) {
        int owner = topic->endpoint[at]->participant;
        bool is_new = at == 0 || topic->endpoint[at - 1]->participant != owner;
        more[PARTICIPANT_LIST] += is_new && !choice->is_participant_kept[owner];
    }
}

// Keeps a topic, where there is room for all of it.
static void keep_topic(struct choice *choice, struct heard_topic *topic)
{
    int more[LISTS];
    count_topic(choice, topic, more);
    topic->is_kept = choice->kept[TOPIC_LIST] < choice->most_topics;
    for (int list = 0; list < LISTS; list++) {
        bool has_room = choice->kept[list] + more[list] <= LIST_MOST[list];
        choice->is_full[list] = choice->is_full[list] || !has_room;
        topic->is_kept = topic->is_kept && has_room;
    }
    for (int list = 0; topic->is_kept && list < LISTS; list++) {
        choice->kept[list] += more[list];
    }
    for (int at = 0; topic->is_kept && at < topic->endpoints; at++) {
        choice->is_participant_kept[topic->endpoint[at]->participant] = true;
    }
}

// Keeps participants without kept endpoints as far as there is room.
static void keep_others(struct choice *choice)
{
    for (int at = 0; at < choice->heard[PARTICIPANT_LIST] && choice->kept[PARTICIPANT_LIST] < MOST_PARTICIPANTS; at++) {
        choice->kept[PARTICIPANT_LIST] += !choice->is_participant_kept[at];
        choice->is_participant_kept[at] = true;
    }
}

struct choice choice_of(const struct seen *seen, int most_topics)
{
    struct choice choice = {.most_topics = most_topics, .is_participant_kept = room((unsigned long)seen->participants, sizeof *choice.is_participant_kept)};
    list_endpoints(&choice, seen);
    list_topics(&choice);
    struct heard_topic **order = room((unsigned long)choice.topics, sizeof *order);
    for (int at = 0; at < choice.topics; at++) {
        order[at] = &choice.topic[at];
    }
    if (choice.topics > 0) {
        qsort(order, (size_t)choice.topics, sizeof *order, by_endpoints);
    }
    for (int at = 0; at < choice.topics; at++) {
        keep_topic(&choice, order[at]);
    }
    for (int list = TOPIC_LIST; list < LISTS; list++) {
        choice.is_full[list] = choice.is_full[list] || choice.heard[list] > LIST_MOST[list];
    }
    keep_others(&choice);
    free(order);
    return choice;
}
