#include "captured.h"
#include "fault.h"
#include "json.h"
#include "names.h"
#include "order.h"

#include <inttypes.h>
#include <stdlib.h>
#include <string.h>

// ── what changes

// Notes that a text is another one on the wire, where that is so.
static void note_change(FILE *notes, const char *what, const char *heard, const char *written)
{
    if (strcmp(heard, written) != 0) {
        fprintf(notes, "# %s on the wire: ", what);
        print_quoted(notes, heard);
        fputc('\n', notes);
    }
}

// Notes at the first of several that can't be told apart how many these are.
static void note_alike(FILE *notes, int count)
{
    if (count > 1) {
        fprintf(notes, "# this and the %d after it are announced alike, so nothing tells which is which\n", count - 1);
    }
}

// A name of a section for what was heard: that itself, or where another one has it already, with the participant before it. The section keeps it.
static const char *name_for(struct names *names, const char *heard, const char *participant, FILE *notes)
{
    char *spelled = spell(heard, NAME_BYTES, MOST_NAME), longer[2 * MOST_NAME + 2];
    snprintf(longer, sizeof longer, "%s.%s", participant != NULL ? participant : spelled, spelled);
    const char *found = add_name(names, spelled, participant != NULL ? longer : spelled);
    note_change(notes, "name", heard, found);
    free(spelled);
    return found;
}

// ── how often it's written

static double in_ms(int64_t nanoseconds)
{
    return (double)nanoseconds / 1e6;
}

// What was measured, as comments: in version 4 a rule may have the two fields.
static void print_beat(FILE *out, const struct seen_endpoint *writer, int64_t watched_for)
{
    const struct beat *beat = &writer->beat;
    if (writer->watched == NOT_WATCHED) {
        return;
    }
    if (writer->watched == NOT_WATCHABLE) {
        fprintf(out, "# not watched: %s\n", writer->why);
        return;
    }
    const char *samples = beat->samples == 1 ? "sample" : "samples";
    fprintf(out, "# seen in %.1f s: %" PRIu64 " %s, %" PRIu64 " more didn't come", (double)watched_for / 1e9, beat->samples, samples, beat->missing);
    if (!beat->is_known) {
        fputs("; too few for a period\n", out);
        return;
    }
    fprintf(out, "; %.3f ms apart in the mean, %.3f ms at least, by %s\n", in_ms(beat->period), in_ms(beat->shortest),
            beat->is_by_stamp ? "the writer's clock" : "when they came");
    fputs("# in version 4, if it writes by a clock, with what it's designed for in place of what was seen:\n", out);
    fprintf(out, "# period = %" PRId64 "\n# jitter = %" PRId64 "\n", beat->period, beat->jitter);
}

// ── the sections

struct sections {
    const struct seen *seen;
    struct captured *captured;
    struct names participants, topics, writers, readers;
    // the places of the participants and topics that were heard
    int *participant_place, *topic_place;
    FILE *cuts;
};

// How many in a row are alike from this one on, and 0 where the one before it is like it, too.
static int alike_participants(const struct seen *seen, int first)
{
    int count = 1;
    if (first > 0 && are_participants_alike(&seen->participant[first - 1], &seen->participant[first])) {
        return 0;
    }
    while (first + count < seen->participants && are_participants_alike(&seen->participant[first], &seen->participant[first + count])) {
        count++;
    }
    return count;
}

static int alike_endpoints(const struct seen_participant *owner, const struct seen_endpoint *first)
{
    int at = (int)(first - owner->endpoint), count = 1;
    if (at > 0 && are_endpoints_alike(first - 1, first)) {
        return 0;
    }
    while (at + count < owner->endpoints && are_endpoints_alike(first, first + count)) {
        count++;
    }
    return count;
}

static void place_participants(struct sections *sections)
{
    struct captured *captured = sections->captured;
    int unnamed = 0;
    for (int at = 0; at < sections->seen->participants; at++) {
        const struct seen_participant *heard = &sections->seen->participant[at];
        if (!captured->choice.is_participant_kept[at]) {
            continue;
        }
        int place = captured->lists.participants++;
        FILE *notes = open_text(&captured->participant_notes[place]);
        char number[16];
        snprintf(number, sizeof number, "p%d", unnamed + 1);
        unnamed += heard->name == NULL;
        const char *name = heard->name != NULL ? name_for(&sections->participants, heard->name, NULL, notes) : add_name(&sections->participants, number, number);
        captured->lists.participant[place] = (struct participant){.name = name, .domain = heard->domain};
        note_alike(notes, alike_participants(sections->seen, at));
        close_text(notes);
        sections->participant_place[at] = place;
    }
}

static bool has_keys(const struct heard_topic *topic)
{
    for (int at = 0; at < topic->endpoints; at++) {
        if (topic->endpoint[at]->end->has_keys) {
            return true;
        }
    }
    return false;
}

static void place_topics(struct sections *sections)
{
    struct captured *captured = sections->captured;
    for (int at = 0; at < captured->choice.topics; at++) {
        const struct heard_topic *heard = &captured->choice.topic[at];
        if (!heard->is_kept) {
            continue;
        }
        const struct seen_endpoint *end = heard->endpoint[0]->end;
        int place = captured->lists.topics++;
        FILE *notes = open_text(&captured->topic_notes[place]);
        const char *name = name_for(&sections->topics, end->topic, NULL, notes);
        char *type = spell(*end->type != '\0' ? end->type : "_", TYPE_BYTES, MOST_TYPE);
        captured->lists.topic[place] = (struct topic){.name = name, .type = type, .keys = !has_keys(heard), .key = {"key"}};
        note_change(notes, "type", end->type, type);
        close_text(notes);
        sections->topic_place[at] = place;
    }
}

static void place_partitions(const struct seen_endpoint *heard, struct policies *policies, struct sections *sections, FILE *notes)
{
    for (int at = 0; at < heard->partitions; at++) {
        if (policies->partitions == MOST_PARTITIONS) {
            fprintf(notes, "# on the wire it has %d partitions\n", heard->partitions);
            fprintf(sections->cuts, "the list of partitions of an endpoint is full: %d were heard, and a file has at most %d\n", heard->partitions,
                    MOST_PARTITIONS);
            return;
        }
        char *name = spell(heard->partition[at], PARTITION_BYTES, MOST_NAME);
        note_change(notes, "partition", heard->partition[at], name);
        policies->partition[policies->partitions++] = name;
    }
}

// A name for an endpoint that has none: its participant and its topic, and where another one has that already its first partition, too, as far as there is room.
static const char *name_by_topic(struct sections *sections, const struct endpoint *end, bool is_writer)
{
    const struct deployment *lists = &sections->captured->lists;
    const char *participant = lists->participant[end->participant].name, *topic = lists->topic[end->topic].name, *kind = is_writer ? ".w" : ".r";
    char text[2 * MOST_NAME + 8], longer[3 * MOST_NAME + 8];
    int length = snprintf(text, sizeof text, "%s.%s", participant, topic), kept = length > MOST_NAME - 2 ? MOST_NAME - 2 : length;
    char *partition = spell(end->policies.partitions > 0 ? end->policies.partition[0] : "", NAME_BYTES, MOST_NAME);
    snprintf(longer, sizeof longer, "%.*s%s%s%s", kept, text, *partition != '\0' ? "." : "", partition, kind);
    snprintf(text + kept, sizeof text - (size_t)kept, "%s", kind);
    free(partition);
    return add_name(is_writer ? &sections->writers : &sections->readers, text, longer);
}

static void place_endpoint(struct sections *sections, const struct heard_endpoint *one)
{
    struct captured *captured = sections->captured;
    struct deployment *lists = &captured->lists;
    const struct seen_endpoint *heard = one->end;
    int owner = sections->participant_place[one->participant], place = heard->is_writer ? lists->writers++ : lists->readers++;
    struct endpoint *end = heard->is_writer ? &lists->writer[place] : &lists->reader[place];
    struct names *names = heard->is_writer ? &sections->writers : &sections->readers;
    FILE *notes = open_text(heard->is_writer ? &captured->writer_notes[place] : &captured->reader_notes[place]);
    *end = (struct endpoint){.participant = owner, .topic = sections->topic_place[one->topic], .application = owner, .may_lose = !heard->is_writer,
                             .hands_over_less = heard->hands_over_less, .policies = heard->policies};
    place_partitions(heard, &end->policies, sections, notes);
    end->name = heard->name != NULL ? name_for(names, heard->name, lists->participant[owner].name, notes) : name_by_topic(sections, end, heard->is_writer);
    if (heard->hands_over_less) {
        fputs("# its DURABILITY_SERVICE hands a late reader less than it keeps\n", notes);
    }
    note_alike(notes, alike_endpoints(&sections->seen->participant[one->participant], heard));
    close_text(notes);
    if (heard->is_writer) {
        FILE *beats = open_text(&captured->beats[place]);
        print_beat(beats, heard, sections->seen->watched_for);
        close_text(beats);
    }
}

// Tells which lists are full, and which topics aren't there for that.
static void tell_cuts(const struct choice *choice, FILE *cuts)
{
    for (int list = 0; list < LISTS; list++) {
        if (choice->is_full[list]) {
            fprintf(cuts, "the list of %s is full: %d were heard, and a file has at most %d\n", LIST_NAME[list], choice->heard[list], LIST_MOST[list]);
        }
    }
    if (choice->most_topics < MOST_ENDPOINTS) {
        fprintf(cuts, "the file is full, which has at most %d bytes\n", MOST_TEXT);
    }
    if (choice->kept[TOPIC_LIST] < choice->topics) {
        fprintf(cuts, "%d of %d topics are left out, those with the fewest endpoints; --topics, --exclude or fewer domains leave room for others\n",
                choice->topics - choice->kept[TOPIC_LIST], choice->topics);
    }
}

static struct captured *empty_capture(const struct seen *seen, int most_topics)
{
    struct captured *captured = room(1, sizeof *captured);
    captured->choice = choice_of(seen, most_topics);
    captured->lists.participant = room(MOST_PARTICIPANTS, sizeof *captured->lists.participant);
    captured->lists.topic = room(MOST_ENDPOINTS, sizeof *captured->lists.topic);
    captured->lists.writer = room(MOST_ENDPOINTS, sizeof *captured->lists.writer);
    captured->lists.reader = room(MOST_ENDPOINTS, sizeof *captured->lists.reader);
    captured->participant_notes = room(MOST_PARTICIPANTS, sizeof *captured->participant_notes);
    captured->topic_notes = room(MOST_ENDPOINTS, sizeof *captured->topic_notes);
    captured->writer_notes = room(MOST_ENDPOINTS, sizeof *captured->writer_notes);
    captured->beats = room(MOST_ENDPOINTS, sizeof *captured->beats);
    captured->reader_notes = room(MOST_ENDPOINTS, sizeof *captured->reader_notes);
    return captured;
}

struct captured *capture_of(const struct seen *seen, int most_topics)
{
    struct captured *captured = empty_capture(seen, most_topics);
    struct sections sections = {.seen = seen, .captured = captured, .cuts = open_text(&captured->cuts)};
    sections.participant_place = room((unsigned long)seen->participants, sizeof *sections.participant_place);
    sections.topic_place = room((unsigned long)captured->choice.topics, sizeof *sections.topic_place);
    tell_cuts(&captured->choice, sections.cuts);
    place_participants(&sections);
    place_topics(&sections);
    for (int at = 0; at < captured->choice.endpoints; at++) {
        const struct heard_endpoint *one = &captured->choice.endpoint[at];
        if (captured->choice.topic[one->topic].is_kept) {
            place_endpoint(&sections, one);
        }
    }
    close_text(sections.cuts);
    free(sections.participant_place);
    free(sections.topic_place);
    return captured;
}
