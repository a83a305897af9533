// What was heard as a deployment, within the limits of its file.
#ifndef CAPTURED_H
#define CAPTURED_H

#include "choice.h"

// The greatest file.
enum { MOST_TEXT = 1048576 };

// The lists of a deployment, without applications and rules, which stand for themselves. A topic whose keys discovery doesn't tell has none. To each entry belong
// lines that say what of it is otherwise on the wire, each with a line break, or an empty text.
struct captured {
    struct choice choice;
    struct deployment lists;
    char **participant_notes, **topic_notes, **writer_notes, **reader_notes;
    // to each writer lines that say how often it wrote, an empty text where that wasn't asked for
    char **beats;
    // lines that say which list is full and what isn't there for that, an empty text where all is there
    char *cuts;
    // whether the text that was made of it says that something isn't there
    bool is_incomplete;
};

// Of what was heard and put in order. Of topics at most so many are kept.
struct captured *capture_of(const struct seen *seen, int most_topics);

#endif
