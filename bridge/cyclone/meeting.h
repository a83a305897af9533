// Where the processes of a deployment meet: before the first write, and before the first of them leaves.
#ifndef MEETING_H
#define MEETING_H

#include "system.h"

enum stage { STAGE_AWAY, STAGE_MATCHED, STAGE_ENDED };

struct meeting {
    struct cyclone *system;
    dds_entity_t participant, reader, writer;
    bool is_alone;
    // what each participant has said, and when it was last heard of
    enum stage *stage;
    int64_t *heard;
    // what this process says from time to time, for as long as it lives
    _Atomic enum stage said;
    pthread_t beat;
};

// Opens the meeting. Where all participants are in this process there is nobody to meet.
struct meeting *open_meeting(struct cyclone *system);

// Waits until all intended pairs with an endpoint here have matched, and all other processes say the same. What is missing is told where time runs out: false.
// Participants that may be late aren't waited for, nor are their pairs, and a process that has no others doesn't wait.
bool meet(struct meeting *meeting, int64_t until);

// Says that all applications here have ended, and waits until those of the others have, or time runs out. A process that isn't heard of for so long is waited for
// no longer: false, after a line of it. One that may still come isn't silent.
bool part(struct meeting *meeting, int64_t until, int64_t silence);

#endif
