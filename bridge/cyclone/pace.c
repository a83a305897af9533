#include "pace.h"
#include "change.h"

static int64_t greater(int64_t one, int64_t other)
{
    return one > other ? one : other;
}

// A number that is drawn from 0 to this one (splitmix64).
static int64_t draw(struct pace *pace, int64_t most)
{
    uint64_t found = pace->draws += UINT64_C(0x9e3779b97f4a7c15);
    found = (found ^ found >> 30) * UINT64_C(0xbf58476d1ce4e5b9);
    found = (found ^ found >> 27) * UINT64_C(0x94d049bb133111eb);
    return (int64_t)((found ^ found >> 31) % ((uint64_t)most + 1));
}

// The turn that comes next is due once its time has come, and not before the pace allows it.
static void ready_turn(struct pace *pace)
{
    int64_t drawn = pace->has_turns ? later(pace->turn, draw(pace, pace->jitter)) : 0;
    pace->due = greater(drawn, pace->next - pace->jitter);
    pace->left = pace->count;
}

void begin_pace(struct pace *pace, int64_t time)
{
    pace->turn = pace->next = time;
    ready_turn(pace);
}

// A write in a place of its period may come a period after the one before it in that place, or earlier by the jitter in all.
static void judge(struct pace *pace, int64_t time)
{
    int64_t *earliest = &pace->earliest[pace->writes % pace->places], early = *earliest - time;
    if (early > pace->asked->jitter) {
        pace->excess = greater(pace->excess, early - pace->asked->jitter);
    }
    *earliest = later(greater(*earliest, time), pace->asked->period);
    pace->writes++;
}

void note_paced(struct pace *pace, int64_t time)
{
    if (pace->asked != NULL) {
        judge(pace, time);
    }
    if (--pace->left > 0) {
        return;
    }
    // a turn that has gone by without a write is left out
    int64_t gone = (time - pace->due) / pace->period;
    pace->turn = gone < FOREVER / pace->period ? later(pace->turn, (1 + gone) * pace->period) : FOREVER;
    pace->next = later(greater(pace->next, time), pace->period);
    ready_turn(pace);
}
