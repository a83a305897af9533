#include "worker.h"
#include "fault.h"
#include "numbers.h"

static void push(struct worker *worker, struct step step)
{
    worker->circle[worker->steps++] = step;
}

// How long after its write a sample of a reader is taken: as late as the file allows, unless another span is asked for.
static int64_t take_within(const struct endpoint *reader, int64_t asked)
{
    return asked != NO_SPAN ? asked : is_timed(reader) ? reader->taken_within : NO_SPAN;
}

// True where the application has readers.
static bool push_takes(struct worker *worker, const struct spans *spans)
{
    const struct deployment *lists = worker->system->lists;
    bool reads = false;
    for (int at = 0; at < lists->readers; at++) {
        const struct endpoint *end = &lists->reader[at];
        reads = reads || end->application == worker->application;
        for (int key = 0; end->application == worker->application && key < lists->topic[end->topic].keys; key++) {
            if (end->hears[key]) {
                push(worker, (struct step){.kind = STEP_TAKE, .endpoint = at, .key = key, .within = take_within(end, spans->within[at]), .due = FOREVER});
            }
        }
    }
    return reads;
}

static void push_firings(struct worker *worker)
{
    const struct deployment *lists = worker->system->lists;
    for (int at = 0; at < lists->rules; at++) {
        if (lists->rule[at].application == worker->application && lists->rule[at].takes > 0) {
            push(worker, (struct step){.kind = STEP_FIRE, .endpoint = at});
        }
    }
}

// How many samples of a key a rule writes at a writer each time.
static uint64_t count_of(const struct rule *rule, int writer, int key)
{
    for (int at = 0; at < rule->writes; at++) {
        if (rule->write[at].endpoint == writer && rule->write[at].key == key) {
            return rule->write[at].count;
        }
    }
    return 0;
}

// The clock of a rule for a key at a writer, NULL where it has none: that of the file, unless another period is asked for, in which there is one write.
static struct pace *pace_of(const struct worker *worker, const struct step *step, int rule, int64_t period)
{
    const struct deployment *lists = worker->system->lists;
    const struct rule *one = &lists->rule[rule];
    // a rule with takes shares its permits with others, one of which may have no pace
    bool has_pace = is_paced(lists, step->endpoint, step->key), is_own = one->period > 0 && (one->is_free || has_pace);
    if (period == 0 && !is_own) {
        return NULL;
    }
    uint64_t count = count_of(one, step->endpoint, step->key);
    struct pace *pace = room(1, sizeof *pace);
    *pace = (struct pace){.period = one->period, .jitter = one->jitter, .count = count, .has_turns = one->is_free, .draws = (uint64_t)rule};
    if (period != 0) {
        pace->period = period;
        pace->jitter = 0;
        pace->count = 1;
    }
    if (has_pace) {
        pace->asked = one;
        pace->places = count < worker->writes ? count : worker->writes + 1;
        pace->earliest = room(pace->places, sizeof *pace->earliest);
    }
    return pace;
}

// The writes of a key at a writer: one by the clock of each free rule that has one, and one for the other rules. Where writes are free, what gives permits for
// them makes none. Of several rules with takes the pace of the first one counts, which keeps within that of all.
static void push_writes_of(struct worker *worker, int writer, int key, const int64_t *periods)
{
    const struct deployment *lists = worker->system->lists;
    struct step step = {.kind = STEP_WRITE, .endpoint = writer, .key = key};
    bool are_free = is_free(lists, writer, key), is_pushed = false;
    for (int at = 0; at < lists->rules; at++) {
        const struct rule *rule = &lists->rule[at];
        if (!rule_writes(rule, writer, key) || rule->is_free != are_free || (is_pushed && !are_free)) {
            continue;
        }
        step.pace = pace_of(worker, &step, at, periods[at]);
        if (step.pace != NULL || !is_pushed) {
            push(worker, step);
        }
        is_pushed = is_pushed || step.pace == NULL || !are_free;
    }
}

static void push_writes(struct worker *worker, const int64_t *periods)
{
    const struct deployment *lists = worker->system->lists;
    for (int at = 0; at < lists->writers; at++) {
        const struct endpoint *end = &lists->writer[at];
        for (int key = 0; end->application == worker->application && key < lists->topic[end->topic].keys; key++) {
            push_writes_of(worker, at, key, periods);
        }
    }
}

void ready_worker(struct worker *worker, struct cyclone *system, const struct rules *rules, int application, const struct options *options,
                  const struct spans *spans)
{
    const struct deployment *lists = system->lists;
    int most = (lists->readers + lists->writers) * MOST_KEYS + lists->rules * (1 + MOST_PORTIONS);
    *worker = (struct worker){.system = system, .rules = rules, .guard = DDSCHECK_GUARD_CLOSED, .application = application};
    worker->circle = room((unsigned long)most, sizeof *worker->circle);
    worker->takes = push_takes(worker, spans) ? options->takes : 0;
    push_firings(worker);
    int before = worker->steps;
    worker->writes = options->writes;
    push_writes(worker, spans->periods);
    worker->writes = worker->steps > before ? options->writes : 0;
    worker->idle_waits = options->idle;
    worker->most_calls = (uint64_t)options->calls;
    if (options->speed) {
        worker->write_times = room(worker->writes, sizeof *worker->write_times);
        worker->take_times = room(worker->takes, sizeof *worker->take_times);
    }
    if (options->trace != NULL) {
        worker->event = room(worker->writes + worker->takes, sizeof *worker->event);
    }
}

// Opens the guard, and looks up what the steps speak of.
static void ready_guard(struct worker *worker)
{
    const struct deployment *lists = worker->system->lists;
    ddscheck_guard *guard = &worker->guard;
    open_guard(guard, worker->rules, lists->application[worker->application].name);
    for (int at = 0; at < worker->steps; at++) {
        struct step *step = &worker->circle[at];
        if (step->kind == STEP_FIRE) {
            step->number = rule_number(guard, step->endpoint);
            continue;
        }
        const struct endpoint *end = step->kind == STEP_TAKE ? &lists->reader[step->endpoint] : &lists->writer[step->endpoint];
        step->number = step->kind == STEP_TAKE ? reader_number(guard, end) : writer_number(guard, end);
        step->key_number = key_number(guard, &lists->topic[end->topic], step->key);
    }
}

static void note_event(struct worker *worker, const struct step *step, int64_t time)
{
    if (worker->event != NULL) {
        worker->event[worker->took + worker->wrote] = (struct event){.step = step, .time = time};
    }
}

// Whether the oldest sample of a take is due, by some time before it would be late: a thread that sleeps wakes later than it's asked to.
static bool is_due(struct worker *worker, struct step *step)
{
    enum { PARTS = 20 };
    int64_t written;
    if (step->within == NO_SPAN) {
        return true;
    }
    bool is_there = find_oldest(&worker->system->cache[step->endpoint], step->key, &written);
    step->due = is_there ? later(written, step->within - step->within / PARTS) : FOREVER;
    return now() >= step->due;
}

static bool do_take(struct worker *worker, struct step *step)
{
    step->due = FOREVER;
    if (worker->took == worker->takes || !worker->may_take || !is_due(worker, step)) {
        return false;
    }
    worker->calls++;
    ddscheck_Sample sample;
    if (!take(&worker->system->cache[step->endpoint], step->key, &sample)) {
        return false;
    }
    int64_t time = now();
    if (worker->take_times != NULL) {
        worker->take_times[worker->took] = time;
    }
    note_event(worker, step, time);
    worker->took++;
    expect(ddscheck_take(&worker->guard, step->number, step->key_number), "a take at", worker->system->lists->reader[step->endpoint].name);
    return true;
}

// Fires a rule. False where a take that it needs is missing.
static bool do_fire(struct worker *worker, const struct step *step)
{
    worker->calls++;
    ddscheck_status status = ddscheck_fire(&worker->guard, step->number);
    if (status == DDSCHECK_NOT_ENOUGH) {
        return false;
    }
    expect(status, "to fire rule", worker->system->lists->rule[step->endpoint].name);
    return true;
}

// Whether the guard, and the clock of a free write, let a write be made. Nothing changes by that. After its firings an application has no rule that could fire
// once more, since each circle takes at most one sample of each key at each reader; so the guard has none to fire for a write.
static bool may_write(struct worker *worker, const struct step *step)
{
    if (worker->wrote == worker->writes || (step->pace != NULL && now() < step->pace->due)) {
        return false;
    }
    worker->calls++;
    ddscheck_status status = ddscheck_may_write(&worker->guard, step->number, step->key_number);
    if (status == DDSCHECK_NO_PERMIT) {
        return false;
    }
    expect(status, "a write at", worker->system->lists->writer[step->endpoint].name);
    return true;
}

// A write that was made, at this time. Only now its permit is used, since one that timed out is tried again and stands for the same sample.
static void note_write(struct worker *worker, struct step *step, int64_t time)
{
    expect(ddscheck_write(&worker->guard, step->number, step->key_number), "a write at", worker->system->lists->writer[step->endpoint].name);
    note_event(worker, step, time);
    if (step->pace != NULL) {
        note_paced(step->pace, time);
    }
    worker->system->writer[step->endpoint].written[step->key]++;
    worker->system->writer[step->endpoint].written_at[step->key] = time;
    worker->wrote++;
}

static bool do_write(struct worker *worker, struct step *step)
{
    if (!may_write(worker, step)) {
        return false;
    }
    struct writer *writer = &worker->system->writer[step->endpoint];
    const struct deployment *lists = worker->system->lists;
    ddscheck_Sample sample = sample_of(lists->topic[lists->writer[step->endpoint].topic].key[step->key]);
    int64_t begun = now();
    put_numbers(sample.data, (struct numbers){.time = begun, .number = writer->written[step->key] + 1, .writer = (uint64_t)step->endpoint,
                                              .time_before = writer->written_at[step->key]});
    if (worker->write_times != NULL) {
        worker->write_times[worker->wrote] = begun;
    }
    dds_return_t answer = dds_write(writer->handle, &sample);
    if (answer == DDS_RETCODE_TIMEOUT) {
        // a reader of this process has no room, or too much is not acknowledged: the same sample is tried again in a later circle
        writer->timed_out++;
        return false;
    }
    if (answer < 0) {
        fail(STATUS_DDS, "a write at %s: %s", lists->writer[step->endpoint].name, dds_strretcode(-answer));
    }
    note_write(worker, step, begun);
    return true;
}

static bool do_step(struct worker *worker, struct step *step)
{
    switch (step->kind) {
    case STEP_TAKE:
        return do_take(worker, step);
    case STEP_FIRE:
        return do_fire(worker, step);
    default:
        return do_write(worker, step);
    }
}

// Goes round the circle once. True where something was taken, fired or written.
static bool go_round(struct worker *worker)
{
    bool moved = false;
    uint64_t before = worker->took;
    worker->may_take = now() >= worker->held_until;
    for (int at = 0; at < worker->steps && worker->calls < worker->most_calls; at++) {
        moved = do_step(worker, &worker->circle[at]) || moved;
    }
    if (worker->slow > 0 && worker->took > before) {
        worker->held_until = now() + worker->slow;
    }
    return moved;
}

static bool is_done(const struct worker *worker)
{
    return worker->took == worker->takes && worker->wrote == worker->writes;
}

// When a step is due that waits for its time, `FOREVER` where it waits for something else, or for nothing.
static int64_t due_of(const struct worker *worker, const struct step *step, int64_t time)
{
    if (step->kind == STEP_TAKE) {
        return step->due;
    }
    if (step->pace == NULL || worker->wrote == worker->writes) {
        return FOREVER;
    }
    // a rule with takes whose time has come waits for a permit
    return step->pace->has_turns || step->pace->due > time ? step->pace->due : FOREVER;
}

// When the next take or write by a clock is due, where there is one to make.
static int64_t next_due(const struct worker *worker)
{
    int64_t next = FOREVER, time = now();
    for (int at = 0; at < worker->steps; at++) {
        int64_t due = due_of(worker, &worker->circle[at], time);
        next = due < next ? due : next;
    }
    return next;
}

static void start_clocks(struct worker *worker)
{
    int64_t time = now();
    for (int at = 0; at < worker->steps; at++) {
        if (worker->circle[at].pace != NULL) {
            begin_pace(worker->circle[at].pace, time);
        }
    }
}

// Goes round until the end, and gives which one it is.
static enum end go_on(struct worker *worker)
{
    struct change *change = &worker->system->change[worker->application];
    int idle = 0;
    start_clocks(worker);
    while (!is_done(worker)) {
        if (now() >= worker->cut_at) {
            return END_CUT;
        }
        uint64_t seen = seen_changes(change);
        bool moved = go_round(worker);
        if (worker->calls >= worker->most_calls && !is_done(worker)) {
            return END_LIMIT;
        }
        int64_t due = next_due(worker);
        if (moved) {
            worker->last_success = now();
            idle = 0;
        } else if (wait_change(change, seen, due) || now() < worker->held_until || due != FOREVER) {
            idle = 0;
        } else if (++idle >= worker->idle_waits) {
            return END_IDLE;
        }
    }
    return END_STOPPED;
}

void *work(void *argument)
{
    struct worker *worker = argument;
    ready_guard(worker);
    pthread_barrier_wait(worker->stage);
    pthread_barrier_wait(worker->stage);
    worker->end = go_on(worker);
    expect(ddscheck_close(&worker->guard), "to close, for", worker->system->lists->application[worker->application].name);
    return NULL;
}
