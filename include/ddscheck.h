/*
 * ddscheck: keeps the rules of a DDS deployment in a program of your own.
 *
 * A guard is opened for one application of a deployment file. It counts the samples that the application takes, and answers before each write whether the
 * rules allow it. It calls no DDS. docs/GUARD.md shows how a program is guarded.
 *
 * Link with libddscheck.a, or with libddscheck-guard.a, which lacks ddscheck_check. Both take memory by malloc and give it back by free. Memory is taken by
 * ddscheck_open and given back by ddscheck_close alone; no call keeps a pointer that it is given, none aborts, and none blocks.
 *
 * This header reads no file and needs no stdio.h; ddscheck_file.h opens a guard by the path of its file.
 *
 * Threads: any thread may call, one at a time for each guard. A guard isn't tied to the thread that opened it, and calls on different guards don't touch each other.
 *
 * A pointer that is NULL is refused by DDSCHECK_NULL, unless its call says what it's for. Any other points to what its name says. Texts are those of the
 * deployment file, in UTF-8.
 */
#ifndef DDSCHECK_H
#define DDSCHECK_H

#include <stddef.h>
#include <stdint.h>
#include <string.h>

/* the version of this header, which is that of the library to link: `ddscheck --version` says it too */
#define DDSCHECK_VERSION "0.1.0"
#define DDSCHECK_VERSION_MAJOR 0
#define DDSCHECK_VERSION_MINOR 1
#define DDSCHECK_VERSION_PATCH 0
/* as one number: 10,000 for a major version, 100 for a minor one, and 1 for a patch. ddscheck_version() answers the library's */
#define DDSCHECK_VERSION_NUMBER (DDSCHECK_VERSION_MAJOR * 10000 + DDSCHECK_VERSION_MINOR * 100 + DDSCHECK_VERSION_PATCH)

#ifdef __cplusplus
extern "C" {
#endif

/* What a call answers, one of the numbers below. Any answer but DDSCHECK_OK leaves the guard as it was, and what the call would tell as it was. */
typedef int32_t ddscheck_status;

enum {
    DDSCHECK_OK = 0,
    /* the deployment file has a fault; `ddscheck match FILE` tells which */
    DDSCHECK_FAULT = 1,
    DDSCHECK_NO_MEMORY = 2,
    /* the deployment has no application, writer, reader, rule, topic or key of this name */
    DDSCHECK_UNKNOWN_NAME = 3,
    DDSCHECK_NOT_OPEN = 4,
    DDSCHECK_ALREADY_OPEN = 5,
    /* the number is no writer, reader or rule of the application, or no key that the reader takes */
    DDSCHECK_FOREIGN = 6,
    /* the application may not write the sample now */
    DDSCHECK_NO_PERMIT = 7,
    /* a take that the rule needs is missing, or the rule needs none */
    DDSCHECK_NOT_ENOUGH = 8,
    /* a count would pass 2^64 - 1 */
    DDSCHECK_COUNT_LIMIT = 9,
    /* the deployment file can't be read, or has more than 1,048,576 bytes; ddscheck_open_file alone answers it */
    DDSCHECK_NO_FILE = 10,
    /* the QoS of an entity isn't that of the deployment file; ddscheck_dds_open alone answers it */
    DDSCHECK_OTHER_QOS = 11,
    /* a pointer is NULL */
    DDSCHECK_NULL = 12,
    /* the last write that used a permit isn't this one, or is taken back already; ddscheck_undo_write alone answers it */
    DDSCHECK_NOT_WRITTEN = 13
};

/* What the check of a deployment by a certificate says, one of the numbers below: the status with which `ddscheck check` ends. */
typedef int32_t ddscheck_verdict;

enum {
    DDSCHECK_YES = 0,
    DDSCHECK_NO = 1,
    /* one of the two files has a fault, or more than 1,048,576 bytes */
    DDSCHECK_BAD_FILE = 2
};

/* A guard. It is DDSCHECK_GUARD_CLOSED before it is opened, and then only the calls below may change it. Don't copy an open one. */
typedef struct ddscheck_guard {
    void *at;
    uint64_t state;
} ddscheck_guard;

#define DDSCHECK_GUARD_CLOSED {NULL, 0}

/* The QoS of a writer or a reader as the deployment file has it. The kinds have the numbers of DDS. A limit of 0 is none, and so is the depth of KEEP_ALL. */
typedef struct ddscheck_qos {
    /* 0 VOLATILE, 1 TRANSIENT_LOCAL, 2 TRANSIENT, 3 PERSISTENT */
    uint32_t durability;
    /* 0 BEST_EFFORT, 1 RELIABLE */
    uint32_t reliability;
    /* 0 KEEP_LAST, 1 KEEP_ALL */
    uint32_t history;
    uint32_t depth;
    uint32_t max_samples, max_instances, max_samples_per_instance;
} ddscheck_qos;

/* The first fault of a deployment file, as `ddscheck match FILE` prints it. Where there's none, the number is 0 and the path is empty. */
typedef struct ddscheck_fault {
    /* 1 to 13; docs/numbers.md says what each means */
    uint32_t number;
    /* where it is, such as "readers[0].topic", with a zero at its end; some faults have no path */
    char path[124];
} ddscheck_fault;

/* ── the library's own calls, for those below: texts come with their lengths in bytes, and no pointer is NULL ── */
ddscheck_status ddscheck_check_deployment(const char *deployment, size_t deployment_length, const char *certificate, size_t certificate_length, uint32_t *verdict,
    char *text, size_t room, size_t *length);
ddscheck_status ddscheck_open_guard(const char *deployment, size_t deployment_length, const char *application, size_t application_length, ddscheck_guard *guard);
ddscheck_status ddscheck_free_guard(ddscheck_guard guard);
ddscheck_status ddscheck_find_fault(const char *deployment, size_t length, uint32_t *number, char *path, size_t room, size_t *path_length);
ddscheck_status ddscheck_find_writer(const ddscheck_guard *guard, const char *name, size_t length, size_t *writer);
ddscheck_status ddscheck_find_reader(const ddscheck_guard *guard, const char *name, size_t length, size_t *reader);
ddscheck_status ddscheck_find_rule(const ddscheck_guard *guard, const char *name, size_t length, size_t *rule);
ddscheck_status ddscheck_find_key(const ddscheck_guard *guard, const char *topic, size_t topic_length, const char *name, size_t length, size_t *key);
ddscheck_status ddscheck_find_writer_qos(const char *deployment, size_t length, size_t writer, ddscheck_qos *qos);
ddscheck_status ddscheck_find_reader_qos(const char *deployment, size_t length, size_t reader, ddscheck_qos *qos);
ddscheck_status ddscheck_guard_take(ddscheck_guard *guard, size_t reader, size_t key);
ddscheck_status ddscheck_guard_write(ddscheck_guard *guard, size_t writer, size_t key);
ddscheck_status ddscheck_guard_undo_write(ddscheck_guard *guard, size_t writer, size_t key);
ddscheck_status ddscheck_guard_may_write(const ddscheck_guard *guard, size_t writer, size_t key);
ddscheck_status ddscheck_guard_fire(ddscheck_guard *guard, size_t rule);
ddscheck_status ddscheck_guard_permits(const ddscheck_guard *guard, size_t writer, size_t key, uint64_t *permits);
ddscheck_status ddscheck_guard_spare(const ddscheck_guard *guard, size_t reader, size_t key, uint64_t *spare);
uint32_t ddscheck_library_version(void);

/* ── the guard ── */

/* The version of the library that the program is linked with: DDSCHECK_VERSION_NUMBER, unless the header is another version's. */
static inline uint32_t ddscheck_version(void) { return ddscheck_library_version(); }

/* The application has taken a sample of a key at a reader. Call it for each sample that dds_take gives, not for one that is only read. */
static inline ddscheck_status ddscheck_take(ddscheck_guard *guard, size_t reader, size_t key)
{
    return guard == NULL ? DDSCHECK_NULL : ddscheck_guard_take(guard, reader, key);
}

/* The application is about to write a sample of a key. DDSCHECK_OK: it may, and the permit for it is used, unless the write is free. Where no permit is
   left, the application's first rule in file order that gives one and has its takes is fired before. DDSCHECK_NO_PERMIT: don't write. */
static inline ddscheck_status ddscheck_write(ddscheck_guard *guard, size_t writer, size_t key)
{
    return guard == NULL ? DDSCHECK_NULL : ddscheck_guard_write(guard, writer, key);
}

/* Takes back the write of a key that ddscheck_write let through and DDS refused, so that its permit can be used again. It has to be the last one that used a
   permit; takes, rules that are fired, and questions may come between. A rule that was fired for it stays fired. A free write used none, so nothing changes. */
static inline ddscheck_status ddscheck_undo_write(ddscheck_guard *guard, size_t writer, size_t key)
{
    return guard == NULL ? DDSCHECK_NULL : ddscheck_guard_undo_write(guard, writer, key);
}

/* What ddscheck_write would answer. Nothing changes. */
static inline ddscheck_status ddscheck_may_write(const ddscheck_guard *guard, size_t writer, size_t key)
{
    return guard == NULL ? DDSCHECK_NULL : ddscheck_guard_may_write(guard, writer, key);
}

/* Fires a rule by its number: for an application that itself chooses between rules that compete for a take. */
static inline ddscheck_status ddscheck_fire(ddscheck_guard *guard, size_t rule)
{
    return guard == NULL ? DDSCHECK_NULL : ddscheck_guard_fire(guard, rule);
}

/* How many permits are left for a key at a writer, and how many takes of a key at a reader no rule has spent. */
static inline ddscheck_status ddscheck_permits(const ddscheck_guard *guard, size_t writer, size_t key, uint64_t *permits)
{
    return guard == NULL || permits == NULL ? DDSCHECK_NULL : ddscheck_guard_permits(guard, writer, key, permits);
}

static inline ddscheck_status ddscheck_spare(const ddscheck_guard *guard, size_t reader, size_t key, uint64_t *spare)
{
    return guard == NULL || spare == NULL ? DDSCHECK_NULL : ddscheck_guard_spare(guard, reader, key, spare);
}

/* The QoS of a writer, or of a reader, of this number, by the bytes of the deployment file. It takes memory while it works. DDSCHECK_FOREIGN: there's none of the
   number. */
static inline ddscheck_status ddscheck_read_writer(const char *deployment, size_t length, size_t writer, ddscheck_qos *qos)
{
    return deployment == NULL || qos == NULL ? DDSCHECK_NULL : ddscheck_find_writer_qos(deployment, length, writer, qos);
}

static inline ddscheck_status ddscheck_read_reader(const char *deployment, size_t length, size_t reader, ddscheck_qos *qos)
{
    return deployment == NULL || qos == NULL ? DDSCHECK_NULL : ddscheck_find_reader_qos(deployment, length, reader, qos);
}

/* ── opening, closing and look-ups, by texts that end with a 0 ── */

/* The name of a status, as "DDSCHECK_NO_PERMIT" is that of 7. Of any other number it is "no status". */
static inline const char *ddscheck_status_name(ddscheck_status status)
{
    switch (status) {
    case DDSCHECK_OK: return "DDSCHECK_OK";
    case DDSCHECK_FAULT: return "DDSCHECK_FAULT";
    case DDSCHECK_NO_MEMORY: return "DDSCHECK_NO_MEMORY";
    case DDSCHECK_UNKNOWN_NAME: return "DDSCHECK_UNKNOWN_NAME";
    case DDSCHECK_NOT_OPEN: return "DDSCHECK_NOT_OPEN";
    case DDSCHECK_ALREADY_OPEN: return "DDSCHECK_ALREADY_OPEN";
    case DDSCHECK_FOREIGN: return "DDSCHECK_FOREIGN";
    case DDSCHECK_NO_PERMIT: return "DDSCHECK_NO_PERMIT";
    case DDSCHECK_NOT_ENOUGH: return "DDSCHECK_NOT_ENOUGH";
    case DDSCHECK_COUNT_LIMIT: return "DDSCHECK_COUNT_LIMIT";
    case DDSCHECK_NO_FILE: return "DDSCHECK_NO_FILE";
    case DDSCHECK_OTHER_QOS: return "DDSCHECK_OTHER_QOS";
    case DDSCHECK_NULL: return "DDSCHECK_NULL";
    case DDSCHECK_NOT_WRITTEN: return "DDSCHECK_NOT_WRITTEN";
    default: return "no status";
    }
}

/*
 * Checks a deployment by a certificate, both given as the bytes of their files. `text` gets the lines that `ddscheck check` prints, of a bad file on its error
 * output, cut where they need more than `room` bytes with the zero at their end; NULL or no room is for the verdict alone. `length` gets the bytes of the whole
 * text without that zero, and may be NULL. The call takes memory while it works, and answers DDSCHECK_NO_MEMORY where there's too little.
 */
static inline ddscheck_status ddscheck_check(const char *deployment, size_t deployment_length, const char *certificate, size_t certificate_length,
    ddscheck_verdict *verdict, char *text, size_t room, size_t *length)
{
    char none = '\0';
    uint32_t number = 0;
    size_t whole = 0, most = text != NULL && room > 0 ? room - 1 : 0;
    ddscheck_status status;
    if (deployment == NULL || certificate == NULL || verdict == NULL) {
        return DDSCHECK_NULL;
    }
    status = ddscheck_check_deployment(deployment, deployment_length, certificate, certificate_length, &number, most > 0 ? text : &none, most, &whole);
    if (status != DDSCHECK_OK) {
        return status;
    }
#ifdef __cplusplus
    *verdict = static_cast<ddscheck_verdict>(number);
#else
    *verdict = (ddscheck_verdict)number;
#endif
    if (text != NULL && room > 0) {
        text[whole < most ? whole : most] = '\0';
    }
    if (length != NULL) {
        *length = whole;
    }
    return DDSCHECK_OK;
}

/* Opens a guard for an application, by the bytes of the deployment file. A guard that is open stays as it is. */
static inline ddscheck_status ddscheck_open(const char *deployment, size_t length, const char *application, ddscheck_guard *guard)
{
    if (deployment == NULL || application == NULL || guard == NULL) {
        return DDSCHECK_NULL;
    }
    return ddscheck_open_guard(deployment, length, application, strlen(application), guard);
}

/* Tells the first fault of a deployment file by its bytes: DDSCHECK_FAULT where it has one, DDSCHECK_OK where it has none. */
static inline ddscheck_status ddscheck_read_fault(const char *deployment, size_t length, ddscheck_fault *fault)
{
    size_t whole = 0, most = sizeof fault->path - 1;
    ddscheck_status status;
    if (deployment == NULL || fault == NULL) {
        return DDSCHECK_NULL;
    }
    fault->number = 0;
    fault->path[0] = '\0';
    status = ddscheck_find_fault(deployment, length, &fault->number, fault->path, most, &whole);
    fault->path[whole < most ? whole : most] = '\0';
    return status;
}

/* Opens a guard as ddscheck_open does, and where that answers DDSCHECK_FAULT tells the fault. */
static inline ddscheck_status ddscheck_open_explained(const char *deployment, size_t length, const char *application, ddscheck_guard *guard, ddscheck_fault *fault)
{
    ddscheck_status status;
    if (fault == NULL) {
        return DDSCHECK_NULL;
    }
    fault->number = 0;
    fault->path[0] = '\0';
    status = ddscheck_open(deployment, length, application, guard);
    return status == DDSCHECK_FAULT ? ddscheck_read_fault(deployment, length, fault) : status;
}

/* Gives back what an open guard holds, and closes it. */
static inline ddscheck_status ddscheck_close(ddscheck_guard *guard)
{
    ddscheck_guard was = DDSCHECK_GUARD_CLOSED;
    if (guard == NULL) {
        return DDSCHECK_NULL;
    }
    was = *guard;
    guard->at = NULL;
    guard->state = 0;
    return ddscheck_free_guard(was);
}

/* The numbers of names, for the calls above. They are places in the deployment file, from 0, and stay the same as long as the file does. */
static inline ddscheck_status ddscheck_writer(const ddscheck_guard *guard, const char *name, size_t *writer)
{
    return guard == NULL || name == NULL || writer == NULL ? DDSCHECK_NULL : ddscheck_find_writer(guard, name, strlen(name), writer);
}

static inline ddscheck_status ddscheck_reader(const ddscheck_guard *guard, const char *name, size_t *reader)
{
    return guard == NULL || name == NULL || reader == NULL ? DDSCHECK_NULL : ddscheck_find_reader(guard, name, strlen(name), reader);
}

/* The first rule of this name. A rule with `each` stands for several, one after the other in the order of their keys. */
static inline ddscheck_status ddscheck_rule(const ddscheck_guard *guard, const char *name, size_t *rule)
{
    return guard == NULL || name == NULL || rule == NULL ? DDSCHECK_NULL : ddscheck_find_rule(guard, name, strlen(name), rule);
}

static inline ddscheck_status ddscheck_key(const ddscheck_guard *guard, const char *topic, const char *name, size_t *key)
{
    if (guard == NULL || topic == NULL || name == NULL || key == NULL) {
        return DDSCHECK_NULL;
    }
    return ddscheck_find_key(guard, topic, strlen(topic), name, strlen(name), key);
}

#ifdef __cplusplus
}
#endif

/* a guard is handed over as two words */
typedef char ddscheck_guard_has_two_words[sizeof(ddscheck_guard) == 16 ? 1 : -1];
typedef char ddscheck_qos_has_seven_numbers[sizeof(ddscheck_qos) == 28 ? 1 : -1];

#endif
