// A deployment as `ddscheck show DEPLOYMENT` prints it.
#ifndef DEPLOYMENT_H
#define DEPLOYMENT_H

#include <stdbool.h>
#include <stdint.h>

struct cJSON;

// The most that a list may have, and the greatest count.
enum { MOST_PARTICIPANTS = 64, MOST_APPLICATIONS = 64, MOST_ENDPOINTS = 256, MOST_RULES = 256 };
enum { MOST_KEYS = 64, MOST_PORTIONS = 16, MOST_PARTITIONS = 16, MOST_COUNT = 65535 };
// The words of each policy, in the order of DDS, which is that of Cyclone's numbers too. The last one is NULL.
extern const char *const DURABILITY[], *const ACCESS_SCOPE[], *const OWNERSHIP[], *const LIVELINESS[], *const RELIABILITY[], *const DESTINATION_ORDER[],
    *const HISTORY[];
// When a participant comes: before the first write, or at any time.
extern const char *const JOINS[];

// What stands for "unlimited" and for "infinite".
#define UNLIMITED (-1)
#define FOREVER INT64_MAX
// What stands for a span that the file doesn't give.
#define NO_SPAN INT64_C(-1)

struct policies {
    int durability, access_scope, ownership, liveliness, reliability, destination_order, history;
    bool coherent, ordered;
    int64_t deadline, latency_budget, lease;
    int depth, max_samples, max_instances, max_samples_per_instance;
    int partitions;
    const char *partition[MOST_PARTITIONS];
};

struct participant {
    const char *name;
    uint32_t domain;
    // whether it may come at any time, so that nobody waits for it, nor it for others
    bool may_be_late;
};

struct topic {
    const char *name, *type;
    int keys;
    const char *key[MOST_KEYS];
};

// A writer or a reader. Of a reader `hears` says which keys of the topic its filter lets pass, and `may_lose` whether it wants the newest samples alone. Of a writer that
// was captured `hands_over_less` says whether late readers get less than it keeps. Version 4 of the file tells of a reader how long after its write a sample is
// taken at most, and how long after it can be.
struct endpoint {
    const char *name;
    int participant, topic, application;
    bool hears[MOST_KEYS], has_filter, may_lose, hands_over_less;
    int64_t taken_within, available_within;
    struct policies policies;
};

struct application {
    const char *name;
    int participant;
};

struct portion {
    int endpoint, key;
    uint64_t count;
};

// What a free rule writes may be written at any time and without a permit; its start is 0. The period is 0 where it has no pace.
struct rule {
    const char *name;
    int application, takes, writes;
    uint64_t start;
    int64_t period, jitter;
    bool is_free;
    struct portion take[MOST_PORTIONS], write[MOST_PORTIONS];
};

struct connection {
    int writer, reader;
};

struct deployment {
    int participants, topics, writers, readers, applications, rules, connections;
    struct participant *participant;
    struct topic *topic;
    struct endpoint *writer, *reader;
    struct application *application;
    struct rule *rule;
    struct connection *connection;
    // a number that the bytes of the document have, and others most likely don't
    uint64_t fingerprint;
};

// Reads a file, or ends the program with the status of a bad file.
struct deployment *read_deployment(const char *path);

// The same of a document at hand.
struct deployment *deployment_of(const struct cJSON *document);

// The place of a key's name in a topic, -1 where it has none.
int key_named(const struct topic *topic, const char *name);

// Whether a rule writes the key at the writer, and whether a free rule does, so that no write of it uses a permit.
bool rule_writes(const struct rule *rule, int writer, int key);
bool is_free(const struct deployment *lists, int writer, int key);

// Whether each rule that writes the key at the writer has a pace, and so the two of them have one.
bool is_paced(const struct deployment *lists, int writer, int key);

// Whether a reader loses nothing as long as it takes each sample in time.
bool is_timed(const struct endpoint *reader);

// Whether a writer and a reader may know of one another only after a write, since the participant of one of them may be late.
bool is_late_pair(const struct deployment *lists, int writer, int reader);

// A reader that may miss samples: a best-effort one, or one that may lose.
bool is_watcher(const struct endpoint *reader);

// Whether the depth and the limits go together (OMG DDS 1.4, clauses 2.2.3.18 and 2.2.3.19): an instance's limit is within that of all, and the depth within it.
bool is_consistent(const struct policies *policies);

// The limit for one instance of a reader, `UNLIMITED` where it has none.
int instance_limit(const struct policies *policies);

#endif
