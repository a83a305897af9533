// Topics whose types nothing is known of but their names: of a sample there is its number and when it came, and of its data nothing.
#ifndef RAW_H
#define RAW_H

#include <dds/dds.h>
#include <stdint.h>

// The number that its writer gave a sample, and when it came by the clock of change.h.
struct raw {
    uint64_t number;
    int64_t time;
};

// A topic of this name and type, for readers that take a `struct raw`; below 0 where Cyclone makes none. All its samples are of one instance.
dds_entity_t raw_topic(dds_entity_t participant, const char *name, const char *type, bool has_keys);

#endif
