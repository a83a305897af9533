// Names of the wire in the alphabet of deployment files, each once.
#ifndef NAMES_H
#define NAMES_H

#include <stdbool.h>
#include <stddef.h>
#include <stdio.h>

// The letters of names, and what types and partitions may have beside them.
#define NAME_BYTES "abcdefghijklmnopqrstuvwxyzABCDEFGHIJKLMNOPQRSTUVWXYZ0123456789_./-"
#define TYPE_BYTES NAME_BYTES ":"
#define PARTITION_BYTES NAME_BYTES "*?"

// The names of one section so far.
struct names {
    int count, space;
    char **name;
};

// A text with each byte that isn't of the alphabet as `_`, cut to so many bytes. The caller frees it.
char *spell(const char *text, const char *alphabet, size_t most);

// Whether two names of types are one, as IDL or as ROS 2 has it: `sensor_msgs::msg::dds_::Imu_` is `sensor_msgs/msg/Imu`.
bool is_same_type(const char *one, const char *other);

// Adds a name of at most 64 bytes to a section, not empty: the first of two texts that doesn't stand there already, else the second one with a number behind it. The
// section keeps it.
const char *add_name(struct names *names, const char *text, const char *longer);

// Prints a text of the wire within a comment: in quotes, without line breaks, and cut where it is long.
void print_quoted(FILE *out, const char *text);

#endif
