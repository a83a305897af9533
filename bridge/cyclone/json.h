// The fields of a JSON document. Where a field isn't what is asked for, each call says so and ends the program with the status of a bad file.
#ifndef JSON_H
#define JSON_H

#include <cjson/cJSON.h>
#include <stdbool.h>
#include <stddef.h>
#include <stdint.h>
#include <stdio.h>

enum { MOST_NAME = 64, MOST_TYPE = 256 };
// The longest document of a deployment file of 1,048,576 bytes has about half as many bytes, and a quarter as many values.
enum { MOST_BYTES = 16777216, MOST_VALUES = 1000000 };

// A document of at most so many bytes and values, with nothing after it. Its texts live as long as the program.
const cJSON *read_document(const char *path, uint64_t *fingerprint);

// All bytes of a stream, which is closed then, and one byte more of room.
char *stream_bytes(FILE *file, const char *path, size_t *length);

// The same of bytes at hand, after which there is one byte more of room. False where they are no document; `why` then says in what way.
bool parse_document(char *bytes, size_t length, const cJSON **document, const char **why);

// A field, which stands once in its entry.
const cJSON *field(const cJSON *entry, const char *name);
const cJSON *list(const cJSON *entry, const char *name);
bool truth(const cJSON *entry, const char *name);

// A truth value, false where the field isn't there.
bool truth_or_absent(const cJSON *entry, const char *name);

// A whole number in a range. The library has each number as a double: above 2^53 it is the nearest one, and what comes to 2^63 is INT64_MAX.
int64_t number(const cJSON *entry, const char *name, int64_t least, int64_t most);

// The same, or this value where the field isn't there.
int64_t number_or_absent(const cJSON *entry, const char *name, int64_t value, int64_t least, int64_t most);

// The same as the first, or a text that stands for this value.
int64_t number_or(const cJSON *entry, const char *name, const char *text, int64_t value, int64_t least, int64_t most);

// The place of a text among words that end with NULL.
int word(const cJSON *entry, const char *name, const char *const *words);

// The same, 0 where the field isn't there.
int word_or_absent(const cJSON *entry, const char *name, const char *const *words);

// A name of 1 to 64 bytes, as a field and as an element of a list.
const char *name_in(const cJSON *entry, const char *name);
const char *name_of(const cJSON *value, const char *what);

// The name of a type, 1 to 256 bytes and maybe with colons, and that of a partition, 0 to 64 bytes and maybe with wildcards.
const char *type_in(const cJSON *entry, const char *name);
const char *partition_of(const cJSON *value);

#endif
