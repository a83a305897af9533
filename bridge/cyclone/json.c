#include "json.h"
#include "fault.h"

#include <errno.h>
#include <stdio.h>
#include <stdlib.h>
#include <string.h>

#define NAMES "abcdefghijklmnopqrstuvwxyzABCDEFGHIJKLMNOPQRSTUVWXYZ0123456789_./-"

// ── the document

char *stream_bytes(FILE *file, const char *path, size_t *length)
{
    char *bytes = NULL;
    size_t space = 0;
    *length = 0;
    do {
        if (space - *length < 65536) {
            space = 2 * space + 65536;
            bytes = realloc(bytes, space + 1);
            if (bytes == NULL) {
                fail(STATUS_DDS, "memory ran out");
            }
        }
        *length += fread(bytes + *length, 1, space - *length, file);
    } while (!feof(file) && !ferror(file) && *length <= MOST_BYTES);
    if (ferror(file)) {
        fail(STATUS_FILE, "%s could not be read: %s", path, strerror(errno));
    }
    if (*length > MOST_BYTES) {
        fail(STATUS_FILE, "%s has more than %d bytes", path, MOST_BYTES);
    }
    fclose(file);
    return bytes;
}

// Whether the library would end a text at an escaped zero, and so not show what follows it.
static bool has_escaped_zero(const char *bytes, size_t length)
{
    for (size_t at = 0; at + 6 <= length; at++) {
        if (bytes[at] == '\\') {
            if (memcmp(bytes + at + 1, "u0000", 5) == 0) {
                return true;
            }
            at++;
        }
    }
    return false;
}

// Whether there are so many values that the library's tree of them would take more than about 100 MB.
static bool has_too_many(const char *bytes, size_t length)
{
    long count = 0;
    for (size_t at = 0; at < length; at++) {
        count += bytes[at] == ',' || bytes[at] == '[' || bytes[at] == '{';
    }
    return count > MOST_VALUES;
}

bool parse_document(char *bytes, size_t length, const cJSON **document, const char **why)
{
    bytes[length] = '\0';
    *document = NULL;
    *why = memchr(bytes, '\0', length) != NULL    ? "it has a zero byte"
           : has_escaped_zero(bytes, length)      ? "a text in it has a zero byte"
           : has_too_many(bytes, length)          ? "it has more values than a deployment can have"
                                                  : NULL;
    if (*why != NULL) {
        return false;
    }
    // with the byte after it, which has to follow the document, since the length counts it
    *document = cJSON_ParseWithLengthOpts(bytes, length + 1, NULL, true);
    if (!cJSON_IsObject(*document)) {
        *why = "it is no JSON document as `ddscheck show` prints it";
    }
    return *why == NULL;
}

// FNV-1a, with 64 bits.
static uint64_t fingerprint_of(const char *bytes, size_t length)
{
    uint64_t found = UINT64_C(14695981039346656037);
    for (size_t at = 0; at < length; at++) {
        found = (found ^ (uint8_t)bytes[at]) * UINT64_C(1099511628211);
    }
    return found;
}

const cJSON *read_document(const char *path, uint64_t *fingerprint)
{
    FILE *file = fopen(path, "rb");
    if (file == NULL) {
        fail(STATUS_FILE, "%s does not open: %s", path, strerror(errno));
    }
    size_t length;
    char *bytes = stream_bytes(file, path, &length);
    const cJSON *document;
    const char *why;
    if (!parse_document(bytes, length, &document, &why)) {
        fail(STATUS_FILE, "%s: %s", path, why);
    }
    *fingerprint = fingerprint_of(bytes, length);
    free(bytes);
    return document;
}

// ── its fields

// A field, NULL where it isn't there.
static const cJSON *field_or_absent(const cJSON *entry, const char *name)
{
    const cJSON *each, *found = NULL;
    if (!cJSON_IsObject(entry)) {
        fail(STATUS_FILE, "there is no object with a field %s where one belongs", name);
    }
    cJSON_ArrayForEach(each, entry) {
        if (strcmp(each->string, name) == 0) {
            if (found != NULL) {
                fail(STATUS_FILE, "the field %s stands twice in an object", name);
            }
            found = each;
        }
    }
    return found;
}

const cJSON *field(const cJSON *entry, const char *name)
{
    const cJSON *found = field_or_absent(entry, name);
    if (found == NULL) {
        fail(STATUS_FILE, "the deployment has no field %s where one belongs", name);
    }
    return found;
}

const cJSON *list(const cJSON *entry, const char *name)
{
    const cJSON *found = field(entry, name);
    if (!cJSON_IsArray(found)) {
        fail(STATUS_FILE, "%s is no list", name);
    }
    return found;
}

bool truth(const cJSON *entry, const char *name)
{
    const cJSON *found = field(entry, name);
    if (!cJSON_IsBool(found)) {
        fail(STATUS_FILE, "%s is neither true nor false", name);
    }
    return cJSON_IsTrue(found);
}

bool truth_or_absent(const cJSON *entry, const char *name)
{
    return field_or_absent(entry, name) != NULL && truth(entry, name);
}

int64_t number(const cJSON *entry, const char *name, int64_t least, int64_t most)
{
    const cJSON *found = field(entry, name);
    if (!cJSON_IsNumber(found)) {
        fail(STATUS_FILE, "%s is no number", name);
    }
    double value = found->valuedouble;
    if (!(value >= (double)least && value <= (double)most)) {
        fail(STATUS_FILE, "%s is out of its range", name);
    }
    if (value >= 9223372036854774784.0) {
        return INT64_MAX;
    }
    if ((double)(int64_t)value != value) {
        fail(STATUS_FILE, "%s is no whole number", name);
    }
    return (int64_t)value;
}

int64_t number_or_absent(const cJSON *entry, const char *name, int64_t value, int64_t least, int64_t most)
{
    return field_or_absent(entry, name) == NULL ? value : number(entry, name, least, most);
}

int64_t number_or(const cJSON *entry, const char *name, const char *text, int64_t value, int64_t least, int64_t most)
{
    const cJSON *found = field(entry, name);
    bool is_text = cJSON_IsString(found) && strcmp(found->valuestring, text) == 0;
    return is_text ? value : number(entry, name, least, most);
}

// A text of so many bytes of an alphabet.
static const char *spelled(const cJSON *value, const char *what, const char *alphabet, size_t least, size_t most)
{
    if (!cJSON_IsString(value)) {
        fail(STATUS_FILE, "%s is no text", what);
    }
    size_t length = strlen(value->valuestring);
    if (length < least || length > most || strspn(value->valuestring, alphabet) != length) {
        fail(STATUS_FILE, "%s is not %zu to %zu bytes of its alphabet", what, least, most);
    }
    return value->valuestring;
}

int word(const cJSON *entry, const char *name, const char *const *words)
{
    const cJSON *found = field(entry, name);
    for (int at = 0; cJSON_IsString(found) && words[at] != NULL; at++) {
        if (strcmp(words[at], found->valuestring) == 0) {
            return at;
        }
    }
    fail(STATUS_FILE, "%s is none of its words", name);
}

int word_or_absent(const cJSON *entry, const char *name, const char *const *words)
{
    return field_or_absent(entry, name) == NULL ? 0 : word(entry, name, words);
}

const char *name_in(const cJSON *entry, const char *name)
{
    return name_of(field(entry, name), name);
}

const char *name_of(const cJSON *value, const char *what)
{
    return spelled(value, what, NAMES, 1, MOST_NAME);
}

const char *type_in(const cJSON *entry, const char *name)
{
    return spelled(field(entry, name), name, NAMES ":", 1, MOST_TYPE);
}

const char *partition_of(const cJSON *value)
{
    return spelled(value, "a partition", NAMES "*?", 0, MOST_NAME);
}
