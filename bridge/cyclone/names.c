#include "names.h"
#include "fault.h"
#include "json.h"

#include <stdlib.h>
#include <string.h>

char *spell(const char *text, const char *alphabet, size_t most)
{
    size_t length = strnlen(text, most);
    char *found = room(length + 1, 1);
    for (size_t at = 0; at < length; at++) {
        found[at] = strchr(alphabet, text[at]) != NULL ? text[at] : '_';
    }
    return found;
}

// Whether a type is one of ROS 2: its last part ends with `_` and follows on `dds_`. Gives where `dds_` begins, else NULL.
static const char *ros_part(const char *type)
{
    static const char PART[] = "::dds_::";
    const char *found = NULL;
    for (const char *at = strstr(type, PART); at != NULL; at = strstr(at + 1, PART)) {
        found = at;
    }
    size_t length = strlen(type);
    bool is_last = found != NULL && strstr(found + sizeof PART - 1, "::") == NULL && found[sizeof PART - 1] != '\0';
    return is_last && type[length - 1] == '_' ? found : NULL;
}

// The name with `/` for `::` and without what ROS 2 adds. The caller frees it.
static char *plain_type(const char *type)
{
    const char *part = ros_part(type);
    size_t length = strlen(type), written = 0;
    char *found = room(length + 2, 1);
    for (const char *at = type; *at != '\0'; at++) {
        if (at == part) {
            at += strlen("::dds_");
        }
        if (at[0] == ':' && at[1] == ':') {
            found[written++] = '/';
            at++;
        } else {
            found[written++] = *at;
        }
    }
    // the `_` at the end goes with `dds_`
    found[part != NULL ? written - 1 : written] = '\0';
    return found;
}

bool is_same_type(const char *one, const char *other)
{
    char *plain = plain_type(one), *plain_other = plain_type(other);
    bool is_same = strcmp(plain, plain_other) == 0;
    free(plain);
    free(plain_other);
    return is_same;
}

static bool is_there(const struct names *names, const char *name)
{
    for (int at = 0; at < names->count; at++) {
        if (strcmp(names->name[at], name) == 0) {
            return true;
        }
    }
    return false;
}

const char *add_name(struct names *names, const char *text, const char *longer)
{
    char name[MOST_NAME + 1];
    const char *wanted = *text != '\0' ? text : "_";
    snprintf(name, sizeof name, "%s", wanted);
    if (is_there(names, name) && *longer != '\0') {
        wanted = longer;
        snprintf(name, sizeof name, "%s", wanted);
    }
    int length = (int)strnlen(wanted, MOST_NAME);
    for (int number = 2; is_there(names, name); number++) {
        char end[16];
        int more = snprintf(end, sizeof end, "-%d", number), kept = length + more > MOST_NAME ? MOST_NAME - more : length;
        snprintf(name, sizeof name, "%.*s%s", kept, wanted, end);
    }
    if (names->count == names->space) {
        names->space = 2 * names->space + 64;
        names->name = realloc(names->name, (size_t)names->space * sizeof *names->name);
    }
    char *kept = strdup(name);
    if (names->name == NULL || kept == NULL) {
        fail(STATUS_DDS, "memory ran out");
    }
    return names->name[names->count++] = kept;
}

void print_quoted(FILE *out, const char *text)
{
    enum { MOST_QUOTED = 300 };
    fputc('"', out);
    for (int at = 0; text[at] != '\0' && at < MOST_QUOTED; at++) {
        unsigned char byte = (unsigned char)text[at];
        if (byte < ' ' || byte > '~' || byte == '"' || byte == '\\') {
            fprintf(out, "\\x%02x", byte);
        } else {
            fputc(byte, out);
        }
    }
    fputs(strnlen(text, MOST_QUOTED + 1) > MOST_QUOTED ? "\" .." : "\"", out);
}
