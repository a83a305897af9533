// The rules of an application, kept by the guard of libddscheck.a.
#ifndef RULES_H
#define RULES_H

#include "ddscheck.h"
#include "deployment.h"

struct rules {
    char *text;
    size_t length;
};

// What the guard reads: a deployment file of version 3 with the topics, endpoints, owners and rules of the lists. Policies and connections are left out, since no
// rule speaks of them. The name of a rule is its place, since in the lists several may have one name. The caller frees the text.
struct rules rules_of(const struct deployment *lists);

// Opens the guard of an application, for the thread that calls, or ends the program.
void open_guard(ddscheck_guard *guard, const struct rules *rules, const char *application);

// The numbers by which the guard has a writer, a reader, a key of a topic and a rule.
size_t writer_number(ddscheck_guard *guard, const struct endpoint *writer);
size_t reader_number(ddscheck_guard *guard, const struct endpoint *reader);
size_t key_number(ddscheck_guard *guard, const struct topic *topic, int key);
size_t rule_number(ddscheck_guard *guard, int rule);

// Ends the program where the guard doesn't answer what it has to.
void expect(ddscheck_status status, const char *what, const char *name);

#endif
