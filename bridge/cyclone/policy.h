// The policies of a writer or reader by number, in the order of the deployment file and without partitions.
#ifndef POLICY_H
#define POLICY_H

#include "deployment.h"

#include <stdio.h>

enum { POLICIES = 16 };

// What stands for a value that discovery doesn't tell: of history, depth and limits alone.
#define UNTOLD (-2)

extern const char *const POLICY_NAME[POLICIES];

int64_t policy_value(const struct policies *policies, int policy);

// The policies of an entry of a file that names none, which are the defaults of DDS, too.
struct policies default_policies(bool is_writer);

// Prints a value as a deployment file and a JSON document have it, and `"?"` where it's untold.
void print_value(FILE *out, int policy, int64_t value);

#endif
