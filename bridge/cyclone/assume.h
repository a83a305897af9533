// What stands for what discovery doesn't tell, where the user says which middleware runs.
#ifndef ASSUME_H
#define ASSUME_H

#include "deployment.h"

struct assumption {
    const char *word, *name;
    // of policies the history, depth and limits
    struct policies policies;
};

// What is known of a middleware by its word, NULL where there is none.
const struct assumption *assumption_for(const char *word);

// The policies with what is untold as the middleware has it by default; as they are where that contradicts what is told.
struct policies assumed_policies(const struct policies *policies, const struct assumption *assumption);

#endif
