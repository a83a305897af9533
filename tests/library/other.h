/* What a part of a program that is compiled with other options hands over. */
#ifndef OTHER_H
#define OTHER_H

#include "ddscheck.h"

struct told {
    ddscheck_status status;
    ddscheck_verdict verdict;
    size_t status_size, whole_size;
};

void tell(struct told *told);

#endif
