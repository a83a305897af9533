/* The other part of names.c. */
#include "other.h"

void tell(struct told *told)
{
    told->status = DDSCHECK_NO_FILE;
    told->verdict = DDSCHECK_BAD_FILE;
    told->status_size = sizeof told->status;
    told->whole_size = sizeof *told;
}
