/* That the header stands alone in C99. */
#include "ddscheck.h"

int includes_header(void);

int includes_header(void)
{
    ddscheck_guard guard = DDSCHECK_GUARD_CLOSED;
    return ddscheck_close(&guard) == DDSCHECK_NOT_OPEN;
}
