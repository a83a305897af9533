/* Says why a guard doesn't open: fault DEPLOYMENT APPLICATION. Prints the status by its name, and the number and the path of the fault. */
#include "ddscheck_file.h"

int main(int count, char **words)
{
    ddscheck_guard guard = DDSCHECK_GUARD_CLOSED;
    ddscheck_fault fault;
    ddscheck_status status;
    if (count != 3) {
        return 4;
    }
    status = ddscheck_open_file_explained(words[1], words[2], &guard, &fault);
    printf("%s %u %s\n", ddscheck_status_name(status), (unsigned)fault.number, fault.path);
    (void)ddscheck_close(&guard);
    return 0;
}
