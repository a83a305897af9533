/* Prints the version of the header, as text and numbers, and the name of each status from -1 to COUNT, a line each; then, as other.c sees them, a status and a
   verdict and their sizes. */
#include "ddscheck.h"

#include "other.h"

#include <stdio.h>
#include <stdlib.h>

int main(int count, char **words)
{
    struct told told = {DDSCHECK_OK, DDSCHECK_YES, 0, 0};
    int most = count == 2 ? atoi(words[1]) : 0, status;
    printf("%s %d.%d.%d %d\n", DDSCHECK_VERSION, DDSCHECK_VERSION_MAJOR, DDSCHECK_VERSION_MINOR, DDSCHECK_VERSION_PATCH, DDSCHECK_VERSION_NUMBER);
    for (status = -1; status <= most; status++) {
        printf("%d %s\n", status, ddscheck_status_name(status));
    }
    tell(&told);
    printf("%d %d %d %d\n", (int)told.status, (int)told.verdict, told.status_size == sizeof told.status, told.whole_size == sizeof told);
    return 0;
}
