#include "fault.h"

#include <errno.h>
#include <fcntl.h>
#include <signal.h>
#include <stdarg.h>
#include <stdio.h>
#include <stdlib.h>
#include <unistd.h>

void fail(int status, const char *form, ...)
{
    va_list words;
    va_start(words, form);
    fflush(stdout);
    fprintf(stderr, "%s: ", program_invocation_short_name);
    vfprintf(stderr, form, words);
    fputc('\n', stderr);
    va_end(words);
    // other threads may be inside Cyclone, so nothing is taken down
    _exit(status);
}

void *room(unsigned long count, unsigned long size)
{
    void *found = calloc(count ? count : 1, size);
    if (found == NULL) {
        fail(STATUS_DDS, "memory ran out");
    }
    return found;
}

FILE *open_text(char **text)
{
    // texts have no zero, so nobody asks how long they are
    static size_t size;
    FILE *found = open_memstream(text, &size);
    if (found == NULL) {
        fail(STATUS_DDS, "memory ran out");
    }
    return found;
}

void close_text(FILE *stream)
{
    if (fclose(stream) != 0) {
        fail(STATUS_DDS, "memory ran out");
    }
}

void guard_output(void)
{
    signal(SIGPIPE, SIG_IGN);
    for (int stream = 0; stream <= 2; stream++) {
        // else a socket of Cyclone would get the number, and what is printed
        if (fcntl(stream, F_GETFD) < 0 && open(stream == 1 ? "/dev/full" : "/dev/null", O_RDWR) != stream) {
            _exit(STATUS_DDS);
        }
    }
}

int checked_output(int status)
{
    if (fflush(stdout) != 0 || ferror(stdout)) {
        fprintf(stderr, "%s: the output failed\n", program_invocation_short_name);
        return STATUS_DDS;
    }
    return status;
}
