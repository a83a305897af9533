/* Checks a deployment by a certificate: checks DEPLOYMENT CERTIFICATE ROOM. Prints the verdict's number, the length of the text, and as much of it as has room,
   with blanks between. With no room the library gets no place for a text. */
#include "ddscheck.h"

#include <stdio.h>
#include <stdlib.h>

#define MOST 1048577

static size_t read_file(const char *path, char *bytes)
{
    FILE *file = fopen(path, "rb");
    size_t length;
    if (file == NULL) {
        fprintf(stderr, "checks: %s can't be read\n", path);
        exit(3);
    }
    length = fread(bytes, 1, MOST, file);
    (void)fclose(file);
    return length;
}

int main(int count, char **words)
{
    static char deployment[MOST], certificate[MOST];
    size_t deployment_length, certificate_length, room, length = 0;
    ddscheck_verdict verdict = DDSCHECK_BAD_FILE;
    char *text;
    if (count != 4) {
        return 4;
    }
    deployment_length = read_file(words[1], deployment);
    certificate_length = read_file(words[2], certificate);
    room = (size_t)strtoul(words[3], NULL, 10);
    text = room > 0 ? malloc(room) : NULL;
    if (room > 0 && text == NULL) {
        return 3;
    }
    if (ddscheck_check(deployment, deployment_length, certificate, certificate_length, &verdict, text, room, &length) != DDSCHECK_OK) {
        free(text);
        return 3;
    }
    printf("%d %lu %s", (int)verdict, (unsigned long)length, text == NULL ? "" : text);
    free(text);
    return 0;
}
