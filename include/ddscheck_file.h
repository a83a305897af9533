/*
 * Opens a guard of ddscheck.h by the path of its deployment file, which it reads whole by the C library.
 */
#ifndef DDSCHECK_FILE_H
#define DDSCHECK_FILE_H

#include "ddscheck.h"

#include <stdio.h>
#include <stdlib.h>

#ifdef __cplusplus
extern "C" {
#endif

/* As many bytes as a deployment file may have. */
#define DDSCHECK_FILE_MOST 1048576

/* The bytes of a file, which the caller gives to free; DDSCHECK_NO_FILE where it can't be read or has too many, and then there are none. */
static inline ddscheck_status ddscheck_read_file(const char *path, char **bytes, size_t *length)
{
    const size_t most = DDSCHECK_FILE_MOST;
    ddscheck_status status = DDSCHECK_OK;
    FILE *file = NULL;
    if (path == NULL || bytes == NULL || length == NULL) {
        return DDSCHECK_NULL;
    }
    *bytes = NULL;
    *length = 0;
    file = fopen(path, "rb");
    if (file == NULL) {
        return DDSCHECK_NO_FILE;
    }
#ifdef __cplusplus
    *bytes = static_cast<char *>(malloc(most + 1));
#else
    *bytes = malloc(most + 1);
#endif
    if (*bytes == NULL) {
        status = DDSCHECK_NO_MEMORY;
    } else {
        *length = fread(*bytes, 1, most + 1, file);
        if (ferror(file) || *length > most) {
            status = DDSCHECK_NO_FILE;
            free(*bytes);
            *bytes = NULL;
        }
    }
    (void)fclose(file);
    return status;
}

/* What ddscheck_open answers for the bytes of the file; DDSCHECK_NO_FILE where it can't be read or has too many. */
static inline ddscheck_status ddscheck_open_file(const char *path, const char *application, ddscheck_guard *guard)
{
    char *bytes = NULL;
    size_t length = 0;
    ddscheck_status status = ddscheck_read_file(path, &bytes, &length);
    if (status == DDSCHECK_OK) {
        status = ddscheck_open(bytes, length, application, guard);
    }
    free(bytes);
    return status;
}

/* The same, and where the answer is DDSCHECK_FAULT the fault is told. */
static inline ddscheck_status ddscheck_open_file_explained(const char *path, const char *application, ddscheck_guard *guard, ddscheck_fault *fault)
{
    char *bytes = NULL;
    size_t length = 0;
    ddscheck_status status = ddscheck_read_file(path, &bytes, &length);
    if (fault != NULL) {
        fault->number = 0;
        fault->path[0] = '\0';
    }
    if (status == DDSCHECK_OK) {
        status = ddscheck_open_explained(bytes, length, application, guard, fault);
    }
    free(bytes);
    return status;
}

#ifdef __cplusplus
}
#endif

#endif
