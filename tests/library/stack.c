/*
 * Measures how much stack each call takes: stack DEPLOYMENT APPLICATION [CERTIFICATE]. Each is made on a thread of its own, whose stack is filled with a pattern
 * before. Prints what ddscheck_open answers, and then a call and its bytes a line: ddscheck_open, the greatest of the calls on the guard, and those that need none.
 */
#include "ddscheck.h"

#include <pthread.h>
#include <stdio.h>
#include <stdlib.h>
#include <sys/mman.h>

#define STACK ((size_t)8 << 20)
#define PATTERN 0xa5
#define MOST 1048577

/* what a thread works on */
struct work {
    ddscheck_guard guard;
    const char *application;
    char *deployment, *certificate;
    size_t deployment_length, certificate_length;
    ddscheck_status opened;
};

static void *do_nothing(void *work) { return work; }

static void *do_open(void *given)
{
    struct work *work = given;
    work->opened = ddscheck_open(work->deployment, work->deployment_length, work->application, &work->guard);
    return given;
}

/* Each call on every number up to 16, whatever it answers. */
static void *do_calls(void *given)
{
    struct work *work = given;
    size_t first, second, number;
    uint64_t count;
    for (first = 0; first < 16; first++) {
        (void)ddscheck_fire(&work->guard, first);
        for (second = 0; second < 16; second++) {
            (void)ddscheck_take(&work->guard, first, second);
            (void)ddscheck_may_write(&work->guard, first, second);
            (void)ddscheck_write(&work->guard, first, second);
            (void)ddscheck_permits(&work->guard, first, second, &count);
            (void)ddscheck_spare(&work->guard, first, second, &count);
        }
    }
    (void)ddscheck_writer(&work->guard, "none", &number);
    (void)ddscheck_reader(&work->guard, "none", &number);
    (void)ddscheck_rule(&work->guard, "none", &number);
    (void)ddscheck_key(&work->guard, "ping", "k", &number);
    return given;
}

static void *do_read_writer(void *given)
{
    struct work *work = given;
    ddscheck_qos qos;
    return ddscheck_read_writer(work->deployment, work->deployment_length, 0, &qos) == work->opened ? given : NULL;
}

static void *do_read_reader(void *given)
{
    struct work *work = given;
    ddscheck_qos qos;
    return ddscheck_read_reader(work->deployment, work->deployment_length, 0, &qos) == work->opened ? given : NULL;
}

static void *do_read_fault(void *given)
{
    struct work *work = given;
    ddscheck_fault fault;
    ddscheck_status status = ddscheck_read_fault(work->deployment, work->deployment_length, &fault);
    return status == DDSCHECK_FAULT || status == DDSCHECK_OK ? given : NULL;
}

static void *do_close(void *given)
{
    struct work *work = given;
    return ddscheck_close(&work->guard) == (work->opened == DDSCHECK_OK ? DDSCHECK_OK : DDSCHECK_NOT_OPEN) ? given : NULL;
}

static void *do_check(void *given)
{
    struct work *work = given;
    ddscheck_verdict verdict;
    return ddscheck_check(work->deployment, work->deployment_length, work->certificate, work->certificate_length, &verdict, NULL, 0, NULL) == DDSCHECK_OK ? given
                                                                                                                                                          : NULL;
}

/* As many bytes of a stack of its own as a function took. */
static size_t measure(void *(*function)(void *), struct work *work)
{
    unsigned char *stack = mmap(NULL, STACK, PROT_READ | PROT_WRITE, MAP_PRIVATE | MAP_ANONYMOUS, -1, 0);
    pthread_attr_t attributes;
    pthread_t thread;
    void *answer = NULL;
    size_t at = 0;
    if (stack == MAP_FAILED) {
        exit(3);
    }
    memset(stack, PATTERN, STACK);
    if (pthread_attr_init(&attributes) != 0 || pthread_attr_setstack(&attributes, stack, STACK) != 0 || pthread_create(&thread, &attributes, function, work) != 0 ||
        pthread_join(thread, &answer) != 0 || answer == NULL) {
        fprintf(stderr, "stack: a call failed\n");
        exit(3);
    }
    while (at < STACK && stack[at] == PATTERN) {
        at++;
    }
    (void)pthread_attr_destroy(&attributes);
    (void)munmap(stack, STACK);
    return STACK - at;
}

static char *read_file(const char *path, size_t *length)
{
    char *bytes = malloc(MOST);
    FILE *file = fopen(path, "rb");
    if (bytes == NULL || file == NULL) {
        exit(3);
    }
    *length = fread(bytes, 1, MOST, file);
    (void)fclose(file);
    return bytes;
}

int main(int count, char **words)
{
    struct work work = {DDSCHECK_GUARD_CLOSED, NULL, NULL, NULL, 0, 0, DDSCHECK_OK};
    size_t nothing, open;
    if (count < 3 || count > 4) {
        return 4;
    }
    work.application = words[2];
    work.deployment = read_file(words[1], &work.deployment_length);
    nothing = measure(do_nothing, &work);
    open = measure(do_open, &work);
    printf("%s\nddscheck_open %lu\n", ddscheck_status_name(work.opened), (unsigned long)(open - nothing));
    printf("calls %lu\n", (unsigned long)(measure(do_calls, &work) - nothing));
    printf("ddscheck_read_writer %lu\n", (unsigned long)(measure(do_read_writer, &work) - nothing));
    printf("ddscheck_read_reader %lu\n", (unsigned long)(measure(do_read_reader, &work) - nothing));
    printf("ddscheck_read_fault %lu\n", (unsigned long)(measure(do_read_fault, &work) - nothing));
    printf("ddscheck_close %lu\n", (unsigned long)(measure(do_close, &work) - nothing));
    if (count == 4) {
        work.certificate = read_file(words[3], &work.certificate_length);
        printf("ddscheck_check %lu\n", (unsigned long)(measure(do_check, &work) - nothing));
    }
    free(work.deployment);
    free(work.certificate);
    return 0;
}
