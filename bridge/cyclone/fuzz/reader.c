// What a fuzzer calls: reads a document as a deployment, goes through all that the program does with one before Cyclone begins, and opens the guard of each
// application, which has to find no fault in what it's given. A document that is refused is left where the program would end. `make fuzz` builds it, with
// libFuzzer where clang has it and else with mutate.c.
#include "../fault.h"
#include "../json.h"
#include "../rules.h"

#include <setjmp.h>
#include <stdlib.h>
#include <string.h>

static jmp_buf refused;
// whether the document is read as a deployment, so that nothing may be refused any more
static bool is_read;

// All memory that is in use, freed after each document.
enum { MOST_PIECES = 4 * MOST_VALUES };
static void *piece[MOST_PIECES];
static int pieces;

static void *piece_of(size_t size)
{
    if (pieces == MOST_PIECES) {
        return NULL;
    }
    return piece[pieces++] = malloc(size);
}

// What the library frees stays until the end of the document.
static void keep(void *memory)
{
    (void)memory;
}

void fail(int status, const char *form, ...)
{
    (void)form;
    if (is_read) {
        abort();
    }
    longjmp(refused, status);
}

void *room(unsigned long count, unsigned long size)
{
    size_t length = (count ? count : 1) * size;
    void *found = piece_of(length);
    if (found == NULL) {
        longjmp(refused, STATUS_DDS);
    }
    return memset(found, 0, length);
}

static void demand(bool holds)
{
    if (!holds) {
        abort();
    }
}

// Opens the guard of an application and fires its rules, which nothing was taken for. The guard has each rule and each reader in its place.
static void use_guard(const struct deployment *lists, const struct rules *rules, int application)
{
    ddscheck_guard guard = DDSCHECK_GUARD_CLOSED;
    demand(ddscheck_open(rules->text, rules->length, lists->application[application].name, &guard) == DDSCHECK_OK);
    for (int at = 0; at < lists->rules; at++) {
        bool is_own = lists->rule[at].application == application;
        demand(rule_number(&guard, at) == (size_t)at);
        demand(ddscheck_fire(&guard, (size_t)at) == (is_own ? DDSCHECK_NOT_ENOUGH : DDSCHECK_FOREIGN));
    }
    for (int at = 0; at < lists->readers; at++) {
        const struct endpoint *reader = &lists->reader[at];
        bool is_heard = reader->application == application && reader->hears[0];
        demand(reader_number(&guard, reader) == (size_t)at && key_number(&guard, &lists->topic[reader->topic], 0) == 0);
        demand(ddscheck_take(&guard, (size_t)at, 0) == (is_heard ? DDSCHECK_OK : DDSCHECK_FOREIGN));
    }
    demand(ddscheck_close(&guard) == DDSCHECK_OK);
}

static void use(const struct deployment *lists)
{
    struct rules rules = rules_of(lists);
    for (int at = 0; at < lists->applications; at++) {
        use_guard(lists, &rules, at);
    }
    free(rules.text);
    for (int at = 0; at < lists->rules; at++) {
        demand(lists->rule[at].period >= 0 && lists->rule[at].jitter >= 0);
    }
    for (int at = 0; at < lists->readers; at++) {
        demand(lists->reader[at].taken_within >= NO_SPAN && lists->reader[at].available_within >= NO_SPAN);
    }
    for (int at = 0; at < lists->connections; at++) {
        const struct endpoint *writer = &lists->writer[lists->connection[at].writer], *reader = &lists->reader[lists->connection[at].reader];
        const struct application *owner = &lists->application[writer->application];
        demand(strlen(writer->name) <= MOST_NAME && owner->participant == writer->participant && lists->topic[reader->topic].keys >= 1);
    }
}

int LLVMFuzzerTestOneInput(const uint8_t *data, size_t size);

int LLVMFuzzerTestOneInput(const uint8_t *data, size_t size)
{
    cJSON_InitHooks(&(cJSON_Hooks){.malloc_fn = piece_of, .free_fn = keep});
    char *bytes = piece_of(size + 1);
    const cJSON *document;
    const char *why;
    memcpy(bytes, data, size);
    if (setjmp(refused) == 0 && parse_document(bytes, size, &document, &why)) {
        const struct deployment *lists = deployment_of(document);
        is_read = true;
        use(lists);
    }
    is_read = false;
    while (pieces > 0) {
        free(piece[--pieces]);
    }
    return 0;
}
