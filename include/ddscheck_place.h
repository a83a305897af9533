/*
 * Memory for the library from a place of the program's own, such as an array, and none from malloc: for a program that has no heap.
 *
 * One C file of the program defines DDSCHECK_PLACE_HERE before it includes this header. That file then has what the library takes its memory by, so the linker
 * leaves the library's malloc and free out. Before ddscheck_use_place there's no memory, and a call that needs some answers DDSCHECK_NO_MEMORY.
 *
 * How large a place has to be depends on the deployment file alone. Run the program's calls once with a place that is large enough, on any machine of the same
 * kind: ddscheck_place_size() then says how many bytes they need. docs/GUARD.md has some sizes.
 *
 * Threads: the place is one for all guards, so that one thread at a time may open or close a guard, check, or read QoS or a fault. The other calls take no memory.
 */
#ifndef DDSCHECK_PLACE_H
#define DDSCHECK_PLACE_H

#include "ddscheck.h"

#ifdef __cplusplus
extern "C" {
#endif

/* The library takes its memory from this place of `room` bytes from now on. DDSCHECK_ALREADY_OPEN: memory of the place before is still in use. DDSCHECK_NO_MEMORY:
   the room isn't enough for anything. */
ddscheck_status ddscheck_use_place(void *place, size_t room);

/* As many bytes as a place needs for what was called since ddscheck_use_place. */
size_t ddscheck_place_size(void);

#ifdef __cplusplus
}
#endif

#ifdef DDSCHECK_PLACE_HERE

#ifdef __cplusplus
#error "define DDSCHECK_PLACE_HERE in a C file"
#endif

#include <stdbool.h>

/* The place is cut into blocks, each with this at its head. A free one is in a list by address, and no two free ones lie side by side. */
struct ddscheck_block {
    size_t size;
    struct ddscheck_block *next;
};

#define DDSCHECK_BLOCK_ALIGNMENT ((size_t)16)

static struct {
    char *first;
    size_t room, most;
    struct ddscheck_block *free;
} ddscheck_place;

/* what the library's heap answers: whether there's memory, and where */
struct ddscheck_tried {
    bool ok;
    void *at;
};

struct ddscheck_tried rattle_alloc(size_t size, size_t alignment);
struct ddscheck_tried rattle_realloc(void *at, size_t kept, size_t size, size_t alignment);
void rattle_dealloc(void *at);

static size_t ddscheck_block_size(size_t size)
{
    return (size + sizeof(struct ddscheck_block) + DDSCHECK_BLOCK_ALIGNMENT - 1) / DDSCHECK_BLOCK_ALIGNMENT * DDSCHECK_BLOCK_ALIGNMENT;
}

static char *ddscheck_block_end(struct ddscheck_block *block) { return (char *)block + block->size; }

ddscheck_status ddscheck_use_place(void *place, size_t room)
{
    size_t skipped = (DDSCHECK_BLOCK_ALIGNMENT - (uintptr_t)place % DDSCHECK_BLOCK_ALIGNMENT) % DDSCHECK_BLOCK_ALIGNMENT;
    if (place == NULL) {
        return DDSCHECK_NULL;
    }
    if (ddscheck_place.room > 0 && (ddscheck_place.free == NULL || ddscheck_place.free->size != ddscheck_place.room)) {
        return DDSCHECK_ALREADY_OPEN;
    }
    if (room < skipped + ddscheck_block_size(1)) {
        return DDSCHECK_NO_MEMORY;
    }
    ddscheck_place.first = (char *)place + skipped;
    ddscheck_place.room = (room - skipped) / DDSCHECK_BLOCK_ALIGNMENT * DDSCHECK_BLOCK_ALIGNMENT;
    ddscheck_place.most = 0;
    ddscheck_place.free = (struct ddscheck_block *)(void *)ddscheck_place.first;
    ddscheck_place.free->size = ddscheck_place.room;
    ddscheck_place.free->next = NULL;
    return DDSCHECK_OK;
}

size_t ddscheck_place_size(void) { return ddscheck_place.most == 0 ? 0 : ddscheck_place.most + DDSCHECK_BLOCK_ALIGNMENT - 1; }

/* Cuts what a block has beyond this size off it, if that makes a block. Answers the block that is left over. */
static struct ddscheck_block *ddscheck_cut(struct ddscheck_block *block, size_t size)
{
    struct ddscheck_block *rest = NULL;
    if (block->size >= size + ddscheck_block_size(1)) {
        rest = (struct ddscheck_block *)(void *)((char *)block + size);
        rest->size = block->size - size;
        block->size = size;
    }
    return rest;
}

static void *ddscheck_note_most(struct ddscheck_block *block)
{
    size_t end = (size_t)(ddscheck_block_end(block) - ddscheck_place.first);
    ddscheck_place.most = end > ddscheck_place.most ? end : ddscheck_place.most;
    return block + 1;
}

/* The library asks for no more than SIZE_MAX / 2 bytes, and for no alignment beyond 16. */
struct ddscheck_tried rattle_alloc(size_t size, size_t alignment)
{
    struct ddscheck_tried tried = {false, &ddscheck_place};
    struct ddscheck_block **at = &ddscheck_place.free, *block, *rest;
    size_t needed = ddscheck_block_size(size);
    (void)alignment;
    while (*at != NULL && (*at)->size < needed) {
        at = &(*at)->next;
    }
    block = *at;
    if (block != NULL) {
        rest = ddscheck_cut(block, needed);
        if (rest != NULL) {
            rest->next = block->next;
        }
        *at = rest != NULL ? rest : block->next;
        tried.ok = true;
        tried.at = ddscheck_note_most(block);
    }
    return tried;
}

/* Joins a free block with the one behind it, if they lie side by side. */
static void ddscheck_join(struct ddscheck_block *block)
{
    if (block->next != NULL && ddscheck_block_end(block) == (char *)block->next) {
        block->size += block->next->size;
        block->next = block->next->next;
    }
}

void rattle_dealloc(void *at)
{
    struct ddscheck_block *block = (struct ddscheck_block *)at - 1, *before = NULL, **next = &ddscheck_place.free;
    while (*next != NULL && *next < block) {
        before = *next;
        next = &before->next;
    }
    block->next = *next;
    *next = block;
    ddscheck_join(block);
    if (before != NULL) {
        ddscheck_join(before);
    }
}

/* Where the block can grow, it stays where it is; else it moves, with as many bytes as are kept. */
struct ddscheck_tried rattle_realloc(void *at, size_t kept, size_t size, size_t alignment)
{
    struct ddscheck_tried tried = {true, at};
    struct ddscheck_block *block = (struct ddscheck_block *)at - 1, **next = &ddscheck_place.free, *rest;
    size_t needed = ddscheck_block_size(size);
    if (block->size >= needed) {
        return tried;
    }
    while (*next != NULL && *next < block) {
        next = &(*next)->next;
    }
    if (*next != NULL && ddscheck_block_end(block) == (char *)*next && block->size + (*next)->size >= needed) {
        struct ddscheck_block *after = (*next)->next;
        block->size += (*next)->size;
        rest = ddscheck_cut(block, needed);
        if (rest != NULL) {
            rest->next = after;
        }
        *next = rest != NULL ? rest : after;
        tried.at = ddscheck_note_most(block);
        return tried;
    }
    tried = rattle_alloc(size, alignment);
    if (tried.ok) {
        memcpy(tried.at, at, kept);
        rattle_dealloc(at);
    }
    return tried;
}

#endif

#endif
