/*
 * Tries the heap of ddscheck_place.h by itself: place SEED ROUNDS. Blocks of drawn sizes are taken, grown, shrunk and given back in a small place, each filled with a
 * byte of its own; none may change another, leave the place, or lie askew, and where all are given back the place is whole again. Prints whether some were refused for
 * lack of room, and what was wrong.
 */
#define DDSCHECK_PLACE_HERE
#include "ddscheck_place.h"

#include <stdio.h>
#include <stdlib.h>

#define ROOM 20000
#define BLOCKS 64
#define MOST 900

/* a block that is in use, or has no size */
struct used {
    unsigned char *at;
    size_t size;
    unsigned char fill;
};

static unsigned char place[ROOM];
static struct used blocks[BLOCKS];
static unsigned long seed, wrong, refused;

static size_t draw(size_t below)
{
    seed = (seed * 1103515245UL + 12345UL) & 0x7fffffffUL;
    return (size_t)(seed >> 8) % below;
}

/* Counts a block that has other bytes than its own, or lies where it can't. */
static void look_at(const struct used *block, size_t size)
{
    size_t byte;
    wrong += block->at < place || block->at + size > place + ROOM || (uintptr_t)block->at % 16 != 0;
    for (byte = 0; byte < size; byte++) {
        wrong += block->at[byte] != block->fill;
    }
}

static void take(struct used *block)
{
    size_t size = draw(MOST);
    struct ddscheck_tried tried = rattle_alloc(size, 16);
    refused += !tried.ok;
    if (tried.ok) {
        block->at = tried.at;
        block->size = size + 1;
        memset(block->at, block->fill, size);
    }
}

static void resize(struct used *block)
{
    size_t size = draw(2 * MOST), kept = block->size - 1 < size ? block->size - 1 : size;
    struct ddscheck_tried tried = rattle_realloc(block->at, kept, size, 16);
    refused += !tried.ok;
    if (tried.ok) {
        block->at = tried.at;
        block->size = size + 1;
        look_at(block, kept);
        memset(block->at, block->fill, size);
    }
}

static void give_back(struct used *block)
{
    look_at(block, block->size - 1);
    rattle_dealloc(block->at);
    block->size = 0;
}

int main(int count, char **words)
{
    unsigned long round, rounds;
    size_t at;
    if (count != 3) {
        return 4;
    }
    seed = strtoul(words[1], NULL, 10);
    rounds = strtoul(words[2], NULL, 10);
    wrong += ddscheck_use_place(place, ROOM) != DDSCHECK_OK;
    for (at = 0; at < BLOCKS; at++) {
        blocks[at].fill = (unsigned char)(at + 1);
    }
    for (round = 0; round < rounds; round++) {
        struct used *block = &blocks[draw(BLOCKS)];
        if (block->size == 0) {
            take(block);
        } else if (draw(3) == 0) {
            resize(block);
        } else {
            give_back(block);
        }
    }
    for (at = 0; at < BLOCKS; at++) {
        if (blocks[at].size > 0) {
            wrong += ddscheck_use_place(place, ROOM) != DDSCHECK_ALREADY_OPEN;
            give_back(&blocks[at]);
        }
    }
    wrong += ddscheck_place_size() >= ROOM + 16 || ddscheck_use_place(place, ROOM) != DDSCHECK_OK;
    printf("%s refused, %lu wrong\n", refused > 0 ? "some" : "none", wrong);
    return 0;
}
