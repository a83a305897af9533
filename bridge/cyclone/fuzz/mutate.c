// Calls the target with files and with mutations of them, where libFuzzer isn't there: `reader -runs=N FILE ..`, with drawn numbers that are the same in each run.
#include <stdint.h>
#include <stdio.h>
#include <stdlib.h>
#include <string.h>

enum { MOST_SEED = 1048576, MOST_SEEDS = 256 };

int LLVMFuzzerTestOneInput(const uint8_t *data, size_t size);

static struct seed {
    uint8_t *bytes;
    size_t size;
} seed[MOST_SEEDS];
static int seeds;

static uint64_t state = 1;

// A drawn number below a bound.
static size_t draw(size_t bound)
{
    state ^= state << 13;
    state ^= state >> 7;
    state ^= state << 17;
    return (size_t)(state % bound);
}

static void read_seed(const char *path)
{
    FILE *file = fopen(path, "rb");
    struct seed *one = &seed[seeds];
    one->bytes = malloc(MOST_SEED);
    if (file == NULL || one->bytes == NULL) {
        fprintf(stderr, "reader: %s can't be read\n", path);
        exit(3);
    }
    one->size = fread(one->bytes, 1, MOST_SEED, file);
    seeds += one->size > 0;
    fclose(file);
}

// Changes bytes, cuts a piece out, or puts one in from another place, which may be in another seed.
static size_t mutate(uint8_t *bytes, size_t size)
{
    static const char *const WORDS[] = {"-1e300", "4294967297", "\\u0000", "\"", "[", "]", "{", "}", ",", "null", "0.5", "1e400", "\"infinite\"", "\"unlimited\"", "-1", "9223372036854775807"};
    size_t at = draw(size), length = 1 + draw(64);
    const struct seed *from = &seed[draw((size_t)seeds)];
    const char *word = WORDS[draw(sizeof WORDS / sizeof *WORDS)];
    switch (draw(5)) {
    case 0:
        bytes[at] = (uint8_t)draw(256);
        return size;
    case 1:
        length = length < size - at ? length : size - at - 1;
        memmove(bytes + at, bytes + at + length, size - at - length);
        return size - length;
    case 2:
        length = strlen(word);
        memcpy(bytes + at, word, length < size - at ? length : size - at);
        return size;
    default:
        length = length < from->size ? length : from->size;
        memmove(bytes + at + length, bytes + at, size - at);
        memcpy(bytes + at, from->bytes + draw(from->size - length + 1), length);
        return size + length;
    }
}

int main(int count, char **words)
{
    long runs = 1000;
    for (int at = 1; at < count; at++) {
        if (strncmp(words[at], "-runs=", 6) == 0) {
            runs = strtol(words[at] + 6, NULL, 10);
        } else if (words[at][0] != '-' && seeds < MOST_SEEDS) {
            read_seed(words[at]);
        }
    }
    uint8_t *bytes = malloc(2 * MOST_SEED);
    for (long run = 0; run < runs && seeds > 0 && bytes != NULL; run++) {
        const struct seed *from = &seed[run % seeds];
        size_t size = from->size;
        memcpy(bytes, from->bytes, size);
        for (size_t times = 1 + draw(8); times > 0 && size > 1; times--) {
            size = mutate(bytes, size);
        }
        LLVMFuzzerTestOneInput(bytes, size);
    }
    printf("%ld runs of %d seeds\n", runs, seeds);
    return seeds > 0 ? 0 : 3;
}
