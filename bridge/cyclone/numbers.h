// The 32 bytes of a sample: what a reader of another process needs to know whether anything is missing, and how old a sample is.
#ifndef NUMBERS_H
#define NUMBERS_H

#include "Sample.h"

#include <stdint.h>
#include <stdio.h>

// Bytes 0 to 7, most significant first: when the write was begun, by the monotonic clock that all processes of a machine share. Bytes 8 to 15: the count of this
// writer's samples of this key, from 1. Bytes 16 to 23: the place of the writer in the file. Bytes 24 to 31: when its write of the key before that was begun, 0
// where there is none.
struct numbers {
    int64_t time;
    uint64_t number, writer;
    int64_t time_before;
};

static inline void put_number(uint8_t *bytes, uint64_t number)
{
    for (int at = 7; at >= 0; at--) {
        bytes[at] = (uint8_t)number;
        number >>= 8;
    }
}

static inline uint64_t get_number(const uint8_t *bytes)
{
    uint64_t number = 0;
    for (int at = 0; at < 8; at++) {
        number = number << 8 | bytes[at];
    }
    return number;
}

static inline void put_numbers(uint8_t data[32], struct numbers numbers)
{
    put_number(data, (uint64_t)numbers.time);
    put_number(data + 8, numbers.number);
    put_number(data + 16, numbers.writer);
    put_number(data + 24, (uint64_t)numbers.time_before);
}

static inline struct numbers get_numbers(const uint8_t data[32])
{
    return (struct numbers){
        .time = (int64_t)get_number(data),
        .number = get_number(data + 8),
        .writer = get_number(data + 16),
        .time_before = (int64_t)get_number(data + 24),
    };
}

// A sample of a key, which is a name of at most 64 bytes; its 32 bytes are 0.
static inline ddscheck_Sample sample_of(const char *key)
{
    ddscheck_Sample sample = {.key = ""};
    snprintf(sample.key, sizeof sample.key, "%s", key);
    return sample;
}

#endif
