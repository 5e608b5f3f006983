/* Calls one function of the core, or its twin in plain C, on many inputs; callgrind counts the instructions inside it. */
#include "../c/linhost.h"
#include "plain.h"

#include <stdio.h>
#include <string.h>

/* The number of calls of each function; benchmarks/run divides by it. */
enum { CALLS = 16384, DATA_LENGTH = 8 };

/* Inputs that are the same in every run (a linear congruential generator). */
static uint32_t seed = 1;

static uint8_t next_byte(void)
{
    seed = seed * 1664525 + 1013904223;
    return (uint8_t)(seed >> 24);
}

typedef uint16_t one_byte(uint8_t);
typedef uint16_t checksum(uint8_t, uint8_t, const uint8_t *, size_t);

static unsigned bytes(one_byte *function)
{
    unsigned total = 0;
    for (unsigned i = 0; i < CALLS; i++)
        total += function((uint8_t)i);
    return total;
}

static unsigned identifiers(one_byte *function)
{
    unsigned total = 0;
    for (unsigned i = 0; i < CALLS; i++)
        total += function((uint8_t)(i % 64));
    return total;
}

static unsigned checksums(checksum *function, uint8_t model)
{
    uint8_t data[DATA_LENGTH];
    unsigned total = 0;
    for (unsigned i = 0; i < CALLS; i++) {
        for (unsigned k = 0; k < DATA_LENGTH; k++)
            data[k] = next_byte();
        total += function((uint8_t)(i % 60), model, data, DATA_LENGTH);
    }
    return total;
}

/* Runs the function named, so that both programs of a row see the same inputs. */
static int run(const char *function, uint8_t model, unsigned *total)
{
    if (strcmp(function, "lin_build") == 0)
        *total = identifiers(lin_build);
    else if (strcmp(function, "plain_build") == 0)
        *total = identifiers(plain_build);
    else if (strcmp(function, "lin_read") == 0)
        *total = bytes(lin_read);
    else if (strcmp(function, "plain_read") == 0)
        *total = bytes(plain_read);
    else if (strcmp(function, "lin_checksum") == 0)
        *total = checksums(lin_checksum, model);
    else if (strcmp(function, "plain_checksum") == 0)
        *total = checksums(plain_checksum, model);
    else
        return 1;
    return 0;
}

int main(int count, char **words)
{
    unsigned total;
    uint8_t model = count == 3 && strcmp(words[2], "1") == 0 ? LIN_ENHANCED : LIN_CLASSIC;
    if (count < 2 || count > 3 || run(words[1], model, &total) != 0) {
        fprintf(stderr, "usage: wire FUNCTION [0|1]\n");
        return 2;
    }
    printf("%u\n", total);
    return 0;
}
