/* Checks or judges one table many times by the core or by its twin in plain C; callgrind counts the instructions inside the call. */
#include "../c/linhost.h"
#include "plain.h"

#include <stdio.h>
#include <string.h>

/* The number of calls of a row; benchmarks/run divides by it. The tick and the bit time are such that every slot holds. */
enum { CALLS = 64, WORDS_MAX = 3633, TICK = 10000, BIT = 521 };

static uint16_t words[WORDS_MAX];

/* Makes a right table: scalars and arrays by turns, each in two frames where there are two, four members a list, sixteen
 * entries a schedule, all kinds. A frame has its arrays from the first bit up and its scalars from the last one down. */
static size_t make_table(unsigned frames, unsigned signals, unsigned members, unsigned entries)
{
    unsigned places = frames > 1 ? 2 : 1;
    uint16_t *at = words;
    *at++ = (uint16_t)frames;
    *at++ = (uint16_t)signals;
    *at++ = (uint16_t)members;
    *at++ = (uint16_t)entries;
    *at++ = (uint16_t)(places * signals);
    for (unsigned f = 0; f < frames; f++) {
        *at++ = (uint16_t)(59 - f);
        *at++ = 8;
        *at++ = (uint16_t)(1 + 2 * (f % 2));
    }
    for (unsigned s = 0; s < signals; s++) {
        *at++ = (uint16_t)(s % 2);
        *at++ = (uint16_t)(6 + 2 * (s % 2));
        *at++ = (uint16_t)(s / 2 % 64);
    }
    for (unsigned p = 0; p < places * signals; p++) {
        unsigned s = p / places, round = s / frames;
        *at++ = (uint16_t)s;
        *at++ = (uint16_t)((s + p % places * (frames / 2 + 1)) % frames);
        *at++ = (uint16_t)(s % 2 == 1 ? 8 * round : 58 - 6 * round);
    }
    for (unsigned m = 0; m < members; m++) {
        *at++ = (uint16_t)(m / 4);
        *at++ = (uint16_t)m;
    }
    for (unsigned e = 0; e < entries; e++) {
        *at++ = (uint16_t)(e / 16);
        *at++ = (uint16_t)(e % 4);
        *at++ = (uint16_t)(e % 4 < 2 ? e / 16 % (1 + members / 8) : 0);
        *at++ = (uint16_t)(1 + e);
    }
    return (size_t)(at - words);
}

/* Makes the table of a row, and gives its length, or 0 where there is none of that name. */
static size_t table_of(const char *size)
{
    if (strcmp(size, "small") == 0)
        return make_table(1, 1, 0, 0);
    if (strcmp(size, "middle") == 0)
        return make_table(16, 64, 16, 64);
    if (strcmp(size, "largest") == 0)
        return make_table(60, 256, 60, 256);
    return 0;
}

/* A call by its name, or NULL. */
typedef uint32_t (*call)(const uint16_t *, size_t);

static uint32_t lin_judged(const uint16_t *table, size_t length) { return lin_judge(table, length, TICK, BIT); }
static uint32_t plain_judged(const uint16_t *table, size_t length) { return plain_judge(table, length, TICK, BIT); }

static call call_of(const char *name)
{
    static const struct { const char *name; call call; } calls[] = {
        { "lin_check", lin_check }, { "plain_check", plain_check }, { "lin_judge", lin_judged }, { "plain_judge", plain_judged },
    };
    for (size_t i = 0; i < sizeof calls / sizeof calls[0]; i++)
        if (strcmp(name, calls[i].name) == 0)
            return calls[i].call;
    return NULL;
}

int main(int count, char **arguments)
{
    size_t length = count == 3 ? table_of(arguments[2]) : 0;
    call call = count == 3 ? call_of(arguments[1]) : NULL;
    if (length == 0 || call == NULL) {
        fprintf(stderr, "usage: table lin_check|plain_check|lin_judge|plain_judge small|middle|largest\n");
        return 2;
    }
    unsigned accepted = 0;
    for (unsigned i = 0; i < CALLS; i++)
        accepted += call(words, length) == 0;
    printf("%zu words, %u times accepted\n", length, accepted);
    return accepted != CALLS;
}
