/* The program of crates/meter in plain C: a call for each letter on standard input, on the same table, with the same digest. */
#include "plain_master.h"

#include <stdio.h>

enum { WORDS = 3633, BYTES = 480, LETTERS_MAX = 4096, VALUES = 20, WRITTEN = 7, REFUSED = 512 };

static uint16_t words[WORDS], signals[VALUES];
static uint32_t values[VALUES];
static uint8_t bytes[BYTES];
static const struct table table = { words, WORDS };

/* Makes the largest table: each signal in two frames, 15 lists of four members, four schedules of 64 entries with delay 1. A
 * frame has its arrays from the first bit up and its scalars from the last one down. */
static void make_table(void)
{
    uint16_t *at = words;
    *at++ = 60;
    *at++ = 256;
    *at++ = 60;
    *at++ = 256;
    *at++ = 512;
    for (unsigned f = 0; f < 60; f++) {
        *at++ = (uint16_t)(59 - f);
        *at++ = 8;
        *at++ = (uint16_t)(1 + 2 * (f % 2));
    }
    for (unsigned s = 0; s < 256; s++) {
        *at++ = (uint16_t)(s % 2);
        *at++ = (uint16_t)(6 + 2 * (s % 2));
        *at++ = (uint16_t)(s / 2 % 64);
    }
    for (unsigned p = 0; p < 512; p++) {
        unsigned s = p / 2, round = s / 60;
        *at++ = (uint16_t)s;
        *at++ = (uint16_t)((s + p % 2 * 31) % 60);
        *at++ = (uint16_t)(s % 2 == 1 ? 8 * round : 58 - 6 * round);
    }
    for (unsigned m = 0; m < 60; m++) {
        *at++ = (uint16_t)(m / 4);
        *at++ = (uint16_t)(59 - m);
    }
    for (unsigned e = 0; e < 256; e++) {
        unsigned kind = e % 16 < 12 ? e % 2 : e % 4;
        *at++ = (uint16_t)(e / 64);
        *at++ = (uint16_t)kind;
        *at++ = (uint16_t)(kind < 2 ? e % 15 : 0);
        *at++ = 1;
    }
}

/* Makes the row: every twelfth signal, so scalars of six bits, four in each of ten frames. */
static void make_row(void)
{
    for (unsigned i = 0; i < VALUES; i++) {
        signals[i] = (uint16_t)(12 * i);
        values[i] = 63 - 6 * i % 64;
    }
}

static unsigned tick_code(const struct ticked *ticked)
{
    if (ticked->answer == TICK_REFUSED)
        return (unsigned)REFUSED + ticked->number;
    return ticked->answer == TICK_OPENED ? 256u + ticked->number : ticked->answer;
}

static unsigned byte_code(const struct took *took)
{
    return took->answer == BYTE_REFUSED ? (unsigned)REFUSED + took->number : 3u + took->answer;
}

static unsigned write_code(unsigned refusal)
{
    return refusal == 0 ? WRITTEN : (unsigned)REFUSED + refusal;
}

/* A call, and its answer as a number. */

static unsigned tick(struct state *state)
{
    struct ticked ticked = plain_tick(*state, table, bytes, BYTES, (struct lent){ bytes, 0 });
    *state = ticked.state;
    return tick_code(&ticked);
}

static unsigned byte_in(struct state *state)
{
    struct took took = plain_byte_in(*state, table, bytes, BYTES, state->transfer.bytes[state->transfer.count]);
    *state = took.state;
    return byte_code(&took);
}

static unsigned write_row(struct state *state)
{
    struct row row = { signals, VALUES, values, VALUES };
    return write_code(plain_write_row(state, table, bytes, BYTES, row) >> 16);
}

/* The values of the row one by one; the code is the largest. */
static unsigned write_singly(struct state *state)
{
    unsigned code = 0;
    for (size_t i = 0; i < VALUES; i++) {
        unsigned one = write_code(plain_write(state, table, bytes, BYTES, signals[i], values[i]));
        code = one > code ? one : code;
    }
    return code;
}

static unsigned call(struct state *state, uint8_t letter)
{
    switch (letter) {
    case 'T':
        return tick(state);
    case 'R':
        return write_row(state);
    case 'W':
        return write_singly(state);
    default:
        return byte_in(state);
    }
}

static unsigned long folded(unsigned long digest, unsigned long code)
{
    return (31 * digest + code) % 65521;
}

/* The digest with the frame bytes. */
static unsigned long with_bytes(unsigned long digest)
{
    for (size_t i = 0; i < BYTES; i++)
        digest = folded(digest, bytes[i]);
    return digest;
}

/* The digest with the numbers of the pending frames. */
static unsigned long with_pending(unsigned long digest, const struct state *state)
{
    for (size_t f = 0; f < FRAMES_MAX; f++)
        if (state->pending[f])
            digest = folded(digest, f);
    return digest;
}

/* Starts, selects schedule 0 and writes; gives 0, or a refusal number. */
static unsigned make_ready(struct state *state)
{
    unsigned refusal = plain_start(state, table, bytes, BYTES);
    refusal |= plain_select(state, table, 0);
    for (uint16_t s = 14; s < 60; s += 8)
        refusal |= plain_write(state, table, bytes, BYTES, s, 42);
    return refusal;
}

int main(void)
{
    static uint8_t letters[LETTERS_MAX];
    struct state state;
    size_t count = fread(letters, 1, LETTERS_MAX, stdin);
    make_table();
    make_row();
    if (make_ready(&state) != 0)
        return 1;
    unsigned long digest = 0;
    for (size_t i = 0; i < count; i++)
        digest = folded(digest, call(&state, letters[i]));
    digest = with_pending(with_bytes(folded(digest, state.last)), &state);
    printf("%zu calls, digest %lu\n", count, digest);
    return 0;
}
