/* The master's state and calls in plain C, with the tests that the core makes: the table, the buffer, the state. */
#ifndef PLAIN_MASTER_H
#define PLAIN_MASTER_H

#include <stdbool.h>
#include <stddef.h>
#include <stdint.h>

enum { FRAMES_MAX = 60, SIGNALS_MAX = 256 };
enum { NEVER = UINT16_MAX }; /* no placement of a signal was received */
enum opened { OPENED_NOTHING, OPENED_FRAME, OPENED_REQUEST, OPENED_RESPONSE };
enum message { MESSAGE_NONE, MESSAGE_SENDING, MESSAGE_COMPLETED, MESSAGE_FAILED };

struct transfer {
    enum opened opened;
    uint16_t frame;
    uint8_t count;
    uint8_t bytes[9];
    bool written;
};

struct state {
    bool pending[FRAMES_MAX];
    uint16_t wait;
    bool running; /* there is a current entry */
    uint16_t entry;
    bool asked; /* there is a requested schedule */
    uint16_t schedule;
    struct transfer transfer;
    enum message message;
    uint8_t nad;
    uint16_t length;
    uint16_t next;
    bool error, success, overrun;
    uint8_t last;
    uint16_t received[SIGNALS_MAX]; /* the placement of each signal that was received last, or NEVER */
};

struct table {
    const uint16_t *words;
    size_t length;
};

struct lent {
    const uint8_t *bytes;
    size_t length;
};

/* A row of values, each with its signal. */
struct row {
    const uint16_t *signals;
    size_t signal_count;
    const uint32_t *values;
    size_t value_count;
};

enum tick_answer { TICK_WAITING, TICK_IDLE, TICK_SILENT, TICK_OPENED, TICK_REFUSED };
enum byte_answer { BYTE_MORE, BYTE_SUCCESS, BYTE_FAILURE, BYTE_RESPONSE, BYTE_REFUSED };

/* The state handed back and the answer; `number` is the protected identifier of an opening, or the refusal number. */
struct ticked {
    struct state state;
    enum tick_answer answer;
    uint8_t number;
};

struct took {
    struct state state;
    enum byte_answer answer;
    uint8_t number;
    uint8_t response[8];
};

/* 0, or the refusal number (of a row, above the place of the bad pair); the state changes only at 0. */
unsigned plain_start(struct state *state, struct table table, uint8_t *bytes, size_t size);
unsigned plain_select(struct state *state, struct table table, uint16_t schedule);
unsigned plain_write(struct state *state, struct table table, uint8_t *bytes, size_t size, uint16_t signal, uint32_t value);
unsigned plain_write_row(struct state *state, struct table table, uint8_t *bytes, size_t size, struct row row);

struct ticked plain_tick(struct state state, struct table table, const uint8_t *bytes, size_t size, struct lent lent);
struct took plain_byte_in(struct state state, struct table table, uint8_t *bytes, size_t size, uint8_t byte);

#endif
