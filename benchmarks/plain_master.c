/* The master's calls in plain C. */
#include "plain_master.h"
#include "../c/linhost.h"
#include "plain.h"

#include <string.h>

/* Refusal numbers, and the longest message. */
enum { TABLE = 1, BUFFER, STATE, UNKNOWN, NOT_PUBLISHED, KIND, VALUE, NO_TRANSFER, ROWS = 12 };
enum { LONGEST = 4095 };

/* The records of a table that was checked. */

static const uint16_t *frame_of(const uint16_t *t, unsigned frame)
{
    return t + 5 + 3 * frame;
}

static const uint16_t *signal_of(const uint16_t *t, unsigned signal)
{
    return frame_of(t, t[0]) + 3 * signal;
}

static const uint16_t *placement_of(const uint16_t *t, unsigned placement)
{
    return signal_of(t, t[1]) + 3 * placement;
}

static const uint16_t *member_of(const uint16_t *t, unsigned member)
{
    return placement_of(t, t[4]) + 2 * member;
}

static const uint16_t *entry_of(const uint16_t *t, unsigned entry)
{
    return member_of(t, t[2]) + 4 * entry;
}

static bool is_published(const uint16_t *t, unsigned frame)
{
    return frame_of(t, frame)[2] % 2 == 1;
}

/* The first placement of a signal, by halving: they ascend by signal, and each signal has one. */
static unsigned first_placement(const uint16_t *t, unsigned signal)
{
    const uint16_t *placement = placement_of(t, 0);
    unsigned low = 0, high = t[4];
    while (low < high) {
        unsigned middle = (low + high) / 2;
        if (placement[3 * middle] < signal)
            low = middle + 1;
        else
            high = middle;
    }
    return low;
}

static unsigned schedules_of(const uint16_t *t)
{
    return t[3] == 0 ? 0 : entry_of(t, t[3] - 1u)[0] + 1u;
}

static unsigned first_entry(const uint16_t *t, unsigned schedule)
{
    const uint16_t *entry = entry_of(t, 0);
    unsigned e = 0;
    while (e < t[3] && entry[4 * e] != schedule)
        e++;
    return e;
}

static unsigned next_entry(const uint16_t *t, unsigned e)
{
    const uint16_t *entry = entry_of(t, e);
    return e + 1 < t[3] && entry[4] == entry[0] ? e + 1 : first_entry(t, entry[0]);
}

/* The transfer and the message. */

static unsigned length_of(const uint16_t *t, const struct transfer *transfer)
{
    return transfer->opened == OPENED_FRAME ? frame_of(t, transfer->frame)[1] : 8;
}

static unsigned identifier_of(const uint16_t *t, const struct transfer *transfer)
{
    if (transfer->opened == OPENED_FRAME)
        return frame_of(t, transfer->frame)[0];
    return transfer->opened == OPENED_REQUEST ? 60 : 61;
}

static uint8_t protected_of(const uint16_t *t, const struct transfer *transfer)
{
    return (uint8_t)plain_build((uint8_t)identifier_of(t, transfer));
}

static uint8_t checksum_of(const uint16_t *t, const struct transfer *transfer, const uint8_t *data)
{
    bool enhanced = transfer->opened == OPENED_FRAME && frame_of(t, transfer->frame)[2] / 2 % 2 == 0;
    return (uint8_t)plain_checksum((uint8_t)identifier_of(t, transfer), enhanced, data, length_of(t, transfer));
}

static bool sends(const uint16_t *t, const struct transfer *transfer)
{
    return transfer->opened == OPENED_FRAME ? is_published(t, transfer->frame) : transfer->opened == OPENED_REQUEST;
}

static unsigned message_frames(unsigned length)
{
    return length < 7 ? 1 : 1 + length / 6;
}

/* Refusals 1, 2 and 3. */

static bool list_has(const uint16_t *t, unsigned list, unsigned frame)
{
    const uint16_t *member = member_of(t, 0);
    for (unsigned m = 0; m < t[2]; m++, member += 2)
        if (member[0] == list && member[1] == frame)
            return true;
    return false;
}

static bool can_open(const uint16_t *t, const struct state *s)
{
    if (s->transfer.opened == OPENED_NOTHING)
        return true;
    if (!s->running)
        return false;
    const uint16_t *entry = entry_of(t, s->entry);
    if (s->transfer.opened == OPENED_REQUEST)
        return entry[1] == 2 && s->message == MESSAGE_SENDING;
    if (s->transfer.opened == OPENED_RESPONSE)
        return entry[1] == 3;
    if (entry[1] == 0)
        return entry[2] == s->transfer.frame;
    return entry[1] == 1 && list_has(t, entry[2], s->transfer.frame);
}

static bool pending_fits(const uint16_t *t, const struct state *s)
{
    for (unsigned f = 0; f < FRAMES_MAX; f++)
        if (s->pending[f] && (f >= t[0] || !is_published(t, f)))
            return false;
    return true;
}

/* Whether a placement can be the one of a signal that was received last; one of a signal that is not there cannot. */
static bool can_receive(const uint16_t *t, unsigned signal, unsigned placement)
{
    if (placement >= t[4])
        return false;
    const uint16_t *record = placement_of(t, placement);
    return record[0] == signal && !is_published(t, record[1]);
}

static bool received_fits(const uint16_t *t, const struct state *s)
{
    for (unsigned signal = 0; signal < SIGNALS_MAX; signal++)
        if (s->received[signal] != NEVER && !can_receive(t, signal, s->received[signal]))
            return false;
    return true;
}

static bool fits(const uint16_t *t, const struct state *s)
{
    if (s->running && s->entry >= t[3])
        return false;
    if (s->asked && s->schedule >= schedules_of(t))
        return false;
    if (s->transfer.opened == OPENED_FRAME && s->transfer.frame >= t[0])
        return false;
    if (s->wait > (s->running ? entry_of(t, s->entry)[3] : 0))
        return false;
    if (!pending_fits(t, s) || !received_fits(t, s) || !can_open(t, s))
        return false;
    if (s->transfer.opened != OPENED_NOTHING && s->transfer.count > length_of(t, &s->transfer))
        return false;
    if (s->message != MESSAGE_SENDING)
        return true;
    return s->length >= 1 && s->length <= LONGEST && s->next < message_frames(s->length);
}

static unsigned admit(const struct state *s, struct table table, size_t size)
{
    if (plain_check(table.words, table.length) != 0)
        return TABLE;
    if (size != 8u * table.words[0])
        return BUFFER;
    return fits(table.words, s) ? 0 : STATE;
}

/* Start, select and write. */

/* Puts a scalar into its frame: the eight bytes are one number, the first the lowest, as x86-64 reads them. */
static void put_bits(uint8_t *data, unsigned offset, unsigned width, unsigned value)
{
    uint64_t frame, field = UINT64_MAX >> (64 - width) << offset;
    memcpy(&frame, data, sizeof frame);
    frame = (frame & ~field) | (uint64_t)value << offset;
    memcpy(data, &frame, sizeof frame);
}

/* Puts the start value of its signal into a placement. */
static void put_start(const uint16_t *t, const uint16_t *placement, uint8_t *bytes)
{
    const uint16_t *signal = signal_of(t, placement[0]);
    uint8_t *data = bytes + 8 * placement[1];
    if (signal[0] == 1)
        memset(data + placement[2] / 8, signal[2], signal[1] / 8u);
    else
        put_bits(data, placement[2], signal[1], signal[2]);
}

static const struct transfer no_transfer = { OPENED_NOTHING, 0, 0, { 255, 255, 255, 255, 255, 255, 255, 255, 255 }, false };

unsigned plain_start(struct state *state, struct table table, uint8_t *bytes, size_t size)
{
    if (plain_check(table.words, table.length) != 0)
        return TABLE;
    if (size != 8u * table.words[0])
        return BUFFER;
    memset(bytes, 255, size);
    for (unsigned p = 0; p < table.words[4]; p++)
        put_start(table.words, placement_of(table.words, p), bytes);
    memset(state, 0, sizeof *state);
    state->transfer = no_transfer;
    for (unsigned s = 0; s < SIGNALS_MAX; s++)
        state->received[s] = NEVER;
    return 0;
}

unsigned plain_select(struct state *state, struct table table, uint16_t schedule)
{
    unsigned refusal = admit(state, table, 8u * table.words[0]);
    if (refusal != 0)
        return refusal;
    if (schedule >= schedules_of(table.words))
        return UNKNOWN;
    state->asked = true;
    state->schedule = schedule;
    return 0;
}

/* 0, or one of the refusals 4 to 7. */
static unsigned writable(const uint16_t *t, uint16_t signal, uint32_t value)
{
    if (signal >= t[1])
        return UNKNOWN;
    if (!is_published(t, placement_of(t, first_placement(t, signal))[1]))
        return NOT_PUBLISHED;
    const uint16_t *record = signal_of(t, signal);
    if (record[0] != 0)
        return KIND;
    return value >> record[1] != 0 ? VALUE : 0;
}

/* Puts a value that was judged into every placement, and marks their frames. */
static void put(struct state *state, const uint16_t *t, uint8_t *bytes, uint16_t signal, uint32_t value)
{
    unsigned width = signal_of(t, signal)[1], p = first_placement(t, signal);
    for (const uint16_t *placement = placement_of(t, p); p < t[4] && placement[0] == signal; p++, placement += 3) {
        unsigned frame = placement[1];
        put_bits(bytes + 8 * frame, placement[2], width, value);
        state->pending[frame] = true;
        if (state->transfer.opened == OPENED_FRAME && state->transfer.frame == frame)
            state->transfer.written = true;
    }
}

unsigned plain_write(struct state *state, struct table table, uint8_t *bytes, size_t size, uint16_t signal, uint32_t value)
{
    unsigned refusal = admit(state, table, size);
    if (refusal == 0)
        refusal = writable(table.words, signal, value);
    if (refusal == 0)
        put(state, table.words, bytes, signal, value);
    return refusal;
}

/* 0, or the refusal number of the first bad pair above its place. */
static unsigned first_bad(const uint16_t *t, struct row row)
{
    for (size_t i = 0; i < row.signal_count; i++) {
        unsigned refusal = writable(t, row.signals[i], row.values[i]);
        if (refusal != 0)
            return refusal << 16 | (unsigned)i;
    }
    return 0;
}

unsigned plain_write_row(struct state *state, struct table table, uint8_t *bytes, size_t size, struct row row)
{
    unsigned refusal = admit(state, table, size);
    if (refusal == 0 && row.signal_count != row.value_count)
        refusal = ROWS;
    if (refusal != 0)
        return refusal << 16;
    refusal = first_bad(table.words, row);
    if (refusal != 0)
        return refusal;
    for (size_t i = 0; i < row.signal_count; i++)
        put(state, table.words, bytes, row.signals[i], row.values[i]);
    return 0;
}

/* Closing. */

static void count_transfer(struct state *s, bool success, uint8_t last)
{
    s->overrun |= s->error | s->success;
    s->success |= success;
    s->error |= !success;
    s->last = last;
}

static void fail(const uint16_t *t, struct state *s, bool counts)
{
    if (counts)
        count_transfer(s, false, protected_of(t, &s->transfer));
    if (s->transfer.opened == OPENED_REQUEST)
        s->message = MESSAGE_FAILED;
    s->transfer = no_transfer;
}

static void succeed(const uint16_t *t, struct state *s)
{
    count_transfer(s, true, protected_of(t, &s->transfer));
    if (s->transfer.opened == OPENED_FRAME && !s->transfer.written)
        s->pending[s->transfer.frame] = false;
    if (s->transfer.opened == OPENED_REQUEST && ++s->next >= message_frames(s->length))
        s->message = MESSAGE_COMPLETED;
    s->transfer = no_transfer;
}

/* Tick. */

/* Cuts the frame due from the message lent. */
static void cut(const struct state *s, struct lent lent, uint8_t *data)
{
    size_t at = s->next == 0 ? 0 : 5 + 6 * (size_t)(s->next - 1), to = 2;
    memset(data, 255, 8);
    data[0] = s->nad;
    if (s->next > 0) {
        data[1] = (uint8_t)(32 + s->next % 16);
    } else if (lent.length < 7) {
        data[1] = (uint8_t)lent.length;
    } else {
        data[1] = (uint8_t)(16 + lent.length / 256);
        data[to++] = (uint8_t)(lent.length % 256);
    }
    while (to < 8 && at < lent.length)
        data[to++] = lent.bytes[at++];
}

static void open_frame(struct transfer *transfer, unsigned frame)
{
    transfer->opened = OPENED_FRAME;
    transfer->frame = (uint16_t)frame;
}

/* Opens the first pending member of a list, if there is one. */
static void open_list(struct state *s, const uint16_t *t, unsigned list)
{
    const uint16_t *member = member_of(t, 0);
    for (unsigned m = 0; m < t[2]; m++, member += 2)
        if (member[0] == list && s->pending[member[1]]) {
            open_frame(&s->transfer, member[1]);
            return;
        }
}

static void open_slot(struct state *s, const uint16_t *t, const uint16_t *entry)
{
    if (entry[1] == 0)
        open_frame(&s->transfer, entry[2]);
    else if (entry[1] == 1)
        open_list(s, t, entry[2]);
    else if (entry[1] == 3)
        s->transfer.opened = OPENED_RESPONSE;
    else if (s->message == MESSAGE_SENDING)
        s->transfer.opened = OPENED_REQUEST;
}

/* Copies the data of a sent transfer, and their checksum behind them. */
static void copy(struct state *s, const uint16_t *t, const uint8_t *bytes, struct lent lent)
{
    struct transfer *transfer = &s->transfer;
    unsigned length = length_of(t, transfer);
    if (transfer->opened == OPENED_FRAME)
        memcpy(transfer->bytes, bytes + 8 * transfer->frame, length);
    else
        cut(s, lent, transfer->bytes);
    transfer->bytes[length] = checksum_of(t, transfer, transfer->bytes);
}

struct ticked plain_tick(struct state state, struct table table, const uint8_t *bytes, size_t size, struct lent lent)
{
    const uint16_t *t = table.words;
    unsigned refusal = admit(&state, table, size);
    if (refusal == 0 && state.message == MESSAGE_SENDING && lent.length != state.length)
        refusal = STATE;
    if (refusal != 0)
        return (struct ticked){ state, TICK_REFUSED, (uint8_t)refusal };
    if (state.wait > 1) {
        state.wait--;
        return (struct ticked){ state, TICK_WAITING, 0 };
    }
    if (state.transfer.opened != OPENED_NOTHING)
        fail(t, &state, state.transfer.count > 0);
    if (!state.asked && !state.running)
        return (struct ticked){ state, TICK_IDLE, 0 };
    state.entry = (uint16_t)(state.asked ? first_entry(t, state.schedule) : next_entry(t, state.entry));
    state.running = true;
    state.asked = false;
    const uint16_t *entry = entry_of(t, state.entry);
    state.wait = entry[3];
    state.transfer = no_transfer;
    open_slot(&state, t, entry);
    if (state.transfer.opened == OPENED_NOTHING)
        return (struct ticked){ state, TICK_SILENT, 0 };
    if (sends(t, &state.transfer))
        copy(&state, t, bytes, lent);
    return (struct ticked){ state, TICK_OPENED, protected_of(t, &state.transfer) };
}

/* Byte in. */

static enum byte_answer sent_byte(struct state *s, const uint16_t *t, uint8_t byte)
{
    if (s->transfer.bytes[s->transfer.count] != byte) {
        fail(t, s, true);
        return BYTE_FAILURE;
    }
    if (s->transfer.count < length_of(t, &s->transfer)) {
        s->transfer.count++;
        return BYTE_MORE;
    }
    succeed(t, s);
    return BYTE_SUCCESS;
}

/* Every placement in a frame is the one of its signal that was received last. */
static void receive(const uint16_t *t, struct state *s, unsigned frame)
{
    const uint16_t *placement = placement_of(t, 0);
    for (unsigned p = 0; p < t[4]; p++, placement += 3)
        if (placement[1] == frame)
            s->received[placement[0]] = (uint16_t)p;
}

static enum byte_answer received_byte(struct state *s, const uint16_t *t, uint8_t *bytes, uint8_t *response, uint8_t byte)
{
    struct transfer *transfer = &s->transfer;
    unsigned length = length_of(t, transfer);
    transfer->bytes[transfer->count] = byte;
    if (transfer->count < length) {
        transfer->count++;
        return BYTE_MORE;
    }
    if (byte != checksum_of(t, transfer, transfer->bytes)) {
        fail(t, s, true);
        return BYTE_FAILURE;
    }
    bool response_frame = transfer->opened == OPENED_RESPONSE;
    memcpy(response_frame ? response : bytes + 8 * transfer->frame, transfer->bytes, length);
    if (!response_frame)
        receive(t, s, transfer->frame);
    succeed(t, s);
    return response_frame ? BYTE_RESPONSE : BYTE_SUCCESS;
}

struct took plain_byte_in(struct state state, struct table table, uint8_t *bytes, size_t size, uint8_t byte)
{
    struct took took = { .response = { 255, 255, 255, 255, 255, 255, 255, 255 } };
    unsigned refusal = admit(&state, table, size);
    if (refusal == 0 && state.transfer.opened == OPENED_NOTHING)
        refusal = NO_TRANSFER;
    if (refusal != 0) {
        took.answer = BYTE_REFUSED;
        took.number = (uint8_t)refusal;
    } else if (sends(table.words, &state.transfer)) {
        took.answer = sent_byte(&state, table.words, byte);
    } else {
        took.answer = received_byte(&state, table.words, bytes, took.response, byte);
    }
    took.state = state;
    return took;
}
