/* The table check in plain C, word by word, each word once, with marks; and the judge of schedules. */
#include "../c/linhost.h"
#include "plain.h"

#include <stdbool.h>

/* The table, and where in it the check stands. */
struct check {
    const uint16_t *words;
    size_t length;
    size_t frames;
    size_t signals;
    size_t lists;
};

/* Whether a word stands at a position and is at most a limit. */
static bool at_most(const struct check *check, size_t at, unsigned limit)
{
    return at < check->length && check->words[at] <= limit;
}

/* Whether the signal, list or schedule number at a position is one of those that may follow. */
static bool follows(const struct check *check, size_t at, size_t count)
{
    return at < check->length && (check->words[at] == count || check->words[at] + 1u == count);
}

/* The records that later sections look up. */

static const uint16_t *frame_at(const struct check *check, size_t frame)
{
    return check->words + 5 + 3 * frame;
}

static const uint16_t *signal_at(const struct check *check, size_t signal)
{
    return frame_at(check, check->frames) + 3 * signal;
}

/* Each section gives the position of its first fault, or this. */
#define NO_FAULT SIZE_MAX

static size_t check_header(const struct check *check)
{
    static const uint16_t limits[5] = { 60, 256, 60, 256, 512 };
    for (size_t i = 0; i < 5; i++)
        if (!at_most(check, i, limits[i]))
            return i;
    return NO_FAULT;
}

static size_t check_frames(const struct check *check, size_t at, size_t count)
{
    bool used[60] = { false };
    for (; count > 0; count--, at += 3) {
        if (!at_most(check, at, 59) || used[check->words[at]])
            return at;
        used[check->words[at]] = true;
        if (!at_most(check, at + 1, 8) || check->words[at + 1] == 0)
            return at + 1;
        if (!at_most(check, at + 2, 3))
            return at + 2;
    }
    return NO_FAULT;
}

static bool right_width(bool array, unsigned width)
{
    return array ? width >= 8 && width <= 64 && width % 8 == 0 : width >= 1 && width <= 16;
}

static size_t check_signals(const struct check *check, size_t at, size_t count)
{
    const uint16_t *words = check->words;
    for (; count > 0; count--, at += 3) {
        if (!at_most(check, at, 1))
            return at;
        bool array = words[at] == 1;
        if (at + 1 >= check->length || !right_width(array, words[at + 1]))
            return at + 1;
        if (at + 2 >= check->length || words[at + 2] >= (array ? 256u : 1u << words[at + 1]))
            return at + 2;
    }
    return NO_FAULT;
}

/* A width is at least 1, so an offset behind the frame is refused as one whose bits are not inside it. */
static size_t check_placements(const struct check *check, size_t at, size_t count)
{
    const uint16_t *words = check->words;
    uint64_t taken[60] = { 0 }, field = 0; /* the bits of each frame, and those of the present signal at offset 0 */
    uint16_t last[60] = { 0 };             /* the signal placed last in each frame, counted from 1 */
    size_t signals = 0, first = 0;         /* the signals so far, and the first placement of the present one */
    unsigned width = 0;
    bool array = false;
    for (; count > 0; count--, at += 3) {
        if (!follows(check, at, signals) || words[at] >= check->signals)
            return at;
        if (words[at] == signals) {
            const uint16_t *signal = signal_at(check, signals++);
            array = signal[0] == 1;
            width = signal[1];
            field = UINT64_MAX >> (64 - width);
            first = at;
        }
        if (at + 1 >= check->length || words[at + 1] >= check->frames)
            return at + 1;
        unsigned f = words[at + 1];
        const uint16_t *frame = frame_at(check, f);
        if (last[f] == signals || frame[2] % 2 != frame_at(check, words[first + 1])[2] % 2)
            return at + 1;
        last[f] = (uint16_t)signals;
        if (at + 2 >= check->length || words[at + 2] + width > 8u * frame[1] || (array && words[at + 2] % 8 != 0))
            return at + 2;
        unsigned offset = words[at + 2];
        if ((taken[f] & field << offset) != 0)
            return at + 2;
        taken[f] |= field << offset;
    }
    return signals < check->signals ? at : NO_FAULT;
}

static size_t check_members(struct check *check, size_t at, size_t count)
{
    const uint16_t *words = check->words;
    bool listed[60] = { false };
    for (; count > 0; count--, at += 2) {
        if (!follows(check, at, check->lists))
            return at;
        check->lists = words[at] + 1u;
        if (at + 1 >= check->length || words[at + 1] >= check->frames)
            return at + 1;
        unsigned frame = words[at + 1];
        if (frame_at(check, frame)[2] % 2 == 0 || listed[frame])
            return at + 1;
        listed[frame] = true;
    }
    return NO_FAULT;
}

static size_t check_entries(const struct check *check, size_t at, size_t count)
{
    const uint16_t *words = check->words;
    size_t schedules = 0;
    for (; count > 0; count--, at += 4) {
        if (!follows(check, at, schedules))
            return at;
        schedules = words[at] + 1u;
        if (!at_most(check, at + 1, 3))
            return at + 1;
        size_t targets = words[at + 1] == 0 ? check->frames : words[at + 1] == 1 ? check->lists : 1;
        if (at + 2 >= check->length || words[at + 2] >= targets)
            return at + 2;
        if (at + 3 >= check->length || words[at + 3] == 0)
            return at + 3;
    }
    return NO_FAULT;
}

/* The position of the first fault of all sections. */
static size_t first_fault(const uint16_t *words, size_t length)
{
    struct check check = { words, length, 0, 0, 0 };
    size_t position = check_header(&check);
    if (position != NO_FAULT)
        return position;
    check.frames = words[0];
    check.signals = words[1];
    size_t signals = 5 + 3 * check.frames, placements = signals + 3 * check.signals, members = placements + 3u * words[4];
    size_t entries = members + 2u * words[2], end = entries + 4u * words[3];
    if ((position = check_frames(&check, 5, words[0])) != NO_FAULT)
        return position;
    if ((position = check_signals(&check, signals, words[1])) != NO_FAULT)
        return position;
    if ((position = check_placements(&check, placements, words[4])) != NO_FAULT)
        return position;
    if ((position = check_members(&check, members, words[2])) != NO_FAULT)
        return position;
    if ((position = check_entries(&check, entries, words[3])) != NO_FAULT)
        return position;
    return end < length ? end : NO_FAULT;
}

/* As lin_check answers: 0, or refusal 1 above the position. */
uint32_t plain_check(const uint16_t *words, size_t length)
{
    size_t position = first_fault(words, length);
    return position == NO_FAULT ? 0 : 65536 + (uint32_t)position;
}

/* The records of an accepted table. */
struct records {
    const uint16_t *frames;
    const uint16_t *members;
    const uint16_t *entries;
    size_t member_count;
    size_t entry_count;
};

static struct records records_of(const uint16_t *words)
{
    const uint16_t *frames = words + 5, *members = frames + 3u * words[0] + 3u * words[1] + 3u * words[4];
    return (struct records){ frames, members, members + 2u * words[2], words[2], words[3] };
}

/* The data bytes of a frame. */
static unsigned frame_bytes(const struct records *records, unsigned frame)
{
    return records->frames[3 * frame + 1];
}

/* The data bytes of the longest member of each list. */
static void longest_members(const struct records *records, uint16_t longest[60])
{
    for (size_t m = 0; m < records->member_count; m++) {
        unsigned list = records->members[2 * m], bytes = frame_bytes(records, records->members[2 * m + 1]);
        if (longest[list] < bytes)
            longest[list] = (uint16_t)bytes;
    }
}

/* Whether the slot of an entry holds its longest frame. */
static bool entry_holds(const struct records *records, const uint16_t *entry, const uint16_t longest[60], uint32_t tick, uint32_t bit)
{
    uint64_t bytes = entry[1] == 0 ? frame_bytes(records, entry[2]) : entry[1] == 1 ? longest[entry[2]] : 8;
    return 14 * (34 + 10 * (bytes + 1)) * bit <= UINT64_C(100) * entry[3] * tick;
}

/* As lin_judge answers: 0, the first short entry with bit 24, or a refusal. */
uint32_t plain_judge(const uint16_t *words, size_t length, uint32_t tick, uint32_t bit)
{
    uint32_t refusal = plain_check(words, length);
    if (refusal != 0)
        return refusal;
    if (tick == 0 || tick > 65535 || bit == 0 || bit > 65535)
        return 13 * 65536;
    struct records records = records_of(words);
    uint16_t longest[60] = { 0 };
    longest_members(&records, longest);
    for (size_t e = 0; e < records.entry_count; e++)
        if (!entry_holds(&records, records.entries + 4 * e, longest, tick, bit))
            return LIN_SHORT + (uint32_t)e;
    return 0;
}
