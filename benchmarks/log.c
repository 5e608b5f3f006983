/* The log program (crates/buslog, crates/linlog) in plain C: the same lines in, the same report out. */
#include "plain.h"

#include <stdio.h>
#include <string.h>
#include <unistd.h>

enum { PART = 16384, ROW_MAX = 33, LINE_MAX_KEPT = 30, PAIRS_MAX = 10 };

/* A row's verdict, and the identifier where there is one. */
struct verdict {
    const char *word;
    int id;
};

/* The built-in frame: identifier 2, length 1, enhanced. */
static const struct { uint8_t id, length, model; } frames[] = { { 2, 1, 1 } };

static int digit_of(unsigned char c)
{
    if (c >= '0' && c <= '9')
        return c - '0';
    if (c >= 'A' && c <= 'F')
        return c - 'A' + 10;
    return -1;
}

/* The bytes of a line and how many there are, 0 where it is text. */
static size_t read_pairs(const unsigned char *line, size_t length, uint8_t *bytes)
{
    size_t count = 0;
    if (length % 3 != 2 || length > 3 * PAIRS_MAX - 1)
        return 0;
    for (size_t at = 0; at < length; at += 3) {
        int high = digit_of(line[at]);
        int low = digit_of(line[at + 1]);
        if (high < 0 || low < 0 || (at + 2 < length && line[at + 2] != ' '))
            return 0;
        bytes[count++] = (uint8_t)(16 * high + low);
    }
    return count;
}

/* The verdict on the data and the checksum of a known identifier. */
static struct verdict judge_known(uint8_t id, size_t length, uint8_t model, const uint8_t *rest, size_t count)
{
    if (count != length + 1)
        return (struct verdict){ "length", id };
    if (rest[length] != plain_checksum(id, model, rest, length))
        return (struct verdict){ "checksum", id };
    return (struct verdict){ "ok", id };
}

static struct verdict judge(const unsigned char *line, size_t length)
{
    uint8_t bytes[PAIRS_MAX];
    size_t count = read_pairs(line, length, bytes);
    if (count == 0)
        return (struct verdict){ "text", -1 };
    uint16_t id = plain_read(bytes[0]);
    if (id > 63)
        return (struct verdict){ "parity", -1 };
    if (id == 60 || id == 61)
        return judge_known((uint8_t)id, 8, 0, bytes + 1, count - 1);
    for (size_t f = 0; f < sizeof frames / sizeof *frames; f++)
        if (frames[f].id == id)
            return judge_known((uint8_t)id, frames[f].length, frames[f].model, bytes + 1, count - 1);
    return (struct verdict){ "unknown", id };
}

/* Puts a row, and gives the place behind it. */
static char *put_row(char *out, uint64_t number, struct verdict verdict)
{
    char digits[20];
    size_t at = sizeof digits;
    do {
        digits[--at] = (char)('0' + number % 10);
        number /= 10;
    } while (number > 0);
    memcpy(out, digits + at, sizeof digits - at);
    out += sizeof digits - at;
    *out++ = ' ';
    *out++ = verdict.id < 0 ? '-' : "0123456789ABCDEF"[verdict.id / 16];
    *out++ = verdict.id < 0 ? '-' : "0123456789ABCDEF"[verdict.id % 16];
    *out++ = ' ';
    size_t length = strlen(verdict.word);
    memcpy(out, verdict.word, length);
    out += length;
    *out++ = '\n';
    return out;
}

/* Reports the whole lines of a text, and gives the place behind the last of them. */
static const unsigned char *report(const unsigned char *text, const unsigned char *end, uint64_t *number, char **out)
{
    const unsigned char *newline;
    while ((newline = memchr(text, '\n', (size_t)(end - text))) != NULL) {
        *out = put_row(*out, (*number)++, judge(text, (size_t)(newline - text)));
        text = newline + 1;
    }
    return text;
}

static int write_all(const char *bytes, size_t length)
{
    while (length > 0) {
        ssize_t done = write(STDOUT_FILENO, bytes, length);
        if (done <= 0)
            return -1;
        bytes += done;
        length -= (size_t)done;
    }
    return 0;
}

int main(void)
{
    static unsigned char text[PART];
    static char rows[ROW_MAX * PART];
    static const char header[] = "line id verdict\n";
    uint64_t number = 1;
    size_t kept = 0;
    ssize_t got;
    if (write_all(header, sizeof header - 1) < 0)
        return 1;
    while ((got = read(STDIN_FILENO, text + kept, PART - kept)) > 0 || kept > 0) {
        if (got <= 0)
            text[kept] = '\n';
        unsigned char *end = text + kept + (got > 0 ? (size_t)got : 1);
        char *out = rows;
        const unsigned char *left = report(text, end, &number, &out);
        if (write_all(rows, (size_t)(out - rows)) < 0)
            return 1;
        kept = (size_t)(end - left) < LINE_MAX_KEPT ? (size_t)(end - left) : LINE_MAX_KEPT;
        memmove(text, left, kept);
    }
    return 0;
}
