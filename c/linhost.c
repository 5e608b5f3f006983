/* The bench host in C: reads requests from standard input, one a line, calls the core and prints the answers.
 *
 * The requests are those of the bench script (docs/DECISIONS.md, "The host's requests"):
 *   pid N                      id HH
 *   checksum N classic HH ..   checksum N enhanced HH ..
 *   table W W ..               judge TICK BIT
 * An empty line and a line that begins with # are passed over; any other line answers ?.
 */
#include "linhost.h"

#include <stdbool.h>
#include <stdio.h>
#include <string.h>

/* The most bytes of a request, and of the data and words that fit into one. */
enum { LINE_LENGTH_MAX = 20000, DATA_LENGTH_MAX = LINE_LENGTH_MAX / 3, WORDS_MAX = LINE_LENGTH_MAX / 2 };

/* A line without its newline; one byte more than the most shows that it is too long. */
struct line {
    char bytes[LINE_LENGTH_MAX + 1];
    size_t length;
};

/* The words of a table. */
struct table {
    uint16_t words[WORDS_MAX];
    size_t length;
};

/* The table that is judged, right or not: that of the last table request. */
static struct table table;

/* What is left of a line to read. */
struct text {
    const char *at;
    const char *end;
};

/* Reads one line and tells whether there was one. */
static bool read_line(struct line *line)
{
    int c = getchar();
    line->length = 0;
    if (c == EOF)
        return false;
    for (; c != EOF && c != '\n'; c = getchar())
        if (line->length < sizeof line->bytes)
            line->bytes[line->length++] = (char)c;
    return true;
}

/* Takes a word off the front, or leaves the text as it is. */
static bool take_word(struct text *text, const char *word)
{
    size_t length = strlen(word);
    if ((size_t)(text->end - text->at) < length || memcmp(text->at, word, length) != 0)
        return false;
    text->at += length;
    return true;
}

/* Takes one or more decimal digits of a number up to a limit. */
static bool take_number(struct text *text, uint32_t limit, uint32_t *number)
{
    uint64_t value = 0;
    const char *start = text->at;
    for (; text->at < text->end && *text->at >= '0' && *text->at <= '9'; text->at++) {
        value = 10 * value + (uint64_t)(*text->at - '0');
        if (value > limit)
            return false;
    }
    *number = (uint32_t)value;
    return text->at > start;
}

/* Takes a number of at most 255. */
static bool take_byte_number(struct text *text, uint8_t *number)
{
    uint32_t value;
    if (!take_number(text, UINT8_MAX, &value))
        return false;
    *number = (uint8_t)value;
    return true;
}

/* Takes a word of a table. */
static bool take_table_word(struct text *text, uint16_t *word)
{
    uint32_t value;
    if (!take_number(text, UINT16_MAX, &value))
        return false;
    *word = (uint16_t)value;
    return true;
}

/* The value of an upper-case hexadecimal digit, or -1. */
static int digit_of(char c)
{
    if (c >= '0' && c <= '9')
        return c - '0';
    if (c >= 'A' && c <= 'F')
        return c - 'A' + 10;
    return -1;
}

/* Takes two upper-case hexadecimal digits. */
static bool take_pair(struct text *text, uint8_t *byte)
{
    if (text->end - text->at < 2)
        return false;
    int high = digit_of(text->at[0]);
    int low = digit_of(text->at[1]);
    if (high < 0 || low < 0)
        return false;
    *byte = (uint8_t)(16 * high + low);
    text->at += 2;
    return true;
}

static bool at_end(const struct text *text)
{
    return text->at == text->end;
}

/* Prints a refusal, and tells whether the answer is one. */
static bool refused(uint16_t answer)
{
    if (lin_refusal(answer) == 0)
        return false;
    printf("refused %u\n", lin_refusal(answer));
    return true;
}

/* The rest of `pid N`. */
static bool build_request(struct text text)
{
    uint8_t id;
    if (!take_byte_number(&text, &id) || !at_end(&text))
        return false;
    uint16_t answer = lin_build(id);
    if (!refused(answer))
        printf("pid %02X\n", lin_value(answer));
    return true;
}

/* The rest of `id HH`. */
static bool read_request(struct text text)
{
    uint8_t byte;
    if (!take_pair(&text, &byte) || !at_end(&text))
        return false;
    uint16_t answer = lin_read(byte);
    if (!refused(answer))
        printf("id %u\n", lin_value(answer));
    return true;
}

/* The rest of `checksum N classic HH ..` or `checksum N enhanced HH ..`. */
static bool checksum_request(struct text text)
{
    static uint8_t data[DATA_LENGTH_MAX];
    size_t length = 0;
    uint8_t id, model;
    if (!take_byte_number(&text, &id))
        return false;
    if (take_word(&text, " classic"))
        model = LIN_CLASSIC;
    else if (take_word(&text, " enhanced"))
        model = LIN_ENHANCED;
    else
        return false;
    while (!at_end(&text))
        if (!take_word(&text, " ") || !take_pair(&text, &data[length++]))
            return false;
    uint16_t answer = lin_checksum(id, model, data, length);
    if (!refused(answer))
        printf("checksum %02X\n", lin_value(answer));
    return true;
}

/* Prints a refusal that tells a position where it is the table's, and tells whether the answer is one. */
static bool table_refused(uint32_t answer)
{
    unsigned number = lin_table_refusal(answer);
    if (number == 0)
        return false;
    if (number == 1)
        printf("refused 1 %u\n", (unsigned)lin_position(answer));
    else
        printf("refused %u\n", number);
    return true;
}

/* The rest of `table W W ..`. */
static bool table_request(struct text text)
{
    static struct table read;
    read.length = 0;
    while (!at_end(&text))
        if (!take_word(&text, " ") || !take_table_word(&text, &read.words[read.length++]))
            return false;
    table = read;
    if (!table_refused(lin_check(table.words, table.length)))
        puts("accepted");
    return true;
}

/* The rest of `judge TICK BIT`. */
static bool judge_request(struct text text)
{
    uint32_t tick, bit;
    if (!take_number(&text, UINT32_MAX, &tick) || !take_word(&text, " "))
        return false;
    if (!take_number(&text, UINT32_MAX, &bit) || !at_end(&text))
        return false;
    uint32_t answer = lin_judge(table.words, table.length, tick, bit);
    if (lin_is_short(answer))
        printf("short %u\n", (unsigned)lin_entry(answer));
    else if (!table_refused(answer))
        puts("holds");
    return true;
}

/* Answers a request, and tells whether the text is one. */
static bool answer_request(struct text text)
{
    if (take_word(&text, "pid "))
        return build_request(text);
    if (take_word(&text, "id "))
        return read_request(text);
    if (take_word(&text, "checksum "))
        return checksum_request(text);
    if (take_word(&text, "table"))
        return table_request(text);
    if (take_word(&text, "judge "))
        return judge_request(text);
    return false;
}

/* Answers every request of standard input, until it ends or an answer cannot be written. */
static void answer_all(void)
{
    static struct line line;
    while (!ferror(stdout) && read_line(&line)) {
        struct text text = { line.bytes, line.bytes + line.length };
        if (line.length == 0 || line.bytes[0] == '#')
            continue;
        if (line.length > LINE_LENGTH_MAX || !answer_request(text))
            puts("?");
    }
}

int main(int count, char **words)
{
    if (count > 1) {
        fprintf(stderr, "usage: %s <REQUESTS\nAnswers pid, id, checksum, table and judge lines of docs/SCRIPT.md.\n", words[0]);
        return 2;
    }
    answer_all();
    if (fflush(stdout) != 0 || ferror(stdout)) {
        perror("linhost: standard output");
        return 1;
    }
    if (ferror(stdin)) {
        perror("linhost: standard input");
        return 1;
    }
    return 0;
}
