#include "words.h"

#include <ctype.h>
#include <stdarg.h>
#include <stdio.h>
#include <stdlib.h>
#include <string.h>

int is_code(int32_t code)
{
    return code <= 0 && code > -MOST_CODES && strcmp(dma330_code_name(code), "?") != 0;
}

/* ---- the words of a line ---- */

void bad_line(const char *why, const char *what)
{
    fprintf(stderr, "not a line of rows: %s: %s\n", why, what);
    exit(2);
}

static int is_blank(char it)
{
    return it == ' ' || it == '\t' || it == '\r' || it == '\n';
}

void next_word(const char **at, char *word, size_t room)
{
    size_t n = 0;
    while (is_blank(**at))
        ++*at;
    while (!is_blank(**at) && **at != '\0' && n + 1 < room)
        word[n++] = *(*at)++;
    word[n] = '\0';
}

static uint32_t number_in(const char *word, char **end)
{
    unsigned long value = strtoul(word, end, strncmp(word, "0x", 2) == 0 ? 16 : 10);
    if (*end == word || value > 0xFFFFFFFFul)
        bad_line("a number is missing", word);
    return (uint32_t)value;
}

static uint32_t next_number(const char **at)
{
    char word[32], *end;
    uint32_t value;
    next_word(at, word, sizeof word);
    value = number_in(word, &end);
    if (*end != '\0')
        bad_line("not a number", word);
    return value;
}

/* Reads a kind of mark: read, write, or a number that need not be a kind. */
static uint32_t next_kind(const char **at)
{
    const char *from = *at;
    char word[32];
    next_word(at, word, sizeof word);
    if (strcmp(word, "read") == 0 || strcmp(word, "write") == 0)
        return word[0] == 'r' ? DMA330_READS : DMA330_WRITES;
    *at = from;
    return next_number(at);
}

/* Reads segments: each is ADDR+LEN, or ADDR+LEN*N for N of them, each of which begins where the one before it ends; '-'
 * is none. */
static size_t next_list(const char **at, dma330_segment *list)
{
    static char word[MOST_WORD];
    char *from = word;
    size_t count = 0;
    next_word(at, word, sizeof word);
    while (strcmp(word, "-") != 0 && count < MOST_SEGMENTS) {
        uint32_t addr = number_in(from, &from);
        uint32_t len = number_in(from + (*from == '+'), &from);
        uint32_t times = *from == '*' ? number_in(from + 1, &from) : 1;
        while (times-- > 0 && count < MOST_SEGMENTS) {
            list[count].addr = addr;
            list[count++].len = len;
            addr += len;
        }
        if (*from != ',')
            break;
        ++from;
    }
    if (*from != '\0' && strcmp(word, "-") != 0)
        bad_line("not a list", word);
    return count;
}

static unsigned pair_in(const char *digits)
{
    char pair[3] = {digits[0], digits[1], '\0'}, *end;
    unsigned long value = strtoul(pair, &end, 16);
    if (end != pair + 2)
        bad_line("not bytes", digits);
    return (unsigned)value;
}

/* Reads bytes: pairs of digits, XX*N for N equal bytes, or mod251*N for N bytes whose values are their positions modulo
 * 251; '-' is none. */
static size_t bytes_in(const char *word, uint8_t *bytes, size_t room)
{
    const char *star = strchr(word, '*');
    size_t count, n;
    if (strcmp(word, "-") == 0)
        return 0;
    count = star ? strtoul(star + 1, NULL, 0) : strlen(word) / 2;
    if (count > room || (!star && strlen(word) % 2 != 0))
        bad_line("too many bytes, or half a pair", word);
    for (n = 0; n < count; n++) {
        if (strncmp(word, "mod251*", 7) == 0)
            bytes[n] = (uint8_t)(n % 251);
        else
            bytes[n] = (uint8_t)pair_in(star ? word : word + 2 * n);
    }
    return count;
}

/* Reads the bytes of all further words. */
static size_t next_bytes(const char **at, uint8_t *bytes)
{
    static char word[2 * MOST_BYTES];
    size_t len = 0;
    for (;;) {
        next_word(at, word, sizeof word);
        if (word[0] == '\0')
            return len;
        len += bytes_in(word, bytes + len, MOST_BYTES - len);
    }
}

/* Reads the rest of the line after one space, with " / " for a line feed, or WORD*N for N lines of that word. */
static size_t next_text(const char **at, char *text)
{
    const char *from = **at == ' ' ? *at + 1 : *at;
    const char *star = strchr(from, '*');
    size_t len = 0, times;
    *at = from + strlen(from);
    if (star) {
        for (times = strtoul(star + 1, NULL, 0); times > 0; times--) {
            memcpy(text + len, from, (size_t)(star - from));
            len += (size_t)(star - from);
            text[len++] = '\n';
        }
        return len;
    }
    while (*from != '\0') {
        int is_feed = strncmp(from, " / ", 3) == 0;
        text[len++] = is_feed ? '\n' : *from;
        from += is_feed ? 3 : 1;
    }
    return len;
}

/* Reads ADDR+LEN as two numbers. */
static void next_range(const char **at, uint32_t *numbers)
{
    char word[MOST_WORD], *end;
    next_word(at, word, sizeof word);
    numbers[0] = number_in(word, &end);
    numbers[1] = number_in(end + (*end == '+'), &end);
    if (*end != '\0')
        bad_line("not a segment", word);
}

/* Returns whether no word is left. */
static int is_last(const char *at)
{
    while (is_blank(*at))
        at++;
    return *at == '\0';
}

static void expect_word(const char **at, const char *wanted)
{
    char word[32];
    next_word(at, word, sizeof word);
    if (strcmp(word, wanted) != 0)
        bad_line("the line lacks the word", wanted);
}

static void next_events(const char **at, arguments *a)
{
    char word[32];
    a->wait = a->signal = DMA330_NO_EVENT;
    for (;;) {
        next_word(at, word, sizeof word);
        if (strcmp(word, "wait") == 0)
            a->wait = (int32_t)next_number(at);
        else if (strcmp(word, "signal") == 0)
            a->signal = (int32_t)next_number(at);
        else
            break;
    }
    if (word[0] != '\0')
        bad_line("neither wait nor signal", word);
}

/* Reads the shape of a transfer: that of a fill if the next word is 'fill', else that of a copy. */
static const char *shape_of_transfer(const char **at)
{
    const char *rest = *at;
    char word[MOST_WORD];
    next_word(&rest, word, sizeof word);
    if (strcmp(word, "fill") != 0)
        return "sd";
    *at = rest;
    return "fd";
}

/* Reads the argument of a letter of a shape, and returns how many numbers it is. */
static int read_argument(char letter, const char **at, uint32_t *numbers, arguments *a)
{
    switch (letter) {
    case 'c':
        a->channel = (uint8_t)next_number(at);
        return 0;
    case 'k':
        numbers[0] = next_kind(at);
        return 1;
    case 'n':
        numbers[0] = next_number(at);
        return 1;
    case 'o':
        numbers[0] = is_last(*at) ? 1 : next_number(at);
        return 1;
    case 'r':
        next_range(at, numbers);
        return 2;
    case 'b':
        a->len = next_bytes(at, a->bytes);
        return 0;
    case 't':
        a->text_len = next_text(at, a->text);
        return 0;
    case 's':
        a->src_count = next_list(at, a->src);
        return 0;
    case 'f':
        a->is_fill = 1;
        a->from = next_number(at);
        return 0;
    default:
        expect_word(at, "to");
        a->dst_count = next_list(at, a->dst);
        next_events(at, a);
        return 0;
    }
}

void read_arguments(const char *shape, const char *at, arguments *a)
{
    int numbers = 0;
    a->src_count = a->dst_count = a->len = a->text_len = 0;
    a->is_fill = 0;
    for (; *shape != '\0'; shape++) {
        if (*shape == 'T')
            shape = shape_of_transfer(&at);
        numbers += read_argument(*shape, &at, a->numbers + numbers, a);
    }
    if (!is_last(at))
        bad_line("a word too many", at);
}

int has_word(const char *words, const char *code)
{
    size_t len = strlen(code);
    const char *at = words;
    while ((at = strstr(at, code)) != NULL) {
        if ((at == words || at[-1] == ' ') && (at[len] == ' ' || at[len] == '\0'))
            return 1;
        at += len;
    }
    return 0;
}

/* ---- the words of an answer ---- */

void append(answer *to, const char *format, ...)
{
    va_list rest;
    int len;
    va_start(rest, format);
    len = vsnprintf(to->at, to->room, format, rest);
    va_end(rest);
    if (len < 0 || (size_t)len >= to->room)
        bad_line("the answer is too long", format);
    to->at += len;
    to->room -= (size_t)len;
}

void append_camel(answer *to, const char *name)
{
    int is_first = 1;
    for (; *name != '\0'; name++) {
        if (*name != '_')
            append(to, "%c", is_first ? *name : tolower((unsigned char)*name));
        is_first = *name == '_';
    }
}

void append_lower(answer *to, const char *name)
{
    for (; *name != '\0'; name++)
        append(to, "%c", tolower((unsigned char)*name));
}

void append_bytes(answer *to, const uint8_t *bytes, size_t len)
{
    size_t n = 1;
    while (n < len && bytes[n] == bytes[0])
        n++;
    if (n == len && len > 16) {
        append(to, "%02X*%lu", bytes[0], (unsigned long)len);
        return;
    }
    for (n = 0; n < len; n++)
        append(to, "%02X", bytes[n]);
}
