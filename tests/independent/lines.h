/* Lines, numbers, hex and shows as text, for the programs here. */
#ifndef LINES_H
#define LINES_H

#include "rules.h"

#include <inttypes.h>
#include <stdbool.h>
#include <stddef.h>
#include <stdint.h>
#include <stdio.h>
#include <string.h>

enum { LINE_MOST = 65535 };

/* A part of a line. It may hold any bytes, zero too. */
struct word { const char *at; size_t length; };

/* A line without its newline; of one that is too long the first LINE_MOST + 1 bytes. False at the end of the input: a
 * last line without a newline is one if it is not empty. */
static inline bool read_line(FILE *from, char text[LINE_MOST + 1], size_t *length)
{
    size_t filled = 0;
    int c;
    while ((c = getc(from)) != EOF && c != '\n')
        if (filled <= LINE_MOST)
            text[filled++] = (char)c;
    *length = filled;
    return c == '\n' || filled > 0;
}

/* The line's words, with one separator between them: how many, or most + 1 if there are more. Words may be empty. */
static inline size_t split(struct word line, char separator, struct word *word, size_t most)
{
    for (size_t count = 0; count < most; count++) {
        const char *end = memchr(line.at, separator, line.length);
        if (end == NULL) {
            word[count] = line;
            return count + 1;
        }
        word[count] = (struct word){ line.at, (size_t)(end - line.at) };
        line.length -= word[count].length + 1;
        line.at = end + 1;
    }
    return most + 1;
}

static inline bool is(struct word word, const char *name)
{
    return word.length == strlen(name) && memcmp(word.at, name, word.length) == 0;
}

/* Decimal digits and nothing else, at most `most`. */
static inline bool number(struct word word, uint64_t most, uint64_t *value)
{
    uint64_t sum = 0;
    for (size_t i = 0; i < word.length; i++) {
        if (word.at[i] < '0' || word.at[i] > '9')
            return false;
        uint64_t digit = (uint64_t)(word.at[i] - '0');
        if (sum > most / 10 || digit > most - sum * 10)
            return false;
        sum = sum * 10 + digit;
    }
    *value = sum;
    return word.length > 0;
}

static inline int hex_digit(char c)
{
    if (c >= '0' && c <= '9')
        return c - '0';
    if (c >= 'a' && c <= 'f')
        return c - 'a' + 10;
    return c >= 'A' && c <= 'F' ? c - 'A' + 10 : -1;
}

/* Two digits of either case for each byte, at most `most` bytes; `-` for none. */
static inline bool hex(struct word word, uint8_t *bytes, size_t most, size_t *length)
{
    *length = 0;
    if (is(word, "-"))
        return true;
    if (word.length == 0 || word.length % 2 != 0 || word.length / 2 > most)
        return false;
    for (size_t i = 0; i < word.length / 2; i++) {
        int high = hex_digit(word.at[2 * i]);
        int low = hex_digit(word.at[2 * i + 1]);
        if (high < 0 || low < 0)
            return false;
        bytes[i] = (uint8_t)(high * 16 + low);
    }
    *length = word.length / 2;
    return true;
}

/* Numbers of 32 bits with a separator between them: how many, or 0 if some is none or there are more. */
static inline size_t numbers(struct word word, char separator, uint32_t *value, size_t most)
{
    struct word part[SESSIONS];
    size_t count = split(word, separator, part, most);
    if (count > most)
        return 0;
    for (size_t i = 0; i < count; i++) {
        uint64_t wide;
        if (!number(part[i], UINT32_MAX, &wide))
            return 0;
        value[i] = (uint32_t)wide;
    }
    return count;
}

/* A show as it is printed below. */
static inline bool show_of(struct word word, struct show *show)
{
    enum { FOURS = 1 + LAYOUTS + SESSIONS };
    struct word part[FOURS];
    uint32_t four[FOURS][4];
    if (split(word, ';', part, FOURS) != FOURS)
        return false;
    for (size_t i = 0; i < FOURS; i++)
        if (numbers(part[i], ',', four[i], 4) != 4)
            return false;
    show->block = four[0][0];
    show->cylinder = four[0][1];
    show->layouts = four[0][2];
    show->sessions = four[0][3];
    for (size_t i = 0; i < LAYOUTS; i++) {
        const uint32_t *f = four[1 + i];
        show->layout[i] = (struct layout){ f[0], f[1], f[2], f[3] };
    }
    for (size_t i = 0; i < SESSIONS; i++) {
        const uint32_t *f = four[1 + LAYOUTS + i];
        show->session[i] = (struct session){ f[0], f[1], f[2], f[3] };
    }
    return true;
}

static inline void print_hex(const uint8_t *bytes, size_t length)
{
    static const char digits[] = "0123456789abcdef";
    if (length == 0)
        putchar('-');
    for (size_t i = 0; i < length; i++) {
        putchar(digits[bytes[i] >> 4]);
        putchar(digits[bytes[i] & 15]);
    }
}

/* A newline is written as a backslash and an n. */
static inline void print_text(const char *text, size_t length)
{
    for (size_t i = 0; i < length; i++)
        if (text[i] == '\n')
            fputs("\\n", stdout);
        else
            putchar(text[i]);
}

static inline void print_four(char before, uint32_t a, uint32_t b, uint32_t c, uint32_t d)
{
    printf("%c%" PRIu32 ",%" PRIu32 ",%" PRIu32 ",%" PRIu32, before, a, b, c, d);
}

/* All the places, the unused ones too. */
static inline void print_show(char before, const struct show *show)
{
    print_four(before, show->block, show->cylinder, show->layouts, show->sessions);
    for (const struct layout *l = show->layout; l < show->layout + LAYOUTS; l++)
        print_four(';', l->seek, l->track, l->block, l->rotation);
    for (const struct session *s = show->session; s < show->session + SESSIONS; s++)
        print_four(';', s->rate, s->cushion, s->buffer, s->layout);
}

#endif
