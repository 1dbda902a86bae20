/* The calculator's text, and the reason's. */
#include "inner.h"

#include <string.h>

static char *put_word(char *to, const char *word)
{
    size_t length = strlen(word);
    memcpy(to, word, length);
    return to + length;
}

/* The number and the byte after it. */
static char *put_number(char *to, uint64_t number, char after)
{
    char digits[20];
    size_t first = sizeof digits;
    do {
        digits[--first] = (char)('0' + number % 10);
        number /= 10;
    } while (number > 0);
    memcpy(to, digits + first, sizeof digits - first);
    to += sizeof digits - first;
    *to++ = after;
    return to;
}

static char *put_refusal(char *to, struct refusal refusal)
{
    to = put_word(to, "refused ");
    to = put_number(to, refusal.number, ' ');
    return put_number(to, refusal.place, '\n');
}

static char *put_decision(char *to, const struct show *show, const struct decision *decision)
{
    to = put_word(to, "accepted ");
    to = put_number(to, show->sessions, ' ');
    to = put_number(to, decision->round, '\n');
    for (uint32_t i = 0; i < show->sessions; i++) {
        to = put_number(to, i, ' ');
        to = put_number(to, decision->count[i], ' ');
        to = put_number(to, decision->time[i], ' ');
        to = put_number(to, buffer_needed(show, i, decision->count[i]), '\n');
    }
    return to;
}

size_t file_report(const uint8_t *file, size_t length, char *text)
{
    struct show show;
    const uint8_t *note;
    size_t note_length;
    struct decision decision;
    struct refusal refusal = show_read(file, length, &show, &note, &note_length);
    if (refusal.number == 0)
        refusal = show_decide(&show, &decision);
    char *end = refusal.number == 0 ? put_decision(text, &show, &decision) : put_refusal(text, refusal);
    return (size_t)(end - text);
}

/* A sentence, in which `#` stands for the place of a refusal or of a session, `@` for a size and `%` for the load. */
static char *put_sentence(char *to, const char *sentence, uint32_t place, uint64_t size, uint64_t tenths)
{
    for (; *sentence != 0; sentence++) {
        if (*sentence == '#')
            to = put_number(to, place, ' ') - 1;
        else if (*sentence == '@')
            to = put_number(to, size, ' ') - 1;
        else if (*sentence == '%')
            to = put_number(put_number(to, tenths / 10, '.'), tenths % 10, ' ') - 1;
        else
            *to++ = *sentence;
    }
    *to++ = '\n';
    return to;
}

static const char *const refusals[] = {
    [NO_LENGTH] = "This is no show file, or not all of it: it is too short or too long to be one.",
    [NO_COUNTS] = "The show says that it has no layout, or too many layouts or clips.",
    [NO_DISTANCE] = "The file is damaged: its parts are not where it says they are.",
    [NO_NOTE] = "The note in the file is too long.",
    [NO_DRIVE] = "The block size, or the number of blocks to a cylinder, cannot be right.",
    [NO_LAYOUT] = "Layout #, counted from 0, has a time that cannot be right.",
    [NO_LIMITS] = "Clip #, counted from 0, has a number that cannot be right.",
};

static const char *const words[] = { [KEEPS_UP] = "none", [OVERLOAD] = "overload", [BEYOND] = "beyond", [BUFFER] = "buffer " };

static const char *const sentences[] = {
    [KEEPS_UP] = "The drive keeps up: it works at % per cent, and every buffer is large enough.",
    [OVERLOAD] = "The drive would have to work at % per cent; at an even hundred it never keeps up.",
    [BEYOND] = "The drive would keep up, working at % per cent, but some clip would need a buffer of more than 1073741824 bytes, the most there is.",
    [BUFFER] = "Clip #, counted from 0, needs a buffer of @ bytes or more; the drive itself would keep up, working at % per cent.",
};

size_t file_explain(const uint8_t *file, size_t length, char *text)
{
    struct show show;
    const uint8_t *note;
    size_t note_length;
    struct reason reason = { KEEPS_UP, 0, 0 };
    uint64_t tenths = 0;
    char *to = text;
    struct refusal refusal = show_read(file, length, &show, &note, &note_length);
    if (refusal.number != 0) {
        to = put_refusal(to, refusal);
        return (size_t)(put_sentence(to, refusals[refusal.number], refusal.place, 0, 0) - text);
    }
    show_reason(&show, &reason); /* a show that was read is within its limits */
    show_load(&show, &tenths);
    to = put_word(to, words[reason.why]);
    if (reason.why == BUFFER)
        to = put_number(put_number(to, reason.session, ' '), reason.size, '\n');
    else
        *to++ = '\n';
    return (size_t)(put_sentence(to, sentences[reason.why], reason.session, reason.size, tenths) - text);
}
