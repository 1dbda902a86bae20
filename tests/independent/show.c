/* The limits of a show, and show files. */
#include "inner.h"

#include <string.h>

enum { ENTRY = 16, TRAILER = 20 };

static uint32_t get16(const uint8_t *from)
{
    return from[0] | (uint32_t)from[1] << 8;
}

static uint32_t get32(const uint8_t *from)
{
    return get16(from) | get16(from + 2) << 16;
}

static void put16(uint8_t *to, uint32_t value)
{
    to[0] = (uint8_t)value;
    to[1] = (uint8_t)(value >> 8);
}

static void put32(uint8_t *to, uint32_t value)
{
    put16(to, value);
    put16(to + 2, value >> 16);
}

static bool within(uint32_t value, uint32_t least, uint32_t most)
{
    return value >= least && value <= most;
}

static bool counts_within(uint32_t layouts, uint32_t sessions)
{
    return within(layouts, 1, LAYOUTS) && sessions <= SESSIONS;
}

static bool drive_within(const struct show *show)
{
    return within(show->block, 512, 65536) && show->block % 512 == 0 && within(show->cylinder, 1, 65536);
}

static bool layout_within(const struct layout *layout)
{
    return layout->seek <= 1000000 && layout->track <= layout->seek
        && within(layout->block, 1, 1000000) && layout->rotation <= 1000000;
}

static bool session_within(const struct session *session, uint32_t layouts)
{
    return within(session->rate, 1, 100000000) && within(session->cushion, 1, 16777216)
        && within(session->buffer, 1, BUFFER_MOST) && session->layout < layouts;
}

/* Refusals 5, 6 and 7, of a show whose two counts are within their limits. */
static struct refusal parts_limits(const struct show *show)
{
    if (!drive_within(show))
        return refuse(NO_DRIVE, 0);
    for (uint32_t i = 0; i < show->layouts; i++)
        if (!layout_within(&show->layout[i]))
            return refuse(NO_LAYOUT, i);
    for (uint32_t i = 0; i < show->sessions; i++)
        if (!session_within(&show->session[i], show->layouts))
            return refuse(NO_LIMITS, i);
    return allow();
}

struct refusal show_limits(const struct show *show)
{
    if (!counts_within(show->layouts, show->sessions))
        return refuse(NO_COUNTS, 0);
    return parts_limits(show);
}

/* The show's counts and the drive are already in it; `from` is where the layouts begin. */
static void get_entries(const uint8_t *from, struct show *show)
{
    for (uint32_t i = 0; i < show->layouts; i++, from += ENTRY)
        show->layout[i] = (struct layout){ get32(from), get32(from + 4), get32(from + 8), get32(from + 12) };
    for (uint32_t i = 0; i < show->sessions; i++, from += ENTRY)
        show->session[i] = (struct session){ get32(from), get32(from + 4), get32(from + 8), get32(from + 12) };
}

struct refusal show_read(const uint8_t *file, size_t length, struct show *show, const uint8_t **note, size_t *note_length)
{
    if (length < TRAILER || length > FILE_MOST)
        return refuse(NO_LENGTH, 0);
    size_t before = length - TRAILER;
    const uint8_t *trailer = file + before;
    /* The rest of `found`, and so every unused place, is zero. */
    struct show found = { get32(trailer), get32(trailer + 4), get16(trailer + 8), get16(trailer + 10), { { 0 } }, { { 0 } } };
    if (!counts_within(found.layouts, found.sessions))
        return refuse(NO_COUNTS, 0);
    uint32_t to_sessions = ENTRY * found.sessions;
    uint32_t to_layouts = ENTRY * found.layouts + to_sessions;
    if (get32(trailer + 12) != to_layouts || get32(trailer + 16) != to_sessions || to_layouts > before)
        return refuse(NO_DISTANCE, 0);
    size_t rest = before - to_layouts;
    if (rest > NOTE_MOST)
        return refuse(NO_NOTE, 0);
    get_entries(file + rest, &found);
    struct refusal refusal = parts_limits(&found);
    if (refusal.number != 0)
        return refusal;
    *show = found;
    *note = file;
    *note_length = rest;
    return allow();
}

/* The layouts, the sessions and the trailer. */
static void put_entries(const struct show *show, uint8_t *to)
{
    for (const struct layout *layout = show->layout; layout < show->layout + show->layouts; layout++, to += ENTRY) {
        put32(to, layout->seek);
        put32(to + 4, layout->track);
        put32(to + 8, layout->block);
        put32(to + 12, layout->rotation);
    }
    for (const struct session *session = show->session; session < show->session + show->sessions; session++, to += ENTRY) {
        put32(to, session->rate);
        put32(to + 4, session->cushion);
        put32(to + 8, session->buffer);
        put32(to + 12, session->layout);
    }
    put32(to, show->block);
    put32(to + 4, show->cylinder);
    put16(to + 8, show->layouts);
    put16(to + 10, show->sessions);
    put32(to + 12, ENTRY * (show->layouts + show->sessions));
    put32(to + 16, ENTRY * show->sessions);
}

struct refusal show_write(const struct show *show, const uint8_t *note, size_t note_length,
                          uint8_t *buffer, size_t room, size_t *length)
{
    if (!counts_within(show->layouts, show->sessions))
        return refuse(NO_COUNTS, 0);
    if (note_length > NOTE_MOST)
        return refuse(NO_NOTE, 0);
    struct refusal refusal = parts_limits(show);
    if (refusal.number != 0)
        return refusal;
    size_t whole = note_length + ENTRY * (show->layouts + show->sessions) + TRAILER;
    if (whole > room)
        return refuse(NO_ROOM, 0);
    if (note_length > 0) /* an empty note may be a null pointer */
        memmove(buffer, note, note_length);
    put_entries(show, buffer + note_length);
    *length = whole;
    return allow();
}
