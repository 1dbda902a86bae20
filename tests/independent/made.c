/* Shows and show files by dice. No expression rolls twice unless one roll is sure to come first: C leaves open in which order
 * the values of a list or of a call are worked out, and builds would differ. */
#include "made.h"
#include "inner.h"

#include <stdio.h>
#include <string.h>

enum { ROW = 16, TRAILER = 20, RATE_MOST = 100000000, CUSHION_MOST = 16777216, AMPLE = 200000000, TURNS_MOST = 150000 };

#define PICK_FROM(dice, list) (list)[dice_below(dice, sizeof(list) / sizeof((list)[0]))]

/* splitmix64 */
uint64_t dice_roll(struct dice *dice)
{
    uint64_t z = dice->state += UINT64_C(0x9e3779b97f4a7c15);
    z = (z ^ z >> 30) * UINT64_C(0xbf58476d1ce4e5b9);
    z = (z ^ z >> 27) * UINT64_C(0x94d049bb133111eb);
    return z ^ z >> 31;
}

uint64_t dice_below(struct dice *dice, uint64_t n)
{
    return dice_roll(dice) % n;
}

uint32_t dice_pick(struct dice *dice, uint32_t least, uint32_t most)
{
    return least + (uint32_t)dice_below(dice, (uint64_t)most - least + 1);
}

bool dice_chance(struct dice *dice, uint64_t n)
{
    return dice_below(dice, n) == 0;
}

uint64_t dice_spread(struct dice *dice, uint64_t most)
{
    uint64_t value = dice_roll(dice);
    value >>= dice_below(dice, 64);
    return most == UINT64_MAX ? value : value % (most + 1);
}

static uint32_t clamp(uint64_t value, uint32_t least, uint32_t most)
{
    return value < least ? least : value > most ? most : (uint32_t)value;
}

/* The drive. */

static uint32_t made_block(struct dice *dice)
{
    static const uint32_t usual[] = { 512, 1024, 4096, 8192, 16384, 32768, 51200, 65536 };
    return dice_chance(dice, 3) ? 512 * dice_pick(dice, 1, 128) : PICK_FROM(dice, usual);
}

static uint32_t made_cylinder(struct dice *dice)
{
    static const uint32_t usual[] = { 1, 2, 3, 7, 10, 10, 16, 100, 1000, 65536 };
    return dice_chance(dice, 3) ? 1 + (uint32_t)dice_spread(dice, 65535) : PICK_FROM(dice, usual);
}

/* A drive of 500,000 to 50,000,000 bytes per second. */
static struct layout made_layout(struct dice *dice, uint32_t block)
{
    uint32_t seek = dice_chance(dice, 6) ? 0 : dice_pick(dice, 0, 30000);
    uint32_t track = dice_pick(dice, 0, seek < 3000 ? seek : 3000);
    uint64_t time = block * MILLION / dice_pick(dice, 500000, 50000000);
    return (struct layout){ seek, track, clamp(time, 1, 1000000), dice_chance(dice, 4) ? 0 : dice_pick(dice, 0, 17000) };
}

/* What the drive gives in a second to sessions of this layout alone, in bytes. */
static uint64_t full_rate(const struct show *show, const struct layout *layout)
{
    uint64_t time = (uint64_t)layout->block * show->cylinder + layout->track;
    return show->cylinder * (show->block * MILLION) / time;
}

static uint32_t made_cushion(struct dice *dice, uint32_t block)
{
    switch (dice_below(dice, 4)) {
    case 0: return 1;
    case 1: return block;
    case 2: return dice_pick(dice, 1, 4 * block);
    default: return 1 + (uint32_t)dice_spread(dice, CUSHION_MOST - 1);
    }
}

static uint32_t made_buffer(struct dice *dice)
{
    switch (dice_below(dice, 5)) {
    case 0: return BUFFER_MOST;
    case 1: return dice_pick(dice, 1000000, AMPLE);
    case 2: return 1 + (uint32_t)dice_spread(dice, BUFFER_MOST - 1);
    default: return AMPLE;
    }
}

/* Sessions that together load the drive by some per cent. Every place is filled: counts may still be changed. */
static void fill_sessions(struct dice *dice, struct show *show, uint32_t load)
{
    bool equal = dice_chance(dice, 2);
    bool in_turn = dice_chance(dice, 2); /* so that each layout is used */
    for (uint32_t i = 0; i < SESSIONS; i++) {
        uint32_t number = in_turn ? i % show->layouts : dice_pick(dice, 0, show->layouts - 1);
        uint64_t share = equal ? 1000 : dice_pick(dice, 1, 2000);
        uint64_t rate = full_rate(show, &show->layout[number]) * load * share / (100000 * (uint64_t)show->sessions + 1);
        uint32_t cushion = made_cushion(dice, show->block);
        show->session[i] = (struct session){ clamp(rate, 1, RATE_MOST), cushion, made_buffer(dice), number };
    }
}

static void fill_typical(struct dice *dice, struct show *show)
{
    show->block = made_block(dice);
    show->cylinder = made_cylinder(dice);
    show->layouts = dice_chance(dice, 2) ? 1 : dice_pick(dice, 1, LAYOUTS);
    show->sessions = dice_pick(dice, 1, SESSIONS);
    for (uint32_t i = 0; i < LAYOUTS; i++)
        show->layout[i] = made_layout(dice, show->block);
    fill_sessions(dice, show, dice_pick(dice, 10, 95));
}

/* A layout with small seeks whose time per block, its part of the one-track seek included, divides A x 1,000,000: the
 * drive's whole load can then be met exactly. 512,000,000 is 2^15 x 5^6. */
static struct layout even_layout(struct dice *dice, const struct show *show)
{
    uint32_t time = 1;
    for (uint64_t twos = dice_pick(dice, 4, 12); twos > 0; twos--)
        time *= 2;
    for (uint64_t fives = dice_below(dice, 4); fives > 0; fives--)
        time *= 5;
    uint32_t part = dice_chance(dice, 2) || show->cylinder > 1000 ? 0 : dice_pick(dice, 0, time < 40 ? time - 1 : 40);
    uint32_t track = part * show->cylinder;
    uint32_t seek = track + (uint32_t)dice_spread(dice, 3000);
    return (struct layout){ seek, track, time - part, (uint32_t)dice_spread(dice, 500) };
}

/* By how many bytes per second the last rate is off from a full drive. */
static int64_t made_offset(struct dice *dice)
{
    switch (dice_below(dice, 4)) {
    case 0: return 0;
    case 1: return (int64_t)dice_below(dice, 5) - 2;
    default: return (int64_t)dice_below(dice, 2001) - 1000;
    }
}

/* Rates of a full drive: each but the last takes a part of what remains, the last takes the rest. */
static void fill_rates(struct dice *dice, struct show *show)
{
    uint64_t rest = show->cylinder * (show->block * MILLION);
    uint32_t last = show->sessions - 1;
    const struct layout *end = &show->layout[show->session[last].layout];
    uint64_t end_time = (uint64_t)end->block * show->cylinder + end->track;
    uint64_t step = end_time / show->cylinder; /* rates are multiples of it, so that the rest divides where it can */
    for (uint32_t i = 0; i < last; i++) {
        const struct layout *layout = &show->layout[show->session[i].layout];
        uint64_t time = (uint64_t)layout->block * show->cylinder + layout->track;
        uint64_t rate = rest / time / (last - i + 1);
        rate = rate > 8 && dice_chance(dice, 2) ? rate / 2 + dice_below(dice, rate) : rate;
        rate = rate > step ? rate / step * step : rate;
        show->session[i].rate = clamp(rate, 1, RATE_MOST);
        rest -= rest > show->session[i].rate * time ? show->session[i].rate * time : rest;
    }
    int64_t rate = (int64_t)(rest / end_time) + made_offset(dice);
    show->session[last].rate = rate < 1 ? 1 : clamp((uint64_t)rate, 1, RATE_MOST);
}

static void fill_saturated(struct dice *dice, struct show *show)
{
    show->block = 512 * dice_pick(dice, 16, 128);
    show->cylinder = made_cylinder(dice);
    show->layouts = dice_pick(dice, 1, 3);
    show->sessions = dice_chance(dice, 4) ? dice_pick(dice, 1, SESSIONS) : dice_pick(dice, 2, 8);
    bool even = !dice_chance(dice, 3);
    for (uint32_t i = 0; i < LAYOUTS; i++)
        show->layout[i] = even ? even_layout(dice, show) : made_layout(dice, show->block);
    fill_sessions(dice, show, 50);
    bool limit = dice_chance(dice, 2);
    for (uint32_t i = 0; i < SESSIONS; i++) {
        show->session[i].cushion = dice_chance(dice, 2) ? 1 : show->session[i].cushion;
        show->session[i].buffer = limit ? BUFFER_MOST : show->session[i].buffer;
    }
    fill_rates(dice, show);
}

/* p2 to p7 of the rules. */
static void fill_printed(struct dice *dice, struct show *show)
{
    static const uint32_t sessions[] = { 1, 3, 2, 9, 10, 10 };
    uint64_t which = dice_below(dice, 6);
    show->block = 51200;
    show->cylinder = 10;
    show->layouts = 1;
    show->sessions = sessions[which];
    for (uint32_t i = 0; i < LAYOUTS; i++)
        show->layout[i] = (struct layout){ which == 2 ? 28000 : 20000, which < 3 ? 2000 : 0, 10000, 5000 };
    for (uint32_t i = 0; i < SESSIONS; i++)
        show->session[i] = (struct session){ 512000, 1, AMPLE, 0 };
    if (which == 0)
        show->session[0].buffer = dice_pick(dice, 102400, 102401);
    for (uint32_t i = 0; which == 3 && i < SESSIONS; i++)
        show->session[i].buffer = dice_pick(dice, 0, 40) == 0 ? 1484800 : 1484801;
    if (which == 5)
        show->session[9].rate = 506880;
}

/* Small numbers; rates such that the drive is neither idle nor far too slow. */
static void fill_few(struct dice *dice, struct show *show)
{
    show->block = 512 * dice_pick(dice, 1, 2);
    show->cylinder = dice_pick(dice, 1, 4);
    show->layouts = dice_pick(dice, 1, 3);
    show->sessions = dice_pick(dice, 0, 4);
    for (uint32_t i = 0; i < LAYOUTS; i++) {
        uint32_t seek = dice_pick(dice, 0, 3);
        uint32_t track = dice_pick(dice, 0, seek);
        uint32_t block = dice_pick(dice, 1, 4);
        show->layout[i] = (struct layout){ seek, track, block, dice_pick(dice, 0, 2) };
    }
    for (uint32_t i = 0; i < SESSIONS; i++) {
        uint32_t rate = dice_chance(dice, 4) ? dice_pick(dice, 1, 3) : 1000000 * dice_pick(dice, 1, 100);
        uint32_t cushion = dice_pick(dice, 1, 3);
        uint32_t buffer = dice_pick(dice, 1, 24 * show->block);
        show->session[i] = (struct session){ rate, cushion, buffer, dice_pick(dice, 0, show->layouts - 1) };
    }
}

/* A field of a show with its limits. */
struct spot { uint32_t *field; uint32_t least, most; };

static struct spot drive_spot(struct show *show, uint64_t which)
{
    switch (which) {
    case 0: return (struct spot){ &show->block, 512, 65536 };
    case 1: return (struct spot){ &show->cylinder, 1, 65536 };
    case 2: return (struct spot){ &show->layouts, 1, LAYOUTS };
    default: return (struct spot){ &show->sessions, 0, SESSIONS };
    }
}

static struct spot layout_spot(struct layout *layout, uint64_t which)
{
    switch (which) {
    case 0: return (struct spot){ &layout->seek, 0, 1000000 };
    case 1: return (struct spot){ &layout->track, 0, layout->seek };
    case 2: return (struct spot){ &layout->block, 1, 1000000 };
    default: return (struct spot){ &layout->rotation, 0, 1000000 };
    }
}

static struct spot session_spot(struct session *session, uint32_t layouts, uint64_t which)
{
    switch (which) {
    case 0: return (struct spot){ &session->rate, 1, RATE_MOST };
    case 1: return (struct spot){ &session->cushion, 1, CUSHION_MOST };
    case 2: return (struct spot){ &session->buffer, 1, BUFFER_MOST };
    default: return (struct spot){ &session->layout, 0, layouts - 1 };
    }
}

/* Any field in use; the counts must be within their limits. */
static struct spot any_spot(struct dice *dice, struct show *show)
{
    uint64_t row = dice_below(dice, 1 + show->layouts + show->sessions);
    uint64_t which = dice_below(dice, 4);
    if (row == 0)
        return drive_spot(show, which);
    if (row <= show->layouts)
        return layout_spot(&show->layout[row - 1], which);
    return session_spot(&show->session[row - 1 - show->layouts], show->layouts, which);
}

static uint32_t inside_border(struct dice *dice, struct spot spot)
{
    uint32_t near = spot.most - spot.least < 1000 ? spot.most - spot.least : 1000;
    return dice_chance(dice, 3) ? spot.least + dice_pick(dice, 0, near) : dice_chance(dice, 2) ? spot.least : spot.most;
}

/* One past a limit; below a least of 0 that is 2^32 - 1. */
static uint32_t past_border(struct dice *dice, struct spot spot)
{
    return dice_chance(dice, 2) ? spot.least - 1 : spot.most + 1;
}

uint32_t made_border(struct dice *dice)
{
    static const uint32_t borders[] = {
        0, 1, 2, 8, 9, 15, 16, 17, 32, 511, 512, 513, 1024, 1025, 65535, 65536, 65537, 100000000, 100000001, 1000000, 1000001,
        16777216, 16777217, 1073741824, 1073741825, 2147483647, 2147483648, 4294967279, 4294967295
    };
    return dice_chance(dice, 4) ? (uint32_t)dice_roll(dice) : PICK_FROM(dice, borders);
}

/* Fields at their least or most, and in half of the shows one that is past it. */
static void fill_limits(struct dice *dice, struct show *show)
{
    fill_typical(dice, show);
    uint32_t changes = dice_chance(dice, 3) ? 300 : dice_pick(dice, 1, 24);
    for (uint32_t i = 0; i < changes; i++) {
        struct spot spot = any_spot(dice, show);
        *spot.field = inside_border(dice, spot);
        show->block = show->block / 512 * 512; /* near a limit is not always a multiple */
    }
    for (uint32_t i = 0; i < LAYOUTS; i++) /* the longest seek may have come down */
        show->layout[i].track = clamp(show->layout[i].track, 0, show->layout[i].seek);
    for (uint32_t i = 0; i < SESSIONS; i++) /* and so may the layout count */
        show->session[i].layout %= show->layouts;
    if (dice_chance(dice, 2))
        return;
    struct spot spot = any_spot(dice, show);
    *spot.field = dice_chance(dice, 4) ? made_border(dice) : past_border(dice, spot);
}

/* Whether the search for the smallest set is over within TURNS_MOST turns, of a show within its limits. */
static bool quick(const struct show *show)
{
    uint64_t covered[SESSIONS] = { 0 }, time[SESSIONS] = { 0 };
    uint64_t end = UINT64_MAX, round = 1;
    for (uint32_t i = 0; i < show->sessions; i++) {
        uint64_t own = show->session[i].buffer * MILLION / show->session[i].rate + 1;
        end = own < end ? own : end;
    }
    for (uint32_t turn = 0; turn < TURNS_MOST; turn++) {
        uint64_t before = round;
        for (uint32_t i = 0; i < show->sessions; i++) {
            uint64_t need = show->session[i].rate * round; /* below 2^30 x 1,000,000, as the round is before its end */
            if (need < covered[i])
                continue;
            uint32_t count = (uint32_t)(need / (show->block * MILLION)) + 1;
            covered[i] = count * (show->block * MILLION);
            time[i] = worst_time(show, i, count);
        }
        round = 0;
        for (uint32_t i = 0; i < show->sessions; i++)
            round += time[i];
        if (round == before || round >= end)
            return true;
    }
    return false;
}

/* Longer seeks and smaller buffers until a decision takes some milliseconds at most. */
static void keep_quick(struct show *show)
{
    if (show_limits(show).number != 0)
        return;
    while (!quick(show)) {
        for (uint32_t i = 0; i < show->layouts; i++)
            show->layout[i].seek = clamp(4 * (uint64_t)show->layout[i].seek + 100, 0, 1000000);
        for (uint32_t i = 0; i < show->sessions; i++)
            show->session[i].buffer -= show->session[i].buffer / 2;
    }
}

/* By how much a buffer differs from what its count needs. */
static int64_t made_margin(struct dice *dice, const struct show *show)
{
    const int64_t block = show->block;
    const int64_t margins[] = { 0, 0, 0, 0, 1, block, block - 1, -1, -block };
    return PICK_FROM(dice, margins);
}

/* Buffers of just what the counts need; in some shows one or each is off by a little. */
static void tighten(struct dice *dice, struct show *show)
{
    struct decision decision;
    for (uint32_t i = 0; i < SESSIONS; i++)
        show->session[i].buffer = BUFFER_MOST;
    keep_quick(show);
    if (show_decide(show, &decision).number != 0)
        return;
    uint64_t mode = dice_below(dice, 4);
    uint32_t one = show->sessions == 0 ? 0 : dice_pick(dice, 0, show->sessions - 1);
    for (uint32_t i = 0; i < show->sessions; i++) {
        int64_t size = (int64_t)buffer_needed(show, i, decision.count[i]);
        if (mode == 0 || (mode == 1 && i == one))
            size += made_margin(dice, show);
        else if (mode == 2 && i == one)
            size -= 1;
        show->session[i].buffer = size < 1 ? 1 : clamp((uint64_t)size, 1, BUFFER_MOST);
    }
}

static void fill_junk(struct dice *dice, uint32_t junk[4], bool wanted)
{
    for (uint32_t i = 0; i < 4; i++)
        junk[i] = wanted ? made_border(dice) : 0;
}

/* Unused places hold zeros, junk, or what a used place would. */
static void fill_unused(struct dice *dice, struct show *show)
{
    uint64_t mode = dice_below(dice, 3);
    if (mode == 0)
        return;
    uint32_t junk[4] = { 0 };
    for (uint32_t i = show->layouts; i < LAYOUTS; i++) {
        fill_junk(dice, junk, mode == 1);
        show->layout[i] = (struct layout){ junk[0], junk[1], junk[2], junk[3] };
    }
    for (uint32_t i = show->sessions; i < SESSIONS; i++) {
        fill_junk(dice, junk, mode == 1);
        show->session[i] = (struct session){ junk[0], junk[1], junk[2], junk[3] };
    }
}

static void fill_tight(struct dice *dice, struct show *show)
{
    switch (dice_below(dice, 4)) {
    case 0: fill_saturated(dice, show); break;
    case 1: fill_few(dice, show); break;
    default: fill_typical(dice, show); break;
    }
    tighten(dice, show);
}

static void fill_changed(struct dice *dice, struct show *show)
{
    fill_printed(dice, show);
    if (dice_chance(dice, 4))
        return;
    struct spot spot = any_spot(dice, show);
    uint32_t value = *spot.field;
    switch (dice_below(dice, 4)) {
    case 0: *spot.field = inside_border(dice, spot); break;
    case 1: *spot.field = value / 2; break;
    case 2: *spot.field = value < spot.most ? value + 1 : value; break;
    default: *spot.field = value > spot.least ? value - 1 : value; break;
    }
}

void made_show(struct dice *dice, struct show *show)
{
    uint64_t kind = dice_below(dice, 17);
    if (kind < 3)
        fill_typical(dice, show);
    else if (kind < 6)
        fill_saturated(dice, show);
    else if (kind < 10)
        fill_tight(dice, show);
    else if (kind < 12)
        fill_limits(dice, show);
    else if (kind < 14)
        fill_few(dice, show);
    else if (kind < 16)
        fill_changed(dice, show);
    else {
        fill_typical(dice, show);
        show->sessions = 0;
    }
    keep_quick(show);
    fill_unused(dice, show);
}

/* Seeks of up to twice a block's time, so that a round has few blocks. */
static void fill_small(struct dice *dice, struct show *show)
{
    static const uint32_t sessions[] = { 1, 1, 2, 2, 2, 3, 3, 3, 3, 4, 4, 5, 6, 9, 16 };
    show->block = made_block(dice);
    show->cylinder = made_cylinder(dice);
    show->layouts = dice_pick(dice, 1, 3);
    show->sessions = PICK_FROM(dice, sessions);
    for (uint32_t i = 0; i < LAYOUTS; i++) {
        uint32_t time = dice_pick(dice, 1 + show->block / 64, 1 + show->block / 4);
        uint32_t seek = dice_chance(dice, 4) ? 0 : dice_pick(dice, 0, 2 * time);
        uint32_t track = dice_pick(dice, 0, seek / 4);
        show->layout[i] = (struct layout){ seek, track, time, dice_pick(dice, 0, time / 2) };
    }
    fill_sessions(dice, show, dice_pick(dice, 15, 75));
    for (uint32_t i = 0; i < SESSIONS; i++) {
        uint32_t cushion = dice_chance(dice, 3) ? 1 : dice_pick(dice, 1, 2 * show->block);
        show->session[i].cushion = cushion;
        show->session[i].buffer = BUFFER_MOST;
    }
}

void made_small_show(struct dice *dice, struct show *show)
{
    struct decision decision;
    do {
        fill_small(dice, show);
        keep_quick(show);
    } while (show_decide(show, &decision).number != 0);
    uint32_t blocks = dice_pick(dice, 0, 3);
    for (uint32_t i = 0; i < show->sessions; i++) {
        uint64_t more = dice_chance(dice, 2) ? 0 : dice_below(dice, 1 + (uint64_t)blocks * show->block);
        show->session[i].buffer = clamp(buffer_needed(show, i, decision.count[i]) + more, 1, BUFFER_MOST);
    }
    fill_unused(dice, show);
}

/* Files. */

static uint8_t *put_number(uint8_t *to, uint32_t value, uint32_t bytes)
{
    for (uint32_t i = 0; i < bytes; i++, value >>= 8)
        *to++ = (uint8_t)value;
    return to;
}

static uint8_t *put_row(uint8_t *to, uint32_t a, uint32_t b, uint32_t c, uint32_t d)
{
    return put_number(put_number(put_number(put_number(to, a, 4), b, 4), c, 4), d, 4);
}

size_t made_bytes(const struct show *show, const uint8_t *note, size_t note_length, uint8_t file[MADE_FILE_MOST])
{
    /* As many rows as there are places, whatever the counts say; the trailer says the counts. */
    uint32_t layouts = clamp(show->layouts, 0, LAYOUTS), sessions = clamp(show->sessions, 0, SESSIONS);
    uint8_t *to = file;
    if (note_length > 0)
        memcpy(to, note, note_length);
    to += note_length;
    for (const struct layout *l = show->layout; l < show->layout + layouts; l++)
        to = put_row(to, l->seek, l->track, l->block, l->rotation);
    for (const struct session *s = show->session; s < show->session + sessions; s++)
        to = put_row(to, s->rate, s->cushion, s->buffer, s->layout);
    to = put_number(put_number(to, show->block, 4), show->cylinder, 4);
    to = put_number(put_number(to, show->layouts, 2), show->sessions, 2);
    to = put_number(put_number(to, ROW * (layouts + sessions), 4), ROW * sessions, 4);
    return (size_t)(to - file);
}

static void fill_bytes(struct dice *dice, uint8_t *bytes, size_t length)
{
    for (size_t i = 0; i < length; i++)
        bytes[i] = (uint8_t)dice_roll(dice);
}

size_t made_note(struct dice *dice, bool too_long, uint8_t note[MADE_NOTE_MOST])
{
    static const uint32_t lengths[] = { 0, 0, 0, 1, 2, 16, 20, 1023, 1024 };
    uint32_t length = dice_pick(dice, 0, 7) == 0 ? dice_pick(dice, 0, NOTE_MOST)
                    : dice_chance(dice, 3) ? dice_pick(dice, 0, 40) : PICK_FROM(dice, lengths);
    if (too_long)
        length = dice_chance(dice, 3) ? NOTE_MOST + 1 : dice_pick(dice, NOTE_MOST + 1, MADE_NOTE_MOST);
    fill_bytes(dice, note, length);
    return length;
}

/* A byte of the file, in half of the cases one of its trailer; the file is not empty. */
static size_t any_byte(struct dice *dice, size_t length)
{
    if (length >= TRAILER && dice_chance(dice, 2))
        return length - 1 - dice_below(dice, TRAILER);
    return dice_below(dice, length);
}

/* Four bytes of the trailer or of a row, counted from the end, become a border or move by 1 or 16. */
static void damage_field(struct dice *dice, uint8_t *file, size_t length)
{
    static const uint32_t moves[] = { 1, 16, 0xffffffff, 0xfffffff0, 0x10000 };
    uint64_t back = 4 * (1 + dice_below(dice, dice_chance(dice, 2) ? 5 : 5 + 4 * (LAYOUTS + SESSIONS)));
    if (back > length)
        return;
    uint8_t *at = file + length - back;
    uint32_t value = at[0] | (uint32_t)at[1] << 8 | (uint32_t)at[2] << 16 | (uint32_t)at[3] << 24;
    put_number(at, dice_chance(dice, 2) ? made_border(dice) : value + PICK_FROM(dice, moves), 4);
}

/* 1 to 40 bytes fewer or more, at the beginning or at the end. */
static size_t damage_length(struct dice *dice, uint8_t *file, size_t length)
{
    size_t change = dice_pick(dice, 1, 40);
    bool at_end = dice_chance(dice, 2);
    if (dice_chance(dice, 2)) {
        change = change < length ? change : length;
        if (!at_end)
            memmove(file, file + change, length - change);
        return length - change;
    }
    if (length + change > MADE_FILE_MOST)
        return length;
    if (!at_end)
        memmove(file + change, file, length);
    fill_bytes(dice, at_end ? file + length : file, change);
    return length + change;
}

/* Two rows change places; or the bytes before some byte come after it, as if two parts were. */
static void damage_order(struct dice *dice, uint8_t *file, size_t length)
{
    uint8_t kept[MADE_FILE_MOST];
    if (length < TRAILER + 2 * ROW)
        return;
    if (dice_chance(dice, 3)) {
        size_t first = dice_chance(dice, 2) ? length - TRAILER : dice_below(dice, length);
        memcpy(kept, file, length);
        memcpy(file, kept + first, length - first);
        memcpy(file + length - first, kept, first);
        return;
    }
    uint64_t rows = (length - TRAILER) / ROW;
    rows = rows > LAYOUTS + SESSIONS ? LAYOUTS + SESSIONS : rows;
    uint8_t *one = file + length - TRAILER - ROW * (1 + dice_below(dice, rows));
    uint8_t *other = file + length - TRAILER - ROW * (1 + dice_below(dice, rows));
    memcpy(kept, one, ROW);
    memmove(one, other, ROW);
    memcpy(other, kept, ROW);
}

size_t made_damage(struct dice *dice, uint8_t file[MADE_FILE_MOST], size_t length)
{
    static const uint8_t bytes[] = { 0, 0, 1, 255 };
    if (length == 0)
        return damage_length(dice, file, length);
    uint64_t kind = dice_below(dice, 12);
    size_t at = any_byte(dice, length);
    if (kind < 3)
        file[at] ^= (uint8_t)(1U << dice_below(dice, 8));
    else if (kind < 5)
        file[at] = dice_chance(dice, 3) ? (uint8_t)dice_roll(dice) : PICK_FROM(dice, bytes);
    else if (kind < 9)
        damage_field(dice, file, length);
    else if (kind < 11)
        return damage_length(dice, file, length);
    else
        damage_order(dice, file, length);
    return length;
}

/* Random bytes altogether; short ones often, as they are near the shortest file. */
static size_t random_file(struct dice *dice, uint8_t *file)
{
    size_t length = dice_chance(dice, 3) ? dice_below(dice, MADE_FILE_MOST + 1) : dice_below(dice, 26);
    fill_bytes(dice, file, length);
    return length;
}

size_t made_file(struct dice *dice, uint8_t file[MADE_FILE_MOST])
{
    struct show show;
    uint8_t note[MADE_NOTE_MOST];
    bool damaged = dice_chance(dice, 2);
    made_show(dice, &show);
    for (uint32_t i = 0; i < 3 && show_limits(&show).number != 0; i++) /* most are to be within their limits */
        made_show(dice, &show);
    uint64_t kind = damaged ? dice_below(dice, 16) : 16;
    if (kind == 0)
        return random_file(dice, file);
    size_t note_length = made_note(dice, kind == 1 || kind == 2, note);
    if (kind == 3) { /* the longest file, or one past it */
        show.layouts = LAYOUTS;
        show.sessions = SESSIONS;
        note_length = 1020 + dice_below(dice, 10);
        fill_bytes(dice, note, note_length);
    }
    size_t length = made_bytes(&show, note, note_length, file);
    if (kind >= 4 && kind < 16)
        for (uint64_t i = dice_chance(dice, 3) ? dice_pick(dice, 1, 4) : 1; i > 0; i--)
            length = made_damage(dice, file, length);
    return length;
}

void made_hex(const uint8_t *bytes, size_t length, bool capitals)
{
    const char *digits = capitals ? "0123456789ABCDEF" : "0123456789abcdef";
    if (length == 0)
        putchar('-');
    for (size_t i = 0; i < length; i++) {
        putchar(digits[bytes[i] >> 4]);
        putchar(digits[bytes[i] & 15]);
    }
}
