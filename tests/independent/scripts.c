/* Scripts for the program of rehearse.c, by dice: scripts SEED COUNT. A run is kept beside the script, so that what a case
 * does makes sense: it reads until it is idle, takes what is there, and is damaged where that matters. Questions stand between
 * the calls: they change nothing. */
#include "inner.h"
#include "lines.h"
#include "made.h"

#include <inttypes.h>

enum { CALLS_LEAST = 20, CALLS_MOST = 117 }; /* the last thing that a case does may take three more */

#define PICK_FROM(dice, list) (list)[dice_below(dice, sizeof(list) / sizeof((list)[0]))]

struct script {
    struct dice dice;
    struct show show;
    struct run run, saved;
    bool has_run, has_saved;
    uint32_t calls, most; /* made so far, and how many the case is to have */
};

static bool chance(struct script *s, uint64_t n)
{
    return dice_chance(&s->dice, n);
}

static uint64_t below(struct script *s, uint64_t n)
{
    return dice_below(&s->dice, n);
}

/* The session count as far as there are places; a damaged record may say more. */
static uint32_t used(const struct script *s)
{
    return s->run.show.sessions < SESSIONS ? s->run.show.sessions : SESSIONS;
}

/* The calls: each is printed and made. */

static bool call_pass(struct script *s, uint64_t d)
{
    printf("pass %" PRIu64 "\n", d);
    s->calls++;
    return run_pass(&s->run, d).number == 0;
}

static bool call_finish(struct script *s, uint64_t d)
{
    printf("finish %" PRIu64 "\n", d);
    s->calls++;
    return run_finish(&s->run, d).number == 0;
}

static bool call_take(struct script *s, uint64_t session, uint64_t n)
{
    printf("take %" PRIu64 " %" PRIu64 "\n", session, n);
    s->calls++;
    return run_take(&s->run, session, n).number == 0;
}

/* Whether a read is under way after it. */
static bool call_choose(struct script *s)
{
    int chosen = IDLE;
    puts("choose");
    s->calls++;
    return run_choose(&s->run, &chosen).number == 0 && chosen != IDLE;
}

static bool call_start(struct script *s)
{
    puts("start");
    s->calls++;
    return run_start(&s->run).number == 0;
}

/* These two change nothing. */

static void call_slack(struct script *s)
{
    puts("slack");
    s->calls++;
}

static void call_workahead(struct script *s, uint64_t session)
{
    printf("workahead %" PRIu64 "\n", session);
    s->calls++;
}

/* About the show in memory, which need not be that of the run. */
static void question(struct script *s)
{
    static const char *const lines[] = {
        "decide", "why", "load", "try 1,1,1", "try -", "try 2", "worst 0 1", "worst 1 100", "worst 15 4294967295", "write - 100", "write 6e6f 1428", "file -",
        "report 00", "explain -", "player 9 3 0 1 1 9 0 1 6", "player 9 3 0 1 1 9 0 0 6",
    };
    puts(PICK_FROM(&s->dice, lines));
}

/* Numbers for the calls. */

static uint64_t any_session(struct script *s)
{
    const uint64_t borders[] = { used(s), used(s) + 1, SESSIONS - 1, SESSIONS, UINT64_C(1) << 32, UINT64_MAX };
    return used(s) == 0 || chance(s, 8) ? PICK_FROM(&s->dice, borders) : below(s, used(s));
}

/* What the longest of a few reads may take; not more than a finish is allowed. */
static uint64_t likely_time(struct script *s)
{
    const struct layout *layout = &s->run.show.layout[below(s, LAYOUTS)];
    uint64_t time = (uint64_t)layout->seek + 2 * (uint64_t)layout->block + layout->rotation;
    return below(s, (time < 1000000 ? time : 1000000) + 1);
}

static uint64_t any_time(struct script *s)
{
    const uint64_t most = PASS_MOST;
    const uint64_t borders[] = { 0, 1, 2, most - 1, most, most + 1, most + 1, UINT64_MAX };
    if (chance(s, 2))
        return PICK_FROM(&s->dice, borders);
    return chance(s, 8) ? dice_spread(&s->dice, chance(s, 3) ? UINT64_MAX : PASS_MOST) : likely_time(s);
}

static uint64_t any_bytes(struct script *s, uint64_t session)
{
    const struct state *state = &s->run.state[session % SESSIONS];
    uint64_t held = state->put - state->got;
    const uint64_t borders[] = { 0, 1, held, held, held - 1, held + 1, held + 1, s->run.show.block, UINT64_MAX };
    if (held == 0 || held == UINT64_MAX || chance(s, 2))
        return PICK_FROM(&s->dice, borders);
    return below(s, held + 1);
}

static void any_call(struct script *s)
{
    uint64_t session = any_session(s);
    if (chance(s, 30))
        question(s);
    switch (below(s, 11)) {
    case 0: call_pass(s, any_time(s)); break;
    case 1: call_finish(s, any_time(s)); break;
    case 2: case 3: case 4: call_take(s, session, any_bytes(s, session)); break;
    case 5: case 6: call_choose(s); break;
    case 7: call_slack(s); break;
    case 8: call_start(s); break;
    default: call_workahead(s, session); break;
    }
}

/* What a case does, some calls at a time. */

static bool more(const struct script *s)
{
    return s->calls < s->most;
}

/* Reads until idle, or for some blocks. Now and then something is asked in between. */
static void read_blocks(struct script *s, uint64_t blocks)
{
    for (; blocks > 0 && more(s); blocks--) {
        if (s->run.under < 0 && !call_choose(s))
            return;
        if (chance(s, 12))
            any_call(s);
        if (!call_finish(s, likely_time(s)))
            return;
    }
}

/* Takes from some sessions and not from others, which so run full and are skipped. */
static void play(struct script *s)
{
    uint64_t taking = dice_roll(&s->dice);
    for (uint64_t turns = 1 + below(s, 6); turns > 0 && more(s); turns--) {
        for (uint32_t i = 0; i < used(s) && more(s); i++) {
            uint64_t held = s->run.state[i].put - s->run.state[i].got;
            if ((taking >> i & 1) != 0 && held > 0 && chance(s, 2))
                call_take(s, i, chance(s, 3) ? held : 1 + below(s, held));
        }
        if (chance(s, 3))
            call_pass(s, likely_time(s));
        read_blocks(s, 1 + below(s, 3));
    }
}

/* Everything that can be asked without changing the run. */
static void ask_all(struct script *s)
{
    call_slack(s);
    for (uint32_t i = 0; i < used(s) && more(s); i++)
        if (chance(s, 2))
            call_workahead(s, i);
}

/* Pokes. A field's width is 4 bytes or 8; places of 0: no index. */
struct field { const char *name; size_t at, step, width; uint32_t places; };

#define OF_SHOW(member) offsetof(struct run, show.member), 0, 4, 0
#define OF_LAYOUT(member) offsetof(struct run, show.layout[0].member), sizeof(struct layout), 4, LAYOUTS
#define OF_SESSION(member) offsetof(struct run, show.session[0].member), sizeof(struct session), 4, SESSIONS
#define OF_STATE(member) offsetof(struct run, state[0].member), sizeof(struct state), 8, SESSIONS

/* The order is that of the names below. */
static const struct field fields[] = {
    { "M", offsetof(struct run, count), 4, 4, SESSIONS }, { "O", offsetof(struct run, order), 4, 4, SESSIONS },
    { "P", OF_STATE(put) }, { "G", OF_STATE(got) }, { "C", OF_STATE(clock) },
    { "place", offsetof(struct run, place), 0, 4, 0 }, { "left", offsetof(struct run, left), 0, 4, 0 },
    { "A", OF_SHOW(block) }, { "N", OF_SHOW(cylinder) }, { "lc", OF_SHOW(layouts) }, { "sc", OF_SHOW(sessions) },
    { "s.R", OF_SESSION(rate) }, { "s.Y", OF_SESSION(cushion) }, { "s.B", OF_SESSION(buffer) },
    { "s.lay", OF_SESSION(layout) }, { "l.far", OF_LAYOUT(seek) }, { "l.one", OF_LAYOUT(track) },
    { "l.blk", OF_LAYOUT(block) }, { "l.rot", OF_LAYOUT(rotation) },
};
enum {
    FIELD_M, FIELD_O, FIELD_P, FIELD_G, FIELD_C, FIELD_PLACE, FIELD_LEFT, FIELD_A, FIELD_N, FIELD_LC, FIELD_SC, FIELD_RATE,
    FIELD_CUSHION, FIELD_BUFFER, FIELD_LAYOUT, FIELD_SEEK, FIELD_TRACK, FIELD_BLOCK, FIELD_ROTATION, FIELDS
};
_Static_assert(FIELDS == sizeof fields / sizeof fields[0], "a name for each field");

static uint64_t peek(const struct script *s, uint64_t which, uint32_t index)
{
    const struct field *field = &fields[which];
    const char *at = (const char *)&s->run + field->at + index * field->step;
    uint64_t wide;
    uint32_t narrow;
    memcpy(&narrow, at, sizeof narrow);
    if (field->width == 4)
        return narrow;
    memcpy(&wide, at, sizeof wide);
    return wide;
}

static void poke(struct script *s, uint64_t which, uint32_t index, uint64_t value)
{
    const struct field *field = &fields[which];
    char *at = (char *)&s->run + field->at + index * field->step;
    uint32_t narrow = (uint32_t)value;
    if (field->width == 4)
        value = narrow;
    memcpy(at, field->width == 4 ? (const void *)&narrow : (const void *)&value, field->width);
    if (field->places > 0)
        printf("poke %s %" PRIu32 " %" PRIu64 "\n", field->name, index, value);
    else
        printf("poke %s %" PRIu64 "\n", field->name, value);
}

static void poke_started(struct script *s, uint32_t value)
{
    s->run.started = value;
    printf("poke started %" PRIu32 "\n", value);
}

static void poke_under(struct script *s, int64_t value)
{
    s->run.under = value;
    printf("poke under %" PRId64 "\n", value);
}

/* Near the value that is there, or any. */
static uint64_t poke_value(struct script *s, uint64_t which, uint32_t index)
{
    uint64_t now = peek(s, which, index), block = s->run.show.block;
    const uint64_t borders[] = { PUT_MOST, PUT_MOST - block, PUT_MOST + 1, PUT_MOST * MILLION, UINT64_MAX, UINT64_C(1) << 63 };
    switch (below(s, 9)) {
    case 0: case 1: return now + 1;
    case 2: return now - 1;
    case 3: return below(s, 4);
    case 4: return now + block;
    case 5: return now / 2;
    case 6: return fields[which].width == 8 ? PICK_FROM(&s->dice, borders) : made_border(&s->dice);
    case 7: return chance(s, 2) ? 2 * now : now + 512;
    default: return dice_spread(&s->dice, UINT64_MAX);
    }
}

/* Mostly a place in use; each kind of field as often as any other. */
static void any_poke(struct script *s)
{
    uint64_t which = below(s, FIELDS + 2);
    if (which == FIELDS) {
        poke_started(s, (uint32_t)below(s, 2));
    } else if (which == FIELDS + 1) {
        const int64_t values[] = { -1, 0, 1, s->run.order[s->run.place % SESSIONS], SESSIONS, UINT32_MAX, INT32_MAX };
        poke_under(s, PICK_FROM(&s->dice, values));
    } else {
        uint32_t places = fields[which].places;
        uint32_t likely = places == LAYOUTS ? s->run.show.layouts : used(s);
        bool in_use = likely > 0 && likely < places && !chance(s, 8);
        uint32_t index = places == 0 ? 0 : (uint32_t)below(s, in_use ? likely : places);
        poke(s, which, index, poke_value(s, which, index));
    }
}

/* 1 to the count, which may be poked to 0. */
static uint64_t some_of(struct script *s, uint64_t session)
{
    uint32_t count = s->run.count[session];
    return count == 0 ? 1 : 1 + below(s, count);
}

/* Pokes that change several fields together; most leave the record sound. The show is not empty. */
static void sound_poke(struct script *s)
{
    uint32_t n = used(s), i = (uint32_t)below(s, n), j = (uint32_t)below(s, n);
    uint64_t one = s->run.order[i], other = s->run.order[j];
    switch (below(s, 6)) {
    case 0: /* two sessions change places in the order */
        poke(s, FIELD_O, i, other);
        poke(s, FIELD_O, j, one);
        break;
    case 1: /* the cycle stands elsewhere, with some of the count left or one more than all */
        poke(s, FIELD_PLACE, 0, i);
        poke(s, FIELD_LEFT, 0, chance(s, 6) ? (uint64_t)s->run.count[one % SESSIONS] + 1 : some_of(s, one % SESSIONS));
        break;
    case 2: /* a read is under way at the place, which may have no room */
        poke_under(s, s->run.order[s->run.place % SESSIONS]);
        break;
    case 3: /* all the way taken, the clock on its border or one past it */
        poke_started(s, 1);
        poke(s, FIELD_G, i, s->run.state[i].put);
        poke(s, FIELD_C, i, s->run.state[i].put * MILLION + (chance(s, 4) ? 1 : 0));
        break;
    case 4: /* a full buffer, or a byte too much */
        poke(s, FIELD_P, i, s->run.state[i].got + s->run.show.session[i].buffer + (chance(s, 3) ? 1 : 0));
        break;
    default: /* room for a block, exactly or not quite */
        poke(s, FIELD_P, i, s->run.state[i].got + s->run.show.session[i].buffer - s->run.show.block + (chance(s, 3) ? 1 : 0));
        break;
    }
}

/* P of one session, or of all, near its limit and G with it, so that the record stays sound; then some calls. */
static void near_limit(struct script *s)
{
    uint64_t block = s->run.show.block;
    const uint64_t before[] = { 0, 1, block - 1, block, block, block + 1, 2 * block, 3 * block - 1 };
    bool all = chance(s, 2);
    uint32_t only = s->run.order[s->run.place % SESSIONS] % SESSIONS;
    if (s->run.started != 1)
        poke_started(s, 1);
    for (uint32_t i = 0; i < used(s); i++) {
        if (!all && i != only)
            continue;
        uint64_t put = PUT_MOST - PICK_FROM(&s->dice, before);
        uint64_t room = s->run.show.session[i].buffer;
        uint64_t got = put - below(s, (chance(s, 4) || room <= block ? room : room - block) + 1);
        poke(s, FIELD_P, i, put);
        poke(s, FIELD_G, i, got);
        poke(s, FIELD_C, i, chance(s, 3) ? got * MILLION : got * MILLION - dice_spread(&s->dice, got * MILLION));
    }
    for (uint64_t calls = 1 + below(s, 3); calls > 0 && more(s); calls--) {
        if (chance(s, 2))
            any_call(s);
        read_blocks(s, 1 + below(s, 2));
    }
    if (chance(s, 2))
        ask_all(s);
}

static void save(struct script *s)
{
    puts("save");
    s->saved = s->run;
    s->has_saved = true;
}

static void back(struct script *s)
{
    puts("back");
    s->run = s->saved;
    s->has_run = true;
}

/* Whether the numbers of the show in the record can be reckoned with; not the whole test of the record. */
static bool can_reckon(const struct script *s)
{
    return used(s) > 0 && show_limits(&s->run.show).number == 0 && counts_hold(&s->run.show, s->run.count);
}

/* Workaheads that are each just what the reads up to the session's own take, so that the slack is 0 or off by 1. */
static void slack_border(struct script *s)
{
    uint64_t reads = 0;
    uint32_t off = (uint32_t)below(s, 2 * (uint64_t)used(s)); /* in half of the cases none is */
    if (!can_reckon(s) || s->run.started != 0)
        return;
    if (s->run.under >= 0)
        poke_under(s, -1);
    for (uint32_t i = 0; i < used(s); i++) {
        const struct session *session = &s->run.show.session[i];
        reads += worst_time(&s->run.show, i, s->run.count[i]);
        uint64_t put = session->cushion + (reads * session->rate + MILLION - 1) / MILLION;
        poke(s, FIELD_P, i, put - (i == off ? 1 : 0));
    }
    call_slack(s);
    call_start(s);
    call_workahead(s, any_session(s));
}

/* The longest seek of the first session's layout, so changed that the round divides what a session's count brings in it. */
static uint64_t divide_round(struct script *s, uint64_t brought)
{
    const struct show *show = &s->run.show;
    uint64_t round = 0, sharing = 0;
    uint32_t layout = show->session[0].layout;
    for (uint32_t i = 0; i < used(s); i++) {
        round += worst_time(show, i, s->run.count[i]);
        sharing += show->session[i].layout == layout ? 1 : 0;
    }
    uint64_t seek = show->layout[layout].seek;
    for (; brought % round != 0 && seek < 1000000; seek++)
        round += sharing;
    poke(s, FIELD_SEEK, layout, seek);
    return round;
}

/* Rates just low enough for the counts, and one at which they come out even where that can be: then no set. */
static void rate_border(struct script *s)
{
    if (!can_reckon(s))
        return;
    uint32_t even = (uint32_t)below(s, used(s));
    uint64_t block = s->run.show.block * MILLION;
    uint64_t round = divide_round(s, s->run.count[even] * block);
    for (uint32_t i = 0; i < used(s); i++) {
        uint64_t rate = (s->run.count[i] * block - (i == even ? 0 : 1)) / round;
        poke(s, FIELD_RATE, i, rate < 1 ? 1 : rate > 100000000 ? 100000000 : rate);
    }
    any_call(s);
    poke(s, FIELD_RATE, even, s->run.show.session[even].rate - UINT64_C(1));
    any_call(s);
}

/* One session with R = 2^26 and L = 2^38 or a little more: R x L is 2^64 and looks small in 64 bits. */
static void wrap_border(struct script *s)
{
    static const struct { uint32_t which, value; } pokes[] = {
        { FIELD_SC, 1 }, { FIELD_LC, 1 }, { FIELD_A, 512 }, { FIELD_N, 65536 }, { FIELD_TRACK, 0 }, { FIELD_BLOCK, 1000000 },
        { FIELD_ROTATION, 0 }, { FIELD_RATE, 67108864 }, { FIELD_CUSHION, 1 }, { FIELD_BUFFER, BUFFER_MOST }, { FIELD_LAYOUT, 0 },
        { FIELD_M, 274877 }, { FIELD_O, 0 }, { FIELD_PLACE, 0 }, { FIELD_LEFT, 1 }, { FIELD_P, 0 }, { FIELD_G, 0 }, { FIELD_C, 0 },
    };
    for (size_t i = 0; i < sizeof pokes / sizeof pokes[0]; i++)
        poke(s, pokes[i].which, 0, pokes[i].value);
    poke(s, FIELD_SEEK, 0, 906944 + below(s, 3));
    poke_under(s, -1);
    any_call(s);
    poke(s, FIELD_RATE, 0, 1 + below(s, 600)); /* sound up to some 512 */
    any_call(s);
}

/* Numbers that come out even, between a save and a back; now and then the run goes on with them. */
static void border(struct script *s)
{
    save(s);
    switch (below(s, 5)) {
    case 0: case 1: slack_border(s); break;
    case 2: case 3: rate_border(s); break;
    default: wrap_border(s); break;
    }
    if (!chance(s, 6))
        back(s);
}

/* Damage between a save and a back. What is poked may be poked again after the first calls. */
static void damage(struct script *s)
{
    save(s);
    for (uint64_t rounds = 1 + below(s, 3); rounds > 0; rounds--) {
        for (uint64_t pokes = chance(s, 3) ? 2 + below(s, 2) : 1; pokes > 0; pokes--) {
            if (used(s) > 0 && chance(s, 3))
                sound_poke(s);
            else
                any_poke(s);
        }
        for (uint64_t calls = 1 + below(s, 5); calls > 0 && more(s); calls--)
            any_call(s);
    }
    back(s);
}

/* Buffers full by pokes: a start has its slack without some tens of reads. Not while a read is under way. */
static void fill_buffers(struct script *s)
{
    uint64_t block = s->run.show.block;
    if (s->run.started != 0 || s->run.under >= 0 || block == 0)
        return;
    for (uint32_t i = 0; i < used(s); i++)
        poke(s, FIELD_P, i, s->run.show.session[i].buffer / block * block);
}

/* Opening. */

static void print_file(struct script *s, const uint8_t *file, size_t length)
{
    printf("show ");
    made_hex(file, length, chance(s, 60));
    putchar('\n');
}

static bool call_open(struct script *s)
{
    if (chance(s, 10))
        question(s);
    puts("open");
    s->calls++;
    s->has_run = run_open(&s->show, &s->run).number == 0;
    return s->has_run;
}

static void junk(struct script *s)
{
    puts("junk");
    for (uint32_t i = s->show.layouts; i < LAYOUTS; i++)
        s->show.layout[i] = (struct layout){ 9, 99, 0, 5 };
    for (uint32_t i = s->show.sessions; i < SESSIONS; i++)
        s->show.session[i] = (struct session){ 0, 0, 0, 77 };
}

/* A file is read and opened; false if it is refused, by either. */
static bool open_file(struct script *s, const uint8_t *file, size_t length)
{
    const uint8_t *note;
    size_t note_length;
    print_file(s, file, length);
    if (show_read(file, length, &s->show, &note, &note_length).number != 0) {
        /* The show in memory is that of no file then, so nothing is to be opened here. */
        if (chance(s, 4))
            question(s);
        puts(chance(s, 4) ? "junk\nopen" : "open");
        s->calls++;
        s->has_run = false;
        return false;
    }
    if (chance(s, 3))
        junk(s);
    return call_open(s);
}

/* A show as it stands in memory, unused places too. */
static bool open_memory(struct script *s, const struct show *show)
{
    printf("memory");
    print_show(' ', show);
    putchar('\n');
    s->show = *show;
    return call_open(s);
}

/* A show of any kind: in memory, or its file whole or damaged. */
static bool open_any(struct script *s)
{
    struct show show;
    uint8_t file[MADE_FILE_MOST], note[MADE_NOTE_MOST];
    if (chance(s, 2))
        return open_file(s, file, made_file(&s->dice, file));
    made_show(&s->dice, &show);
    if (chance(s, 3))
        return open_memory(s, &show);
    size_t note_length = chance(s, 3) ? made_note(&s->dice, false, note) : 0;
    size_t length = made_bytes(&show, note, note_length, file);
    return open_file(s, file, chance(s, 3) ? made_damage(&s->dice, file, length) : length);
}

static bool open_small(struct script *s, bool empty)
{
    struct show show;
    uint8_t file[MADE_FILE_MOST];
    made_small_show(&s->dice, &show);
    if (empty)
        show.sessions = 0;
    if (chance(s, 5))
        return open_memory(s, &show);
    return open_file(s, file, made_bytes(&show, NULL, 0, file));
}

/* Opens until there is a record, with shows of any kind first in half of the cases. */
static void open_some(struct script *s)
{
    for (uint32_t tries = 0; tries < 4 && chance(s, 2); tries++)
        if (open_any(s))
            return;
    while (!open_small(s, chance(s, 25)))
        ;
}

/* Opened again, the same show or another; a record that was remembered can be put back after a refusal. */
static void open_again(struct script *s)
{
    if (chance(s, 2) && s->has_saved) {
        if (!open_any(s) || chance(s, 2))
            back(s);
    } else {
        open_some(s);
    }
}

/* One thing after the other, by where the run stands. */
static void step(struct script *s)
{
    uint64_t kind = below(s, 100);
    if (kind < 42) {
        damage(s);
    } else if (kind < 58) {
        any_call(s);
    } else if (kind < 61) {
        if (used(s) == 0 || chance(s, 3))
            ask_all(s);
        else
            border(s);
    } else if (kind < 64 && used(s) > 0) {
        save(s);
        near_limit(s);
        if (!chance(s, 10))
            back(s);
    } else if (kind < 67) {
        open_again(s);
    } else if (s->run.started == 1) {
        play(s);
    } else if (kind < 82) {
        read_blocks(s, 1 + below(s, 20));
    } else if (kind < 89) {
        call_start(s);
    } else {
        fill_buffers(s);
        call_start(s);
    }
}

/* Lines that are none, each for another reason; the long ones are made below. */
static const char *const bad_lines[] = {
    "rewind", "Choose", "choose 1", "start now", "slack 0", "pass", "pass x", "pass -1", "pass +1", "pass 1 ", " pass 1", "pass  1",
    "pass 18446744073709551616", "pass 99999999999999999999", "pass 1.0", "pass 0x10", "pass 1,0", "pass\t1", "finish", "finish 1 2",
    "finish 18446744073709551616", "take 0", "take 0 1 2", "take 0 1 2 3 4 5", "take 0 -1", "take 18446744073709551616 1", "take x 1",
    "workahead", "workahead -1", "workahead 0 0", "poke", "poke P", "poke P 0", "poke P 16 1", "poke P 0 1 2", "poke started 2",
    "poke started", "poke started 0 1", "poke M 0 4294967296", "poke O 16 0", "poke P 0 18446744073709551616", "poke Q 0 1",
    "poke l.far 8 0", "poke l.far 0 4294967296", "poke s.R 16 1", "poke s.R 1", "poke under -2", "poke under 4294967296",
    "poke under 0 1", "poke place 4294967296", "poke place -1", "poke sc 0 1", "poke p 0 1", "poke A 4294967296", "", " ", "show",
    "show 0", "show 0g", "show -- ", "show --", "show 00 00", "opts", "opts base", "policy", "policy first", "policy fixed now",
    "memory", "memory 1,2,3,4", "memory -", "memory 0", "decide 1", "why 0", "load -", "worst", "worst 0", "worst 0 1 2",
    "worst -1 1", "worst 0 4294967296", "worst 18446744073709551616 1", "try", "try 1 1", "try 1,", "try ,1", "try 1,,1",
    "try 4294967296", "try -,1", "try 1;1", "try 1,1,1,1,1,1,1,1,1,1,1,1,1,1,1,1,1", "write", "write -", "write 9",
    "write - 4097", "write 0 9", "write - -1", "write - 1 1", "file", "file 0", "file 0g", "file - -", "report", "report 0",
    "report --", "explain", "explain 0x", "explain - 1", "player", "player 1 2 3 4 5 6 7 1", "player 1 2 3 4 5 6 7 1 9 9",
    "player 1 2 3 4 5 6 7 2 9", "player 1 2 3 4 5 4294967296 7 1 9", "player 18446744073709551616 2 3 4 5 6 7 1 9",
    "player 1 2 3 4 5 6 7 1 -", "junk 1", "open 1", "save 1", "back 1", "end 1", "case", "case a b", "cases a", "CASE a",
    "choose\r", "end ",
};

/* Lines that come where they can do nothing: in a case that has not come so far yet, or after an end. */
static const char *const early_lines[] = {
    "junk", "open", "choose", "slack", "start", "pass 1", "finish 1", "take 0 0", "workahead 0", "poke A 512", "poke under -1",
    "save", "back", "decide", "why", "load", "worst 0 1", "try 1", "write - 9", "file -\ndecide", "end\ndecide", "end\nfile -",
    "end\nplayer 1 1 1 1 1 1 1 1 1", "show -\ndecide\nchoose", "show -\nopen\nchoose", "show -\nopen\nsave",
    "show -\njunk\nopen\nback", "end\nchoose", "end\nend", "end\n",
};

static void bad_line(struct script *s, uint64_t seed, uint64_t which)
{
    if (chance(s, 4)) {
        printf("case c%" PRIu64 "-%" PRIu64 "-early\n%s\n", seed, which, PICK_FROM(&s->dice, early_lines));
    } else if (!chance(s, 40)) {
        puts(PICK_FROM(&s->dice, bad_lines));
    } else { /* a byte too long, by zeros before a number, which are allowed */
        printf("pass ");
        for (uint32_t i = 0; i < LINE_MOST - 5; i++)
            putchar('0');
        puts("1");
    }
    for (uint64_t passed_over = below(s, 4); passed_over > 0; passed_over--)
        puts(chance(s, 2) ? "choose" : "pass 1");
}

static void print_case(struct script *s, uint64_t seed, uint64_t which)
{
    s->has_run = s->has_saved = false;
    s->calls = 0;
    s->most = dice_pick(&s->dice, CALLS_LEAST, CALLS_MOST);
    printf("case c%" PRIu64 "-%" PRIu64 "\n", seed, which);
    if (chance(s, 9))
        puts("policy fixed");
    open_some(s);
    while (more(s))
        step(s);
    if (chance(s, 20))
        bad_line(s, seed, which);
    if (!chance(s, 40)) /* the next case ends it, too */
        puts("end");
}

static bool argument(const char *text, uint64_t *value)
{
    return number((struct word){ text, strlen(text) }, UINT64_MAX, value);
}

int main(int count, char **arguments)
{
    static struct script script;
    uint64_t seed, cases;
    if (count != 3 || !argument(arguments[1], &seed) || !argument(arguments[2], &cases)) {
        fprintf(stderr, "scripts SEED COUNT\n");
        return 2;
    }
    script.dice.state = seed;
    for (uint64_t i = 0; i < cases; i++)
        print_case(&script, seed, i);
    return fflush(stdout) == 0 ? 0 : 1;
}
