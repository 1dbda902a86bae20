/* The set of counts: whether there is one, the smallest, and why there is none. */
#include "inner.h"

bool counts_hold(const struct show *show, const uint32_t count[SESSIONS])
{
    uint64_t round = 0;
    for (uint32_t i = 0; i < show->sessions; i++) {
        if (count[i] == 0 || buffer_needed(show, i, count[i]) > show->session[i].buffer)
            return false;
        round += worst_time(show, i, count[i]);
    }
    /* A count that fits has M x A below 2^30, so the left side needs 64 bits; R x L can need more. */
    uint64_t block = show->block * MILLION;
    for (uint32_t i = 0; i < show->sessions; i++)
        if (count[i] * block <= (unsigned __int128)show->session[i].rate * round)
            return false;
    return true;
}

struct refusal show_try(const struct show *show, const uint32_t count[SESSIONS], struct trial *trial)
{
    struct refusal refusal = show_limits(show);
    if (refusal.number != 0)
        return refusal;
    *trial = (struct trial){ counts_hold(show, count), { 0 }, 0 };
    for (uint32_t i = 0; i < show->sessions; i++) {
        trial->time[i] = worst_time(show, i, count[i]); /* below 2^54 */
        trial->round += trial->time[i];
    }
    return allow();
}

struct refusal show_worst(const struct show *show, uint64_t session, uint32_t n, uint64_t *time)
{
    struct refusal refusal = show_limits(show);
    if (refusal.number != 0)
        return refusal;
    if (session >= show->sessions)
        return refuse(NO_SESSION, 0);
    *time = worst_time(show, (uint32_t)session, n);
    return allow();
}

/* The first round time over which some session's smallest count no longer fits its buffer. A count is ahead over t if
 * M x A x 1,000,000 > R x t, so the largest that fits is ahead over every t below M x A x 1,000,000 / R rounded up. */
static uint64_t round_end(const struct show *show, bool own_buffers)
{
    uint64_t end = UINT64_MAX;
    for (uint32_t i = 0; i < show->sessions; i++) {
        const struct session *session = &show->session[i];
        uint64_t buffer = own_buffers ? session->buffer : BUFFER_MOST;
        uint64_t taken = (uint64_t)session->cushion + show->block;
        uint64_t most = buffer > taken ? (buffer - taken) / show->block : 0;
        uint64_t first = (most * show->block * MILLION + session->rate - 1) / session->rate;
        if (first < end)
            end = first;
    }
    return end;
}

/* A session in the search. It is ahead while R x t is below `covered`; its count stays on its cylinders up to `full`. */
struct search {
    uint64_t rate, covered, count, cylinders, full, block, track;
};

/* Counts of 1; hands back their round. */
static uint64_t search_begin(const struct show *show, struct search search[SESSIONS])
{
    uint64_t round = 0;
    for (uint32_t i = 0; i < show->sessions; i++) {
        const struct session *session = &show->session[i];
        const struct layout *layout = &show->layout[session->layout];
        search[i] = (struct search){
            session->rate, show->block * MILLION, 1, 1, show->cylinder, layout->block, layout->track
        };
        round += worst_time(show, i, 1);
    }
    return round;
}

/* One turn: every count becomes the smallest that is ahead over the round; hands back by how much the round has grown.
 * Counts never fall from turn to turn, so one that is still ahead is left, and most turns divide for few sessions. */
static uint64_t search_turn(const struct show *show, struct search search[SESSIONS], uint64_t round)
{
    const uint64_t block = show->block * MILLION;
    uint64_t grown = 0;
    for (struct search *s = search; s < search + show->sessions; s++) {
        uint64_t need = s->rate * round; /* the round is before its end, so this is below 2^30 x 1,000,000 */
        if (need < s->covered)
            continue;
        uint64_t count = need / block + 1;
        s->covered = count * block;
        grown += (count - s->count) * s->block;
        s->count = count;
        if (count > s->full) {
            uint64_t cylinders = (count - 1) / show->cylinder + 1;
            grown += (cylinders - s->cylinders) * s->track;
            s->cylinders = cylinders;
            s->full = cylinders * show->cylinder;
        }
    }
    return grown;
}

/* The smallest set, if it is reached before the round's end; otherwise the decision stays as it was. */
static bool smallest_set(const struct show *show, uint64_t end, struct decision *decision)
{
    struct search search[SESSIONS];
    uint64_t round = search_begin(show, search);
    uint64_t grown;
    do {
        if (round >= end)
            return false;
        grown = search_turn(show, search, round);
        round += grown;
    } while (grown > 0);
    for (uint32_t i = 0; i < SESSIONS; i++) {
        bool used = i < show->sessions;
        decision->count[i] = used ? (uint32_t)search[i].count : 0;
        decision->time[i] = used ? worst_time(show, i, decision->count[i]) : 0;
    }
    decision->round = round;
    return true;
}

struct refusal show_decide(const struct show *show, struct decision *decision)
{
    struct refusal refusal = show_limits(show);
    if (refusal.number != 0)
        return refusal;
    return smallest_set(show, round_end(show, true), decision) ? allow() : refuse(NO_SET, 0);
}

/* What the sessions ask of the drive, to be compared with N x A x 1,000,000. One term is below 2^63, their sum may pass 2^64. */
static unsigned __int128 asked(const struct show *show)
{
    unsigned __int128 sum = 0;
    for (uint32_t i = 0; i < show->sessions; i++) {
        const struct layout *layout = &show->layout[show->session[i].layout];
        sum += show->session[i].rate * ((uint64_t)layout->block * show->cylinder + layout->track);
    }
    return sum;
}

static uint64_t whole(const struct show *show)
{
    return show->cylinder * (show->block * MILLION);
}

struct refusal show_load(const struct show *show, uint64_t *tenths)
{
    struct refusal refusal = show_limits(show);
    if (refusal.number == 0)
        *tenths = (uint64_t)(1000 * asked(show) / whole(show));
    return refusal;
}

/* The smallest set with all buffers at their limit is the smallest set, so the show is accepted exactly if it fits. */
struct refusal show_reason(const struct show *show, struct reason *reason)
{
    struct refusal refusal = show_limits(show);
    if (refusal.number != 0)
        return refusal;
    *reason = (struct reason){ KEEPS_UP, 0, 0 };
    struct decision decision;
    if (asked(show) >= whole(show)) { /* an even hundred per cent or more */
        reason->why = OVERLOAD;
        return allow();
    }
    if (!smallest_set(show, round_end(show, false), &decision)) {
        reason->why = BEYOND;
        return allow();
    }
    for (uint32_t i = 0; i < show->sessions; i++) {
        uint64_t size = buffer_needed(show, i, decision.count[i]);
        if (size > show->session[i].buffer) {
            *reason = (struct reason){ BUFFER, i, size };
            break;
        }
    }
    return allow();
}
