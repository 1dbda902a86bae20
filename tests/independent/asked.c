/* The archive asked about a file, and compared with the rules. Arrays are lent in the midst of larger ones, which are filled first: what lies
 * around them, and what a refusal leaves, must be as it was. */
#include "asked.h"
#include "chikchiro.h"

#include <stdbool.h>
#include <string.h>

enum { AROUND = 5, LONGER = 5, ROOM = TEXT_MOST + LONGER };

/* How long an array is lent for an answer that needs so many elements: as long, up to LONGER more, or shorter. */
static size_t lent(uint64_t *shape, size_t needed)
{
    uint64_t kind = *shape % 16, by = *shape / 16 % 64;
    *shape /= 1024;
    if (kind < 10)
        return needed;
    if (kind < 15)
        return needed + by % (LONGER + 1);
    return by % needed;
}

/* A pointer to no elements may be NULL. */
#define LENT(array, length) ((length) == 0 ? NULL : (array) + AROUND)

static uint64_t answer_of(struct refusal refusal)
{
    return refusal.number + 256 * (uint64_t)refusal.place;
}

static bool told(struct tally *tally, struct refusal refusal)
{
    if (refusal.number == 0)
        return true;
    tally->no[refusal.number]++;
    return false;
}

static const char *report_differs(const uint8_t *file, size_t length, uint64_t *shape, struct tally *tally)
{
    uint8_t buffer[ROOM + 2 * AROUND], expected[ROOM + 2 * AROUND];
    char text[TEXT_MOST];
    size_t room = lent(shape, TEXT_MOST), size = 0;
    memset(buffer, 0x5a, sizeof buffer);
    memcpy(expected, buffer, sizeof buffer);
    if (room >= TEXT_MOST) {
        size = file_report(file, length, text);
        memcpy(expected + AROUND, text, size);
    } else
        tally->short_arrays++;
    if (chikchiro_report(file, length, LENT(buffer, room), room) != size)
        return "the length of the report";
    return memcmp(buffer, expected, sizeof buffer) == 0 ? NULL : "the bytes of the report";
}

static struct refusal read_show(const uint8_t *file, size_t length, struct show *show)
{
    const uint8_t *note;
    size_t note_length;
    return show_read(file, length, show, &note, &note_length);
}

/* What is decided of the show in a file. */
static struct refusal decide_file(const uint8_t *file, size_t length, struct decision *decision)
{
    struct show show;
    struct refusal refusal = read_show(file, length, &show);
    return refusal.number == 0 ? show_decide(&show, decision) : refusal;
}

struct arrays {
    uint32_t counts[SESSIONS + LONGER + 2 * AROUND];
    uint64_t times[SESSIONS + LONGER + 2 * AROUND], round[1 + LONGER + 2 * AROUND];
};

static void fill(struct arrays *arrays, const struct decision *decision)
{
    memcpy(arrays->counts + AROUND, decision->count, sizeof decision->count);
    memcpy(arrays->times + AROUND, decision->time, sizeof decision->time);
    arrays->round[AROUND] = decision->round;
}

static const char *verdict_differs(const uint8_t *file, size_t length, uint64_t *shape, struct tally *tally)
{
    struct arrays arrays, expected;
    struct decision decision;
    struct refusal refusal = { 16, 0 };
    size_t counts = lent(shape, SESSIONS), times = lent(shape, SESSIONS), round = lent(shape, 1);
    memset(&arrays, 0xa5, sizeof arrays);
    expected = arrays;
    if (counts >= SESSIONS && times >= SESSIONS && round >= 1)
        refusal = decide_file(file, length, &decision);
    if (told(tally, refusal)) {
        tally->yes++;
        fill(&expected, &decision);
    }
    uint64_t answer = chikchiro_decide(file, length, LENT(arrays.counts, counts), counts, LENT(arrays.times, times), times,
                                       LENT(arrays.round, round), round);
    if (answer != answer_of(refusal))
        return "the verdict";
    return memcmp(&arrays, &expected, sizeof arrays) == 0 ? NULL : "the counts, the times or the round's time";
}

static struct refusal reason_file(const uint8_t *file, size_t length, struct reason *reason)
{
    struct show show;
    struct refusal refusal = read_show(file, length, &show);
    return refusal.number == 0 ? show_reason(&show, reason) : refusal;
}

static const char *reason_differs(const uint8_t *file, size_t length, uint64_t *shape, struct tally *tally)
{
    uint64_t why[3 + LONGER + 2 * AROUND], expected[3 + LONGER + 2 * AROUND];
    struct reason reason;
    struct refusal refusal = { 16, 0 };
    size_t room = lent(shape, 3);
    memset(why, 0x3c, sizeof why);
    memcpy(expected, why, sizeof why);
    if (room >= 3)
        refusal = reason_file(file, length, &reason);
    if (told(tally, refusal)) {
        tally->reason[reason.why]++;
        expected[AROUND] = reason.why;
        expected[AROUND + 1] = reason.session;
        expected[AROUND + 2] = reason.size;
    }
    if (chikchiro_reason(file, length, LENT(why, room), room) != answer_of(refusal))
        return "whether there is a reason";
    return memcmp(why, expected, sizeof why) == 0 ? NULL : "the reason";
}

const char *archive_differs(const uint8_t *file, size_t length, uint64_t shape, struct tally *tally)
{
    const char *what = report_differs(file, length, &shape, tally);
    if (what == NULL)
        what = verdict_differs(file, length, &shape, tally);
    return what != NULL ? what : reason_differs(file, length, &shape, tally);
}
