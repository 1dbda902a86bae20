/* fuzz SEED COUNT SECONDS: files changed at random, steered by coverage, each asked of the archive and compared with the rules. A file that takes
 * the rules' code along a way that no file took before is kept, and changed further. It ends after so many files, or sooner when the time is up.
 *
 * The coverage is that of the C rules, which are compiled with -fsanitize-coverage=trace-pc: the archive has none to give. */
#include "asked.h"
#include "made.h"

#include <inttypes.h>
#include <stdbool.h>
#include <stdio.h>
#include <stdlib.h>
#include <string.h>
#include <time.h>

enum { KEPT_MOST = 4096, BYTES = 1600, WAYS = 4096 };

struct sample { size_t length; uint8_t bytes[BYTES]; };

static struct sample kept[KEPT_MOST];
static uint8_t seen[WAYS], now[WAYS];
static uintptr_t last;

/* The compiler puts a call of this at every branch of the rules. A way is one branch after another. */
void __sanitizer_cov_trace_pc(void);
void __sanitizer_cov_trace_pc(void)
{
    uintptr_t here = (uintptr_t)__builtin_return_address(0);
    uintptr_t way = (here ^ last << 7) * UINT64_C(0x9e3779b97f4a7c15) >> 52;
    if (now[way] < 255)
        now[way]++;
    last = here;
}

/* How often a way was taken, roughly: once, twice, up to 4, 8, 16, 32, 128, more. */
static uint8_t roughly(uint8_t times)
{
    uint8_t bit = 0;
    for (; times > 1; times /= 2)
        bit++;
    return (uint8_t)(1u << bit);
}

/* Whether a way is new, or was never taken so often. */
static bool all_seen(void)
{
    bool old = true;
    for (size_t i = 0; i < WAYS; i++) {
        if (now[i] != 0 && (seen[i] & roughly(now[i])) == 0) {
            seen[i] |= roughly(now[i]);
            old = false;
        }
    }
    return old;
}

static void put_word(uint8_t *at, uint64_t value)
{
    for (int i = 0; i < 4; i++)
        at[i] = (uint8_t)(value >> 8 * i);
}

static uint64_t some_word(struct dice *dice)
{
    static const uint32_t words[] = {
        0, 1, 2, 9, 16, 17, 20, 255, 256, 511, 512, 1024, 65535, 65536, 65537, 1000000, 1000001, 16777216, 16777217, 100000000, 100000001,
        1073741824, 1073741825, 2147483648, 4294967295
    };
    return dice_below(dice, 4) == 0 ? dice_roll(dice) : words[dice_below(dice, sizeof words / sizeof words[0])];
}

/* Bytes taken out, or put in, at a place. */
static void shift(struct dice *dice, struct sample *sample)
{
    size_t at = dice_below(dice, sample->length + 1), by = 1 + dice_below(dice, dice_below(dice, 2) ? 4 : 32);
    uint8_t *from = sample->bytes + at;
    if (dice_below(dice, 2) && sample->length + by <= BYTES) {
        memmove(from + by, from, sample->length - at);
        for (size_t i = 0; i < by; i++)
            from[i] = (uint8_t)dice_roll(dice);
        sample->length += by;
    } else if (at + by <= sample->length) {
        memmove(from, from + by, sample->length - at - by);
        sample->length -= by;
    }
}

/* The distances that the counts in the trailer ask for, so that a change of the counts can get past rule 3. */
static void mend(struct sample *sample)
{
    if (sample->length < 20)
        return;
    uint8_t *trailer = sample->bytes + sample->length - 20;
    uint32_t layouts = trailer[8] + 256u * trailer[9], sessions = trailer[10] + 256u * trailer[11];
    put_word(trailer + 12, 16 * ((uint64_t)layouts + sessions));
    put_word(trailer + 16, 16 * (uint64_t)sessions);
}

/* One change; half of them are in the last 60 bytes, where the trailer and the last session stand. */
static void change(struct dice *dice, struct sample *sample, const struct sample *other)
{
    size_t n = sample->length, near = n < 60 || dice_below(dice, 2) ? n : 60;
    uint64_t kind = dice_below(dice, 8);
    if (kind == 0 || n == 0) {
        shift(dice, sample);
    } else if (kind == 1) {
        mend(sample);
    } else if (kind == 2 && other->length > 0) {
        size_t tail = 1 + dice_below(dice, n < other->length ? n : other->length);
        memcpy(sample->bytes + n - tail, other->bytes + other->length - tail, tail);
    } else if (kind < 5) {
        sample->bytes[n - 1 - dice_below(dice, near)] ^= (uint8_t)(1u << dice_below(dice, 8));
    } else if (kind == 5) {
        sample->bytes[n - 1 - dice_below(dice, near)] = (uint8_t)dice_roll(dice);
    } else if (n >= 4) {
        size_t back = 4 * (1 + dice_below(dice, near / 4));
        put_word(sample->bytes + n - back, some_word(dice));
    }
}

/* Whether the rules, asked what the archive is asked, take ways alone that were taken before. */
static bool asked_before(const struct sample *sample)
{
    char text[TEXT_MOST];
    struct show show;
    struct reason reason;
    const uint8_t *note;
    size_t note_length;
    memset(now, 0, sizeof now);
    last = 0;
    file_report(sample->bytes, sample->length, text);
    if (show_read(sample->bytes, sample->length, &show, &note, &note_length).number == 0)
        show_reason(&show, &reason);
    return all_seen();
}

static void keep(const struct sample *sample, size_t *count)
{
    if (*count < KEPT_MOST)
        kept[(*count)++] = *sample;
}

static int tell(const struct sample *sample, const char *what)
{
    printf("%s differs:\n", what);
    for (size_t i = 0; i < sample->length; i++)
        printf("%02x", sample->bytes[i]);
    printf("%s\n", sample->length == 0 ? "-" : "");
    return 1;
}

int main(int argc, char **argv)
{
    if (argc != 4)
        return 2;
    struct dice dice = { strtoull(argv[1], NULL, 10) };
    uint64_t most = strtoull(argv[2], NULL, 10), k = 0;
    time_t end = time(NULL) + strtoll(argv[3], NULL, 10);
    struct tally tally = { 0 };
    size_t count = 1; /* the first sample is the empty file */
    for (; k < most && (k % 64 != 0 || time(NULL) < end); k++) {
        static struct sample sample;
        sample = kept[dice_below(&dice, count)];
        if (k < 32)
            sample.length = made_file(&dice, sample.bytes);
        for (uint64_t changes = k < 32 ? 0 : 1 + dice_below(&dice, 6); changes > 0; changes--)
            change(&dice, &sample, &kept[dice_below(&dice, count)]);
        if (!asked_before(&sample))
            keep(&sample, &count);
        const char *what = archive_differs(sample.bytes, sample.length, dice_roll(&dice), &tally);
        if (what != NULL)
            return tell(&sample, what);
    }
    printf("%" PRIu64 " of %" PRIu64 " files, %zu kept for the ways they took; yes %" PRIu64 ", no by 8 %" PRIu64 "\n", k, most, count, tally.yes, tally.no[8]);
    return 0;
}
