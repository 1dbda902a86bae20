/* Cases of questions for the program of rehearse.c, by dice: cases SEED COUNT. */
#include "inner.h"
#include "lines.h"
#include "made.h"

#include <inttypes.h>

enum { ROOM_MOST = 4096 };

#define PICK_FROM(dice, list) (list)[dice_below(dice, sizeof(list) / sizeof((list)[0]))]

/* A field, used or not, becomes any number. */
static void change_field(struct dice *dice, struct show *show)
{
    uint32_t *drive[4] = { &show->block, &show->cylinder, &show->layouts, &show->sessions };
    uint32_t value = made_border(dice);
    if (dice_chance(dice, 3)) {
        *drive[dice_below(dice, 4)] = value;
    } else if (dice_chance(dice, 2)) {
        struct layout *l = &show->layout[dice_below(dice, LAYOUTS)];
        uint32_t *field[4] = { &l->seek, &l->track, &l->block, &l->rotation };
        *field[dice_below(dice, 4)] = value;
    } else {
        struct session *s = &show->session[dice_below(dice, SESSIONS)];
        uint32_t *field[4] = { &s->rate, &s->cushion, &s->buffer, &s->layout };
        *field[dice_below(dice, 4)] = value;
    }
}

static size_t made_room(struct dice *dice, size_t length)
{
    switch (dice_below(dice, 8)) {
    case 0: return 0;
    case 1: return ROOM_MOST;
    case 2: return dice_below(dice, 2001);
    case 3: return length - 1;
    case 4: return length + 1;
    case 5: return length - 1 - dice_below(dice, 20);
    default: return length;
    }
}

static void print_file(struct dice *dice, const char *word, const uint8_t *file, size_t length)
{
    printf("%s ", word);
    made_hex(file, length, dice_chance(dice, 20));
    putchar('\n');
}

/* A show in memory, now and then with fields that are any number. */
static void print_memory(struct dice *dice, struct show *show)
{
    made_show(dice, show);
    if (dice_chance(dice, 4))
        for (uint32_t i = dice_chance(dice, 3) ? dice_pick(dice, 1, 6) : 1; i > 0; i--)
            change_field(dice, show);
    printf("memory");
    print_show(' ', show);
    putchar('\n');
}

static void print_writes(struct dice *dice)
{
    struct show show;
    uint8_t note[MADE_NOTE_MOST], file[MADE_FILE_MOST];
    print_memory(dice, &show);
    size_t note_length = made_note(dice, dice_chance(dice, 15), note);
    size_t length = made_bytes(&show, note, note_length, file);
    printf("write ");
    made_hex(note, note_length, dice_chance(dice, 20));
    printf(" %zu\n", made_room(dice, length));
}

/* The smallest counts of a show that has some, or any; then one of them, or each, a little off. */
static void near_counts(struct dice *dice, const struct show *show, uint32_t count[SESSIONS])
{
    struct decision decision;
    bool decided = show_decide(show, &decision).number == 0;
    uint64_t mode = dice_below(dice, 5);
    uint64_t one = dice_below(dice, SESSIONS);
    for (uint32_t i = 0; i < SESSIONS; i++) {
        count[i] = decided ? decision.count[i] : (uint32_t)dice_spread(dice, 3000000);
        if (mode == 1 || (mode == 2 && i == one))
            count[i] += dice_pick(dice, 0, 2);
        else if (mode == 3 && i == one)
            count[i] = made_border(dice);
        else if (mode == 4 && i == one && count[i] > 0)
            count[i]--;
    }
}

/* As many counts as there are sessions, or fewer, or more. */
static void print_try(struct dice *dice, const struct show *show)
{
    uint32_t count[SESSIONS];
    near_counts(dice, show, count);
    uint32_t given = dice_chance(dice, 4) || show->sessions > SESSIONS ? dice_pick(dice, 0, SESSIONS) : show->sessions;
    printf("try ");
    for (uint32_t i = 0; i < given; i++)
        printf("%s%" PRIu32, i == 0 ? "" : ",", count[i]);
    puts(given == 0 ? "-" : "");
}

static void print_worst(struct dice *dice, const struct show *show)
{
    const uint64_t sessions[] = { 0, 1, show->sessions, (uint64_t)show->sessions - 1, SESSIONS, UINT64_C(1) << 32, UINT64_MAX };
    uint64_t session = dice_chance(dice, 2) ? dice_below(dice, SESSIONS) : PICK_FROM(dice, sessions);
    uint32_t n = (uint32_t)dice_spread(dice, UINT32_MAX);
    if (dice_chance(dice, 2)) /* about the edge of a cylinder */
        n = show->cylinder * dice_pick(dice, 0, 3) + dice_pick(dice, 0, 2) - 1;
    printf("worst %" PRIu64 " %" PRIu32 "\n", session, n);
}

static void print_about(struct dice *dice, const struct show *show)
{
    puts(dice_chance(dice, 3) ? "junk\ndecide\nwhy\nload" : "decide\nwhy\nload");
    for (uint32_t i = dice_pick(dice, 1, 3); i > 0; i--) {
        print_try(dice, show);
        print_worst(dice, show);
    }
}

static void print_deciding(struct dice *dice)
{
    struct show show;
    print_memory(dice, &show);
    print_about(dice, &show);
}

/* A file's show; if it is refused, some other show's numbers are asked about, which must not matter. */
static void print_reading(struct dice *dice)
{
    struct show show;
    uint8_t file[MADE_FILE_MOST];
    const uint8_t *note;
    size_t note_length;
    made_show(dice, &show);
    size_t length = made_file(dice, file);
    print_file(dice, "show", file, length);
    show_read(file, length, &show, &note, &note_length);
    print_about(dice, &show);
    if (dice_chance(dice, 4))
        puts("write - 4096");
}

static void print_files(struct dice *dice)
{
    uint8_t file[MADE_FILE_MOST];
    size_t length = made_file(dice, file);
    print_file(dice, "file", file, length);
    if (dice_chance(dice, 2))
        return;
    print_file(dice, "report", file, length);
    print_file(dice, "explain", file, length);
}

/* A number near another one, or at a border, or any. */
static uint64_t near(struct dice *dice, uint64_t value)
{
    const uint64_t borders[] = { 0, 1, PUT_MOST, PUT_MOST + 1, PUT_MOST * MILLION, UINT64_C(1) << 63, UINT64_MAX };
    switch (dice_below(dice, 12)) {
    case 0: return value + 1;
    case 1: return value - 1;
    case 2: return PICK_FROM(dice, borders);
    case 3: return dice_spread(dice, UINT64_MAX);
    default: return value;
    }
}

/* Mostly a state in order, or a little off. */
static void print_players(struct dice *dice)
{
    for (uint32_t i = dice_pick(dice, 1, 6); i > 0; i--) {
        uint32_t buffer = dice_chance(dice, 8) ? made_border(dice) : 1 + (uint32_t)dice_spread(dice, BUFFER_MOST - 1);
        bool started = !dice_chance(dice, 5);
        uint64_t got = started || dice_chance(dice, 9) ? dice_spread(dice, PUT_MOST) : 0;
        uint64_t put = near(dice, got + (dice_chance(dice, 4) ? buffer : dice_spread(dice, buffer)));
        uint64_t clock = near(dice, dice_chance(dice, 3) ? got * MILLION : dice_spread(dice, got * MILLION));
        uint64_t n = near(dice, dice_chance(dice, 3) ? put - got : dice_spread(dice, put - got));
        got = near(dice, got);
        uint32_t rate = made_border(dice), cushion = made_border(dice), layout = made_border(dice);
        printf("player %" PRIu64 " %" PRIu64 " %" PRIu64 " %" PRIu32 " %" PRIu32 " %" PRIu32 " %" PRIu32 " %d %" PRIu64 "\n",
               put, got, clock, rate, cushion, buffer, layout, started, n);
    }
}

static bool argument(const char *text, uint64_t *value)
{
    return number((struct word){ text, strlen(text) }, UINT64_MAX, value);
}

int main(int count, char **arguments)
{
    static void (*const print[])(struct dice *) = { print_files, print_writes, print_deciding, print_reading, print_players };
    uint64_t seed, cases;
    if (count != 3 || !argument(arguments[1], &seed) || !argument(arguments[2], &cases)) {
        fprintf(stderr, "cases SEED COUNT\n");
        return 2;
    }
    struct dice dice = { seed };
    for (uint64_t i = 0; i < cases; i++) {
        printf("case q%" PRIu64 "-%" PRIu64 "\n", seed, i);
        print[i % (sizeof print / sizeof print[0])](&dice);
    }
    return fflush(stdout) == 0 ? 0 : 1;
}
