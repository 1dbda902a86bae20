/* A script on standard input; each of its lines with its answer on standard output. */
#include "stage.h"

#include <inttypes.h>

/* What stands in one of the five lists of the record. */
static uint64_t cell(const struct run *run, char list, uint32_t place)
{
    switch (list) {
    case 'M': return run->count[place];
    case 'P': return run->state[place].put;
    case 'G': return run->state[place].got;
    case 'C': return run->state[place].clock;
    default: return run->order[place];
    }
}

static void print_used(const struct run *run, char list, uint32_t used)
{
    printf(" %c=", list);
    if (used == 0)
        putchar('-');
    for (uint32_t i = 0; i < used; i++)
        printf("%s%" PRIu64, i == 0 ? "" : ",", cell(run, list, i));
}

static void print_unused(const struct run *run, const char *lists, uint32_t used)
{
    const char *before = " X=";
    for (const char *list = lists; *list != 0; list++)
        for (uint32_t i = used; i < SESSIONS; i++)
            if (cell(run, *list, i) != 0) {
                printf("%s%c%" PRIu32 ":%" PRIu64, before, *list, i, cell(run, *list, i));
                before = ",";
            }
    if (*before != ',')
        printf("%s-", before);
}

static void print_record(const struct run *run)
{
    static const char lists[] = "MPGCO";
    uint32_t used = run->show.sessions < SESSIONS ? run->show.sessions : SESSIONS;
    printf("= started=%" PRIu32 " place=%" PRIu32 " left=%" PRIu32 " under=", run->started, run->place, run->left);
    if (run->under == -1)
        putchar('-');
    else
        printf("%" PRId64, run->under);
    for (const char *list = lists; *list != 0; list++)
        print_used(run, *list, used);
    print_unused(run, lists, used);
    putchar('\n');
}

/* A call's line with its answer, and the record under it. */
static bool answer(const struct stage *stage, const struct line *line, struct refusal refusal,
                   const char *word, const int64_t *value)
{
    echo(line);
    if (refusal.number != 0)
        printf(" -> refused %" PRIu32 " %" PRIu32 "\n", refusal.number, refusal.place);
    else if (value != NULL)
        printf(" -> %s %" PRId64 "\n", word, *value);
    else
        printf(" -> %s\n", word);
    if (stage->has_run)
        print_record(&stage->run);
    return true;
}

/* What each word does. False: the line is none. */

static bool do_case(struct stage *stage, const struct line *line)
{
    *stage = (struct stage){ .where = INSIDE };
    return silent(line);
}

static bool do_policy(struct stage *stage, const struct line *line)
{
    (void)stage;
    return is(line->word[1], "fixed") && silent(line);
}

static bool do_show(struct stage *stage, const struct line *line)
{
    uint8_t file[LINE_MOST / 2];
    size_t length;
    if (!hex(line->word[1], file, sizeof file, &length))
        return false;
    const uint8_t *note;
    size_t note_length;
    stage->has_show = true;
    stage->reading = show_read(file, length, &stage->show, &note, &note_length);
    return silent(line);
}

static bool do_memory(struct stage *stage, const struct line *line)
{
    struct show show;
    if (!show_of(line->word[1], &show))
        return false;
    stage->has_show = true;
    stage->reading = (struct refusal){ 0, 0 };
    stage->show = show;
    return silent(line);
}

static bool do_junk(struct stage *stage, const struct line *line)
{
    if (!stage->has_show)
        return false;
    struct show *show = &stage->show;
    if (stage->reading.number == 0) {
        for (uint32_t i = show->layouts; i < LAYOUTS; i++)
            show->layout[i] = (struct layout){ 9, 99, 0, 5 };
        for (uint32_t i = show->sessions; i < SESSIONS; i++)
            show->session[i] = (struct session){ 0, 0, 0, 77 };
    }
    return silent(line);
}

static bool do_open(struct stage *stage, const struct line *line)
{
    if (!stage->has_show)
        return false;
    struct refusal refusal = stage->reading;
    if (refusal.number == 0)
        refusal = run_open(&stage->show, &stage->run);
    stage->has_run = refusal.number == 0;
    return answer(stage, line, refusal, "ok", NULL);
}

static bool do_pass(struct stage *stage, const struct line *line)
{
    uint64_t d;
    if (!stage->has_run || !number(line->word[1], UINT64_MAX, &d))
        return false;
    return answer(stage, line, run_pass(&stage->run, d), "ok", NULL);
}

static bool do_finish(struct stage *stage, const struct line *line)
{
    uint64_t d;
    if (!stage->has_run || !number(line->word[1], UINT64_MAX, &d))
        return false;
    return answer(stage, line, run_finish(&stage->run, d), "ok", NULL);
}

static bool do_take(struct stage *stage, const struct line *line)
{
    uint64_t session, n;
    if (!stage->has_run || !number(line->word[1], UINT64_MAX, &session) || !number(line->word[2], UINT64_MAX, &n))
        return false;
    return answer(stage, line, run_take(&stage->run, session, n), "ok", NULL);
}

static bool do_choose(struct stage *stage, const struct line *line)
{
    if (!stage->has_run)
        return false;
    int chosen = IDLE;
    struct refusal refusal = run_choose(&stage->run, &chosen);
    int64_t session = chosen;
    return chosen == IDLE ? answer(stage, line, refusal, "idle", NULL) : answer(stage, line, refusal, "read", &session);
}

static bool do_slack(struct stage *stage, const struct line *line)
{
    if (!stage->has_run)
        return false;
    int64_t time = 0;
    struct refusal refusal = run_slack(&stage->run, &time);
    return answer(stage, line, refusal, "value", &time);
}

static bool do_start(struct stage *stage, const struct line *line)
{
    return stage->has_run && answer(stage, line, run_start(&stage->run), "ok", NULL);
}

static bool do_workahead(struct stage *stage, const struct line *line)
{
    uint64_t session;
    if (!stage->has_run || !number(line->word[1], UINT64_MAX, &session))
        return false;
    int64_t time = 0;
    struct refusal refusal = run_workahead(&stage->run, session, &time);
    return answer(stage, line, refusal, "value", &time);
}

/* A field of the record: where its first value is, how far it is to the next, and how many there are (0: no index). */
struct field { const char *name; size_t at, step; uint64_t places, most; };

#define OF_RUN(member) offsetof(struct run, member)
#define OF_SHOW(member) (offsetof(struct run, show) + offsetof(struct show, member))
#define OF_LIST(list) OF_RUN(list), sizeof(uint32_t), SESSIONS, UINT32_MAX
#define OF_STATE(member) OF_RUN(state) + offsetof(struct state, member), sizeof(struct state), SESSIONS, UINT64_MAX
#define OF_SESSION(member) OF_SHOW(session) + offsetof(struct session, member), sizeof(struct session), SESSIONS, UINT32_MAX
#define OF_LAYOUT(member) OF_SHOW(layout) + offsetof(struct layout, member), sizeof(struct layout), LAYOUTS, UINT32_MAX

static const struct field fields[] = {
    { "started", OF_RUN(started), 0, 0, 1 },
    { "place", OF_RUN(place), 0, 0, UINT32_MAX },
    { "left", OF_RUN(left), 0, 0, UINT32_MAX },
    { "M", OF_LIST(count) },
    { "P", OF_STATE(put) },
    { "G", OF_STATE(got) },
    { "C", OF_STATE(clock) },
    { "O", OF_LIST(order) },
    { "A", OF_SHOW(block), 0, 0, UINT32_MAX },
    { "N", OF_SHOW(cylinder), 0, 0, UINT32_MAX },
    { "lc", OF_SHOW(layouts), 0, 0, UINT32_MAX },
    { "sc", OF_SHOW(sessions), 0, 0, UINT32_MAX },
    { "s.R", OF_SESSION(rate) },
    { "s.Y", OF_SESSION(cushion) },
    { "s.B", OF_SESSION(buffer) },
    { "s.lay", OF_SESSION(layout) },
    { "l.far", OF_LAYOUT(seek) },
    { "l.one", OF_LAYOUT(track) },
    { "l.blk", OF_LAYOUT(block) },
    { "l.rot", OF_LAYOUT(rotation) },
};

/* The only field that can be below zero. */
static bool poke_under(struct run *run, const struct line *line)
{
    uint64_t value;
    if (line->words != 3)
        return false;
    if (is(line->word[2], "-1"))
        run->under = -1;
    else if (number(line->word[2], UINT32_MAX, &value))
        run->under = (int64_t)value;
    else
        return false;
    return true;
}

static bool poke_field(struct run *run, const struct field *field, const struct line *line)
{
    uint64_t index = 0, value;
    bool indexed = field->places > 0;
    if (line->words != (indexed ? 4 : 3) || (indexed && !number(line->word[2], field->places - 1, &index)))
        return false;
    if (!number(line->word[line->words - 1], field->most, &value))
        return false;
    char *at = (char *)run + field->at + index * field->step;
    if (field->most > UINT32_MAX) {
        memcpy(at, &value, sizeof value);
    } else {
        uint32_t short_value = (uint32_t)value;
        memcpy(at, &short_value, sizeof short_value);
    }
    return true;
}

static bool do_poke(struct stage *stage, const struct line *line)
{
    if (!stage->has_run || line->words < 3)
        return false;
    if (is(line->word[1], "under"))
        return poke_under(&stage->run, line) && silent(line);
    for (size_t i = 0; i < sizeof fields / sizeof fields[0]; i++)
        if (is(line->word[1], fields[i].name))
            return poke_field(&stage->run, &fields[i], line) && silent(line);
    return false;
}

static bool do_save(struct stage *stage, const struct line *line)
{
    if (!stage->has_run)
        return false;
    stage->saved = stage->run;
    stage->has_saved = true;
    return silent(line);
}

static bool do_back(struct stage *stage, const struct line *line)
{
    if (!stage->has_saved)
        return false;
    stage->run = stage->saved;
    stage->has_run = true;
    return silent(line);
}

static bool do_end(struct stage *stage, const struct line *line)
{
    stage->where = OUTSIDE;
    return silent(line);
}

static const struct command commands[] = {
    { "choose", 1, do_choose }, { "finish", 2, do_finish }, { "take", 3, do_take }, { "pass", 2, do_pass },
    { "poke", 0, do_poke }, { "save", 1, do_save }, { "back", 1, do_back }, { "start", 1, do_start },
    { "slack", 1, do_slack }, { "workahead", 2, do_workahead }, { "case", 2, do_case }, { "policy", 2, do_policy },
    { "show", 2, do_show }, { "memory", 2, do_memory }, { "junk", 1, do_junk }, { "open", 1, do_open }, { "end", 1, do_end }, { NULL, 0, NULL },
};

/* The command of this name in one of the lists, or NULL. */
static const struct command *find(const struct command *command, struct word name)
{
    while (command->name != NULL && !is(name, command->name))
        command++;
    return command->name == NULL ? NULL : command;
}

static bool begins_case(struct word line)
{
    return line.length >= 4 && memcmp(line.at, "case", 4) == 0 && (line.length == 4 || line.at[4] == ' ');
}

/* Carries a line out; false if it is none. */
static bool perform(struct stage *stage, struct word whole)
{
    struct line line = { .whole = whole };
    if (whole.length > LINE_MOST || (stage->where == OUTSIDE && !begins_case(whole)))
        return false;
    line.words = split(whole, ' ', line.word, WORDS);
    if (line.words > WORDS)
        return false;
    for (size_t i = 0; i < line.words; i++)
        if (line.word[i].length == 0)
            return false;
    const struct command *command = find(commands, line.word[0]);
    if (command == NULL)
        command = find(questions, line.word[0]);
    return command != NULL && (command->words == 0 || command->words == line.words) && command->act(stage, &line);
}

int main(void)
{
    static char text[LINE_MOST + 1];
    struct stage stage = { .where = OUTSIDE };
    struct word line = { text, 0 };
    for (uint64_t count = 1; read_line(stdin, text, &line.length); count++) {
        if (stage.where == PASSING && !begins_case(line))
            continue;
        if (!perform(&stage, line)) {
            printf("error %" PRIu64 "\n", count);
            stage.where = PASSING;
        }
    }
    return fflush(stdout) == 0 && !ferror(stdin) ? 0 : 1;
}
