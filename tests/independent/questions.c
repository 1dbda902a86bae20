/* The questions of a script: about the show in memory, or with a file or a state of their own. They change nothing. */
#include "stage.h"

#include <inttypes.h>

enum { BYTES_MOST = 4096 };

static void print_refusal(struct refusal refusal)
{
    printf("refused %" PRIu32 " %" PRIu32, refusal.number, refusal.place);
}

/* The line, whose answer is to come. */
static void print_line(const struct line *line)
{
    echo(line);
    fputs(" -> ", stdout);
}

/* The line and a refusal as its answer; or, where nothing is refused, the line alone. */
static bool is_refused(const struct line *line, struct refusal refusal)
{
    print_line(line);
    if (refusal.number == 0)
        return false;
    print_refusal(refusal);
    putchar('\n');
    return true;
}

static void print_counts(const uint32_t *count, uint32_t used)
{
    for (uint32_t i = 0; i < used; i++)
        printf("%s%" PRIu32, i == 0 ? " " : ",", count[i]);
    printf("%s", used == 0 ? " -" : "");
}

static void print_times(const uint64_t *time, uint32_t used)
{
    for (uint32_t i = 0; i < used; i++)
        printf("%s%" PRIu64, i == 0 ? " " : ",", time[i]);
    printf("%s", used == 0 ? " -" : "");
}

/* About the show in memory. If its file was refused, so is every question. */

static bool was_read(const struct stage *stage)
{
    return stage->reading.number == 0;
}

static bool do_decide(struct stage *stage, const struct line *line)
{
    struct decision decision = { 0 };
    if (!stage->has_show)
        return false;
    if (is_refused(line, was_read(stage) ? show_decide(&stage->show, &decision) : stage->reading))
        return true;
    printf("accepted %" PRIu64, decision.round);
    print_counts(decision.count, stage->show.sessions);
    print_times(decision.time, stage->show.sessions);
    putchar('\n');
    return true;
}

static bool do_why(struct stage *stage, const struct line *line)
{
    static const char *const words[] = { [KEEPS_UP] = "none", [OVERLOAD] = "overload", [BEYOND] = "beyond", [BUFFER] = "buffer" };
    struct reason reason = { 0 };
    if (!stage->has_show)
        return false;
    if (is_refused(line, was_read(stage) ? show_reason(&stage->show, &reason) : stage->reading))
        return true;
    fputs(words[reason.why], stdout);
    if (reason.why == BUFFER)
        printf(" %" PRIu32 " %" PRIu64, reason.session, reason.size);
    putchar('\n');
    return true;
}

static bool print_value(const struct line *line, struct refusal refusal, const uint64_t *value)
{
    if (!is_refused(line, refusal))
        printf("value %" PRIu64 "\n", *value);
    return true;
}

static bool do_load(struct stage *stage, const struct line *line)
{
    uint64_t tenths = 0;
    if (!stage->has_show)
        return false;
    return print_value(line, was_read(stage) ? show_load(&stage->show, &tenths) : stage->reading, &tenths);
}

static bool do_worst(struct stage *stage, const struct line *line)
{
    uint64_t session, n, time = 0;
    if (!stage->has_show || !number(line->word[1], UINT64_MAX, &session) || !number(line->word[2], UINT32_MAX, &n))
        return false;
    return print_value(line, was_read(stage) ? show_worst(&stage->show, session, (uint32_t)n, &time) : stage->reading, &time);
}

static bool do_try(struct stage *stage, const struct line *line)
{
    uint32_t count[SESSIONS] = { 0 };
    struct trial trial = { 0 };
    if (!stage->has_show || (!is(line->word[1], "-") && numbers(line->word[1], ',', count, SESSIONS) == 0))
        return false;
    if (is_refused(line, was_read(stage) ? show_try(&stage->show, count, &trial) : stage->reading))
        return true;
    printf("%s %" PRIu64, trial.holds ? "holds" : "fails", trial.round);
    print_times(trial.time, stage->show.sessions);
    putchar('\n');
    return true;
}

static struct refusal write_show(const struct show *show, const uint8_t *note, size_t note_length, uint8_t buffer[BYTES_MOST], size_t room, size_t *length)
{
    for (size_t i = 0; i < BYTES_MOST; i++)
        buffer[i] = (uint8_t)(7 * i + 3);
    return show_write(show, note, note_length, buffer, room, length);
}

/* What was written is read again. */
static void print_reread(const uint8_t *file, size_t length)
{
    struct show show;
    const uint8_t *note;
    size_t note_length;
    struct refusal refusal = show_read(file, length, &show, &note, &note_length);
    printf(" reread");
    if (refusal.number != 0) {
        putchar(' ');
        print_refusal(refusal);
        return;
    }
    print_show(' ', &show);
    printf(" %zu", note_length);
}

static bool do_write(struct stage *stage, const struct line *line)
{
    uint8_t note[BYTES_MOST], buffer[BYTES_MOST];
    size_t note_length, length;
    uint64_t room;
    if (!stage->has_show || !hex(line->word[1], note, sizeof note, &note_length) || !number(line->word[2], BYTES_MOST, &room))
        return false;
    if (!was_read(stage))
        return is_refused(line, stage->reading);
    struct refusal refusal = write_show(&stage->show, note, note_length, buffer, (size_t)room, &length);
    print_line(line);
    if (refusal.number != 0)
        print_refusal(refusal);
    else
        printf("wrote %zu", length);
    putchar(' ');
    print_hex(buffer, (size_t)room);
    if (refusal.number == 0)
        print_reread(buffer, length);
    putchar('\n');
    return true;
}

/* With a file or a state of their own. */

struct file { uint8_t bytes[LINE_MOST / 2]; size_t length; };

static bool file_of(const struct line *line, struct file *file)
{
    return hex(line->word[1], file->bytes, sizeof file->bytes, &file->length);
}

/* The show and note are written again, into room enough and into a byte too few. */
static void print_copy(const struct show *show, const uint8_t *note, size_t note_length, const struct file *file)
{
    uint8_t copy[BYTES_MOST];
    size_t written = 0;
    struct refusal refusal = show_write(show, note, note_length, copy, file->length, &written);
    bool same = refusal.number == 0 && written == file->length && memcmp(copy, file->bytes, written) == 0;
    printf(" copy %zu %s short ", written, same ? "same" : "differs");
    refusal = show_write(show, note, note_length, copy, file->length - 1, &written);
    printf("%" PRIu32 " %" PRIu32 "\n", refusal.number, refusal.place);
}

static bool do_file(struct stage *stage, const struct line *line)
{
    struct file file;
    struct show show;
    const uint8_t *note;
    size_t note_length;
    (void)stage;
    if (!file_of(line, &file))
        return false;
    if (file.length > BYTES_MOST)
        file.length = BYTES_MOST;
    if (is_refused(line, show_read(file.bytes, file.length, &show, &note, &note_length)))
        return true;
    printf("read");
    print_show(' ', &show);
    putchar(' ');
    print_hex(note, note_length);
    print_copy(&show, note, note_length, &file);
    return true;
}

static bool print_answer(const struct line *line, const char *text, size_t length)
{
    print_line(line);
    print_text(text, length);
    putchar('\n');
    return true;
}

static bool do_report(struct stage *stage, const struct line *line)
{
    struct file file;
    char text[TEXT_MOST];
    (void)stage;
    return file_of(line, &file) && print_answer(line, text, file_report(file.bytes, file.length, text));
}

static bool do_explain(struct stage *stage, const struct line *line)
{
    struct file file;
    char text[SENTENCE_MOST];
    (void)stage;
    return file_of(line, &file) && print_answer(line, text, file_explain(file.bytes, file.length, text));
}

static bool do_player(struct stage *stage, const struct line *line)
{
    static const uint64_t most[WORDS - 1] = { UINT64_MAX, UINT64_MAX, UINT64_MAX, UINT32_MAX, UINT32_MAX, UINT32_MAX, UINT32_MAX, 1, UINT64_MAX };
    uint64_t given[WORDS - 1];
    (void)stage;
    for (size_t i = 0; i < WORDS - 1; i++)
        if (!number(line->word[1 + i], most[i], &given[i]))
            return false;
    struct state state = { given[0], given[1], given[2] };
    struct session session = { (uint32_t)given[3], (uint32_t)given[4], (uint32_t)given[5], (uint32_t)given[6] };
    struct refusal refusal = player_take(&state, &session, given[7] != 0, given[8]);
    print_line(line);
    if (refusal.number != 0)
        print_refusal(refusal);
    else
        fputs("ok", stdout);
    printf(" %" PRIu64 " %" PRIu64 " %" PRIu64 "\n", state.put, state.got, state.clock);
    return true;
}

const struct command questions[] = {
    { "decide", 1, do_decide }, { "why", 1, do_why }, { "load", 1, do_load }, { "worst", 3, do_worst }, { "try", 2, do_try }, { "write", 3, do_write },
    { "file", 2, do_file }, { "report", 2, do_report }, { "explain", 2, do_explain }, { "player", 10, do_player }, { NULL, 0, NULL },
};
