/* The program pace in C, over the rules in tests/independent: the same jobs, the same answers. crates/pace/src/main.rt says which. */
#include "rules.h"

#include <inttypes.h>
#include <stdbool.h>
#include <stdio.h>
#include <string.h>

#define TURNS_MOST UINT64_C(1000000000000)

enum { BACK = 16, TRAILER = 20, SPAN = 100, IDLE_ADDS = 1000, FIRST = 64, INPUT_MOST = 1048576 };

struct job {
    uint64_t turns;
    size_t length;
    size_t note_length;
    const uint8_t *note;
    struct show show;
    struct run run;
    uint8_t file[FILE_MOST];
};

/* Where there is no session, a place that holds zeros. */
static uint32_t last(const struct show *show)
{
    return show->sessions == 0 ? SESSIONS - 1 : show->sessions - 1;
}

/* The file of turn k. */
static void change(struct job *job, uint8_t low, uint64_t k)
{
    if (job->length >= TRAILER)
        job->file[job->length - BACK] = (uint8_t)(low ^ (k & 1));
}

static uint8_t low_of(const struct job *job)
{
    return job->length < TRAILER ? 0 : job->file[job->length - BACK];
}

static uint64_t none(struct job *job)
{
    uint64_t sum = 0;
    for (volatile uint64_t k = 0; k < job->turns; k++)
        sum += k;
    return sum;
}

static uint64_t reads(struct job *job)
{
    uint64_t sum = 0;
    uint8_t low = low_of(job);
    for (uint64_t k = 0; k < job->turns; k++) {
        struct show show = { 0 };
        const uint8_t *note;
        size_t length = 0;
        change(job, low, k);
        sum += show_read(job->file, job->length, &show, &note, &length).number;
        sum += show.cylinder + length + show.session[last(&show)].rate;
    }
    return sum;
}

static uint64_t reports(struct job *job)
{
    uint64_t sum = 0;
    uint8_t low = low_of(job);
    for (uint64_t k = 0; k < job->turns; k++) {
        char text[TEXT_MOST];
        change(job, low, k);
        size_t length = file_report(job->file, job->length, text);
        sum += length + (uint8_t)text[length - 2];
    }
    return sum;
}

static uint64_t writes(struct job *job)
{
    uint64_t sum = 0;
    uint32_t cylinder = job->show.cylinder;
    for (uint64_t k = 0; k < job->turns; k++) {
        uint8_t buffer[FILE_MOST] = { 0 };
        size_t length = 0;
        job->show.cylinder = cylinder ^ (uint32_t)(k & 1);
        sum += show_write(&job->show, job->note, job->note_length, buffer, sizeof buffer, &length).number;
        sum += length + (length < BACK ? 0 : buffer[length - BACK]);
    }
    return sum;
}

static uint64_t decides(struct job *job)
{
    uint64_t sum = 0;
    uint32_t cushion = job->show.session[0].cushion;
    for (uint64_t k = 0; k < job->turns; k++) {
        struct decision decision;
        job->show.session[0].cushion = cushion + (uint32_t)(k & 1);
        struct refusal refusal = show_decide(&job->show, &decision);
        uint32_t at = last(&job->show);
        sum += refusal.number;
        if (refusal.number == 0)
            sum += decision.round + decision.count[at] + decision.time[at];
    }
    return sum;
}

static uint64_t reasons(struct job *job)
{
    uint64_t sum = 0;
    uint32_t cushion = job->show.session[0].cushion;
    for (uint64_t k = 0; k < job->turns; k++) {
        struct reason reason = { KEEPS_UP, 0, 0 };
        job->show.session[0].cushion = cushion + (uint32_t)(k & 1);
        sum += show_reason(&job->show, &reason).number;
        sum += (uint64_t)reason.why + reason.session + reason.size;
    }
    return sum;
}

static uint64_t opens(struct job *job)
{
    uint64_t sum = 0;
    uint32_t cushion = job->show.session[0].cushion;
    for (uint64_t k = 0; k < job->turns; k++) {
        struct run run;
        job->show.session[0].cushion = cushion + (uint32_t)(k & 1);
        struct refusal refusal = run_open(&job->show, &run);
        sum += refusal.number + (refusal.number == 0 ? run.left : 0);
    }
    return sum;
}

/* ---- runs */

static bool started(struct job *job)
{
    int chosen;
    if (run_open(&job->show, &job->run).number != 0)
        return false;
    for (uint32_t i = 0; i < FIRST * job->show.sessions; i++) {
        run_choose(&job->run, &chosen);
        run_finish(&job->run, 0);
    }
    run_start(&job->run);
    return true;
}

/* One block: chosen, read, taken, and time passes. */
static uint64_t play(struct run *run)
{
    int chosen = IDLE;
    uint64_t sum = run_choose(run, &chosen).number;
    bool read = sum == 0 && chosen != IDLE;
    uint64_t session = (uint64_t)chosen;
    if (read)
        sum = run_finish(run, SPAN).number + (uint64_t)run_take(run, session, run->show.block).number + session;
    else if (sum == 0)
        sum = IDLE_ADDS;
    sum += run_pass(run, SPAN).number;
    return read ? sum + run->state[session].clock : sum;
}

static uint64_t plays(struct job *job)
{
    uint64_t sum = 0;
    for (uint64_t k = 0; k < job->turns; k++)
        sum += play(&job->run);
    return sum;
}

static uint64_t passes(struct job *job)
{
    uint64_t sum = 0;
    for (uint64_t k = 0; k < job->turns; k++) {
        sum += run_pass(&job->run, 1).number;
        sum += job->run.state[0].clock;
    }
    return sum;
}

static uint64_t takes(struct job *job)
{
    uint64_t sum = 0;
    for (uint64_t k = 0; k < job->turns; k++) {
        uint64_t session = job->show.sessions == 0 ? 0 : k % job->show.sessions;
        sum += run_take(&job->run, session, 0).number;
        sum += job->run.state[session].got;
    }
    return sum;
}

static uint64_t slacks(struct job *job)
{
    uint64_t sum = 0;
    run_take(&job->run, 0, 1);
    for (uint64_t k = 0; k < job->turns; k++) {
        int64_t time = 0;
        job->run.state[0].clock = k & 1;
        sum += run_slack(&job->run, &time).number;
        sum += (uint64_t)time;
    }
    return sum;
}

static uint64_t workaheads(struct job *job)
{
    uint64_t sum = 0;
    run_take(&job->run, 0, 1);
    for (uint64_t k = 0; k < job->turns; k++) {
        int64_t time = 0;
        job->run.state[0].clock = k & 1;
        sum += run_workahead(&job->run, 0, &time).number;
        sum += (uint64_t)time;
    }
    return sum;
}

/* ---- lines */

enum needs { A_FILE, A_SHOW, A_RUN };

static const struct kind {
    const char *word;
    uint64_t (*work)(struct job *job);
    enum needs needs;
} KINDS[] = {
    { "none", none, A_SHOW },     { "read", reads, A_FILE },     { "write", writes, A_SHOW },   { "decide", decides, A_SHOW },
    { "reason", reasons, A_SHOW }, { "report", reports, A_FILE }, { "open", opens, A_SHOW },     { "play", plays, A_RUN },
    { "pass", passes, A_RUN },    { "take", takes, A_RUN },      { "slack", slacks, A_RUN },    { "workahead", workaheads, A_RUN },
};

static const struct kind *kind_of(const char *word)
{
    for (size_t i = 0; i < sizeof KINDS / sizeof KINDS[0]; i++)
        if (strcmp(word, KINDS[i].word) == 0)
            return &KINDS[i];
    return NULL;
}

static bool turns_of(const char *word, uint64_t *turns)
{
    *turns = 0;
    if (*word == '\0')
        return false;
    for (; *word != '\0'; word++) {
        if (*word < '0' || *word > '9')
            return false;
        *turns = *turns * 10 + (uint64_t)(*word - '0');
        if (*turns > TURNS_MOST)
            return false;
    }
    return true;
}

/* 16 for what is no digit. */
static unsigned digit_of(char c)
{
    if (c >= '0' && c <= '9')
        return (unsigned)(c - '0');
    return c >= 'a' && c <= 'f' ? (unsigned)(c - 'a') + 10 : 16;
}

static bool file_of(const char *word, struct job *job)
{
    size_t length = strlen(word);
    job->length = length / 2;
    if (strcmp(word, "-") == 0)
        return true;
    if (length == 0 || length % 2 != 0 || job->length > FILE_MOST)
        return false;
    for (size_t i = 0; i < job->length; i++) {
        unsigned high = digit_of(word[2 * i]), low = digit_of(word[2 * i + 1]);
        if (high > 15 || low > 15)
            return false;
        job->file[i] = (uint8_t)(16 * high + low);
    }
    return true;
}

/* The line taken apart at its spaces, which become zeros; false unless there are three parts. */
static bool parts_of(char *line, char *part[3])
{
    part[0] = line;
    for (int i = 1; i < 3; i++) {
        char *space = strchr(part[i - 1], ' ');
        if (space == NULL)
            return false;
        *space = '\0';
        part[i] = space + 1;
    }
    return strchr(part[2], ' ') == NULL;
}

static bool answer(char *line)
{
    static struct job job;
    char *part[3];
    if (!parts_of(line, part) || !turns_of(part[1], &job.turns) || !file_of(part[2], &job))
        return false;
    const struct kind *kind = kind_of(part[0]);
    if (kind == NULL)
        return false;
    memset(&job.show, 0, sizeof job.show);
    memset(&job.run, 0, sizeof job.run);
    if (kind->needs != A_FILE && show_read(job.file, job.length, &job.show, &job.note, &job.note_length).number != 0)
        return false;
    if (kind->needs == A_RUN && !started(&job))
        return false;
    printf("%s %" PRIu64 " %" PRIu64 "\n", part[0], job.turns, kind->work(&job));
    return true;
}

int main(void)
{
    static char text[INPUT_MOST + 1];
    size_t length = fread(text, 1, INPUT_MOST, stdin);
    size_t number = 1;
    for (char *line = text; line < text + length; number++) {
        char *end = strchr(line, '\n');
        if (end == NULL)
            end = text + length;
        *end = '\0';
        if (!answer(line))
            printf("error %zu\n", number);
        line = end + 1;
    }
    return 0;
}
