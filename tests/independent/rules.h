/* The rules of a show and of a run, a second time: written in C from the rules alone, to test the compiled library against.
 * Everything is checked here, and after a refusal nothing that was lent has changed. */
#ifndef RULES_H
#define RULES_H

#include <stdbool.h>
#include <stddef.h>
#include <stdint.h>

enum { LAYOUTS = 8, SESSIONS = 16, FILE_MOST = 1428, TEXT_MOST = 594, SENTENCE_MOST = 256 };

struct layout { uint32_t seek, track, block, rotation; };
struct session { uint32_t rate, cushion, buffer, layout; };

/* Places at and above a count are not looked at. */
struct show {
    uint32_t block, cylinder, layouts, sessions;
    struct layout layout[LAYOUTS];
    struct session session[SESSIONS];
};

/* Number 0: not refused. */
struct refusal { uint32_t number, place; };

/* A show file. The note is a part of the file. */
struct refusal show_read(const uint8_t *file, size_t length, struct show *show, const uint8_t **note, size_t *note_length);
struct refusal show_write(const struct show *show, const uint8_t *note, size_t note_length, uint8_t *buffer, size_t room, size_t *length);

/* The verdict: the smallest counts, U of each, and L. */
struct decision { uint32_t count[SESSIONS]; uint64_t time[SESSIONS]; uint64_t round; };
struct refusal show_decide(const struct show *show, struct decision *decision);

/* Given counts: whether they are a feasible workahead-augmenting set, U of each used one, and L. Counts may be any, 0 too. */
struct trial { bool holds; uint64_t time[SESSIONS]; uint64_t round; };
struct refusal show_try(const struct show *show, const uint32_t count[SESSIONS], struct trial *trial);

/* U(n) of a session. */
struct refusal show_worst(const struct show *show, uint64_t session, uint32_t n, uint64_t *time);

/* The load of the drive, in tenths of a per cent. */
struct refusal show_load(const struct show *show, uint64_t *tenths);

/* Why a show is refused 8; KEEPS_UP of an accepted one. */
enum why { KEEPS_UP, OVERLOAD, BEYOND, BUFFER };
struct reason { enum why why; uint32_t session; uint64_t size; };
struct refusal show_reason(const struct show *show, struct reason *reason);

/* The calculator's text for a file: at most TEXT_MOST bytes, no zero at the end; hands back its length. */
size_t file_report(const uint8_t *file, size_t length, char *text);

/* The reason and its sentence, in the same way: at most SENTENCE_MOST bytes. */
size_t file_explain(const uint8_t *file, size_t length, char *text);

/* A run. `under` is the session that a read is under way on, or -1. */
struct state { uint64_t put, got, clock; };

/* A player's take, on one session's state. */
struct refusal player_take(struct state *state, const struct session *session, bool started, uint64_t n);

struct run {
    struct show show;
    uint32_t count[SESSIONS];
    struct state state[SESSIONS];
    uint32_t order[SESSIONS];
    uint32_t place, left, started;
    int64_t under;
};

enum { IDLE = -1 };
struct refusal run_open(const struct show *show, struct run *run);
struct refusal run_pass(struct run *run, uint64_t d);
struct refusal run_take(struct run *run, uint64_t session, uint64_t n);
struct refusal run_choose(struct run *run, int *chosen);              /* a session, or IDLE */
struct refusal run_finish(struct run *run, uint64_t d);
struct refusal run_workahead(const struct run *run, uint64_t session, int64_t *time);
struct refusal run_slack(const struct run *run, int64_t *time);
struct refusal run_start(struct run *run);

#endif
