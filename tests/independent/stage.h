/* What the lines of a script stand on, and how they are answered: for rehearse.c and questions.c. */
#ifndef STAGE_H
#define STAGE_H

#include "lines.h"

enum { WORDS = 10 };

struct line {
    struct word whole;
    struct word word[WORDS];
    size_t words;
};

/* Where the script stands: outside of cases, inside one, or passing over what follows an error. */
enum where { OUTSIDE, INSIDE, PASSING };

/* What a case has so far. */
struct stage {
    enum where where;
    bool has_show, has_run, has_saved;
    struct refusal reading; /* of the show's file */
    struct show show;
    struct run run, saved;
};

/* Every line that is carried out is written again; its answer, if any, follows. */
static inline void echo(const struct line *line)
{
    fwrite(line->whole.at, 1, line->whole.length, stdout);
}

static inline bool silent(const struct line *line)
{
    echo(line);
    putchar('\n');
    return true;
}

/* `words` is how many words the line has, or 0 where that depends on them. `act` carries it out; false: the line is none. */
struct command { const char *name; size_t words; bool (*act)(struct stage *, const struct line *); };

/* The questions; a command without a name ends the list. */
extern const struct command questions[];

#endif
