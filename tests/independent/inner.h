/* What the files of the rules share among themselves. */
#ifndef INNER_H
#define INNER_H

#include "rules.h"

#define MILLION UINT64_C(1000000)
#define PUT_MOST UINT64_C(1099511627776) /* the limit on P */

enum { NOTE_MOST = 1024, BUFFER_MOST = 1073741824, PASS_MOST = 1000000000 };

/* The numbers we say no with. */
enum {
    NO_LENGTH = 1, NO_COUNTS, NO_DISTANCE, NO_NOTE, NO_DRIVE, NO_LAYOUT, NO_LIMITS, NO_SET, NO_SESSION, NO_BYTES,
    NO_TIME, NO_START_YET, NO_UNDER_WAY, NO_MORE_PUT, NO_SLACK, NO_ROOM, NO_READ, NO_SECOND_START, NO_RECORD
};

static inline struct refusal refuse(uint32_t number, uint32_t place)
{
    return (struct refusal){ number, place };
}

static inline struct refusal allow(void)
{
    return refuse(0, 0);
}

/* Refusals 2, 5, 6 and 7, in this order. */
struct refusal show_limits(const struct show *show);

/* U(count) of a session, of a show within its limits. */
static inline uint64_t worst_time(const struct show *show, uint32_t session, uint32_t count)
{
    const struct layout *layout = &show->layout[show->session[session].layout];
    uint64_t cylinders = count / show->cylinder + (count % show->cylinder != 0); /* rounded up */
    return layout->seek + (uint64_t)count * layout->block + cylinders * layout->track + 2 * (uint64_t)layout->rotation;
}

/* The smallest buffer that takes the count. */
static inline uint64_t buffer_needed(const struct show *show, uint32_t session, uint32_t count)
{
    return ((uint64_t)count + 1) * show->block + show->session[session].cushion;
}

/* Whether the counts, which may be any, are a feasible workahead-augmenting set of a show within its limits. */
bool counts_hold(const struct show *show, const uint32_t count[SESSIONS]);

#endif
