/* Shows and show files by dice. The same seed gives the same ones on every machine. */
#ifndef MADE_H
#define MADE_H

#include "rules.h"

#include <stdbool.h>

enum { MADE_FILE_MOST = 1600, MADE_NOTE_MOST = 1152 };

struct dice { uint64_t state; };

uint64_t dice_roll(struct dice *dice);
uint64_t dice_below(struct dice *dice, uint64_t n);                        /* 0 to n - 1; n at least 1 */
uint32_t dice_pick(struct dice *dice, uint32_t least, uint32_t most);      /* least to most */
bool dice_chance(struct dice *dice, uint64_t n);                           /* true once in n */
uint64_t dice_spread(struct dice *dice, uint64_t most);                    /* 0 to most, of any number of digits */

/* A show in memory of any kind; not always within its limits, not always accepted. */
void made_show(struct dice *dice, struct show *show);

/* An accepted show with few blocks per round and in its buffers, so that some tens of calls see whole cycles. */
void made_small_show(struct dice *dice, struct show *show);

/* The show's bytes after a note, also where the rules would refuse to write them; at most MADE_NOTE_MOST of note. */
size_t made_bytes(const struct show *show, const uint8_t *note, size_t note_length, uint8_t file[MADE_FILE_MOST]);

/* A note of up to MADE_NOTE_MOST bytes; more than the limit of 1,024 only if it may be too long. */
size_t made_note(struct dice *dice, bool too_long, uint8_t note[MADE_NOTE_MOST]);

/* A show file, in half of the cases a damaged one. */
size_t made_file(struct dice *dice, uint8_t file[MADE_FILE_MOST]);

/* Damage to the bytes, of one kind; hands back the length after it. */
size_t made_damage(struct dice *dice, uint8_t file[MADE_FILE_MOST], size_t length);

/* A number that is at some border: 0, 1, a power of two, a limit, one past it. */
uint32_t made_border(struct dice *dice);

/* Printed as two hex digits for each byte, `-` for none. */
void made_hex(const uint8_t *bytes, size_t length, bool capitals);

#endif
