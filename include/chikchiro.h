/* Chikchiro for C and C++: whether a drive keeps up with a show.
 *
 * A show file (docs/RULES.md, section 6) is asked about as it stands in memory. Each call reads the file, decides, and answers into
 * memory of yours. It keeps nothing between calls, has no heap and reads and writes nothing else, so calls may be made from any thread.
 *
 * Link with libchikchiro.a, which ./archive writes to target/staticlib. It is for x86-64 Linux (x86-64-v2), and of the C library it uses
 * memcpy and memset alone. From Rust, declare the same functions in an extern "C" block.
 *
 * Every array is passed as a pointer and then a length: of the file and the text in bytes, of the others in elements. You need check
 * nothing: any bytes are a file, and an array that is too short is answered as such. What C asks of you remains: a pointer points to as
 * many elements as the length says and is aligned for them; it is not NULL, but where the length is 0; and what one call is lent to
 * write does not overlap anything else that it is lent.
 *
 * chikchiro_decide and chikchiro_reason answer 0 where nothing is refused. A no of theirs is one number, which holds two:
 * chikchiro_number says which rule was broken and chikchiro_place where. chikchiro_report answers a length, and there 0 is its one
 * refusal. After a refusal every element of every array is what it was.
 */
#ifndef CHIKCHIRO_H
#define CHIKCHIRO_H

#include <stddef.h>
#include <stdint.h>

#ifdef __cplusplus
extern "C" {
#endif

/* Places in an array of counts or times: a show has no more sessions. */
#define CHIKCHIRO_SESSIONS 16

/* No text of chikchiro_report has more bytes. */
#define CHIKCHIRO_TEXT 594

/* No show file has more bytes: where you read a file in, a byte more than this is enough room to learn that it is too long. */
#define CHIKCHIRO_FILE 1428

/* The numbers that these calls say no with (docs/RULES.md, section 4). */
enum {
    CHIKCHIRO_FILE_LENGTH = 1,    /* under 20 or over 1,428 bytes */
    CHIKCHIRO_COUNTS = 2,         /* layouts not 1 to 8, or sessions over 16 */
    CHIKCHIRO_DISTANCES = 3,      /* a distance in the trailer is wrong */
    CHIKCHIRO_NOTE_LENGTH = 4,    /* a note over 1,024 bytes */
    CHIKCHIRO_DRIVE_LIMITS = 5,   /* block size or blocks per cylinder */
    CHIKCHIRO_LAYOUT_LIMITS = 6,  /* the place is the layout's number, from 0 */
    CHIKCHIRO_SESSION_LIMITS = 7, /* the place is the session's number, from 0 */
    CHIKCHIRO_NO_SET = 8,         /* no set of counts keeps up and fits the buffers: chikchiro_reason says why */
    CHIKCHIRO_SHORT = 16          /* an array is too short; told before anything else is looked at */
};

/* Of an answer of chikchiro_decide or chikchiro_reason that is not 0: the number, and the place, which is 0 but for 6 and 7. */
static inline uint64_t chikchiro_number(uint64_t answer) { return answer % 256; }
static inline uint64_t chikchiro_place(uint64_t answer) { return answer / 256; }

/* What the calculator prints of the file (docs/RULES.md, section 8), from the buffer's first byte on, with no zero after it.
 *
 * Answers how many bytes the text has, which is 1 at least, also where the text says `refused`; later bytes of the buffer stay as they were.
 * Answers 0 if the buffer has fewer than CHIKCHIRO_TEXT bytes: then no byte of it has changed.
 */
size_t chikchiro_report(const uint8_t *file, size_t file_length, uint8_t *buffer, size_t buffer_length);

/* The verdict on the file.
 *
 * Answers 0 for a yes. Then counts[i] is how many blocks to read for session i in each round, times[i] how long that takes at most, in
 * microseconds, and round_time[0] how long a round takes at most. Of each array the first 16 elements are written, with zeros for
 * sessions that the show does not have, and of round_time the first; later elements stay as they were.
 * Else a no: 1 to 8; or 16, where counts or times have fewer than CHIKCHIRO_SESSIONS elements or round_time has none.
 *
 *     uint32_t counts[CHIKCHIRO_SESSIONS];
 *     uint64_t times[CHIKCHIRO_SESSIONS], round_time;
 *     uint64_t no = chikchiro_decide(file, length, counts, CHIKCHIRO_SESSIONS, times, CHIKCHIRO_SESSIONS, &round_time, 1);
 *     if (no)
 *         printf("refused %d %d\n", (int)chikchiro_number(no), (int)chikchiro_place(no));
 */
uint64_t chikchiro_decide(
    const uint8_t *file, size_t file_length, uint32_t *counts, size_t counts_length, uint64_t *times, size_t times_length,
    uint64_t *round_time, size_t round_length);

/* Why a show is refused with 8. */
enum {
    CHIKCHIRO_NONE = 0,     /* it is not refused */
    CHIKCHIRO_OVERLOAD = 1, /* the clips ask for all that the drive can do, or more: no buffers help */
    CHIKCHIRO_BEYOND = 2,   /* not overloaded, but the buffers would have to be larger than there are */
    CHIKCHIRO_BUFFER = 3    /* the buffer of a session is too small */
};

/* The reason.
 *
 * Answers 0, also of a show that is accepted. Then reason[0] is one of the four above. If it is CHIKCHIRO_BUFFER, reason[1] is the
 * lowest session whose buffer is too small and reason[2] the size that it needs, in bytes; else both are 0. Later elements stay as they were.
 * Else a no: 1 to 7; or 16, where reason has fewer than 3 elements.
 */
uint64_t chikchiro_reason(const uint8_t *file, size_t file_length, uint64_t *reason, size_t reason_length);

#ifdef __cplusplus
}
#endif

#endif
