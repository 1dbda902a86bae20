/* compare SEED COUNT: so many made files, each asked of the archive and compared with the rules. */
#include "asked.h"
#include "made.h"

#include <inttypes.h>
#include <stdio.h>
#include <stdlib.h>

static void print_file(const uint8_t *file, size_t length)
{
    for (size_t i = 0; i < length; i++)
        printf("%02x", file[i]);
    printf("%s\n", length == 0 ? "-" : "");
}

static void print_tally(const struct tally *tally)
{
    printf("  yes %" PRIu64 ", no", tally->yes);
    for (int number = 1; number < 20; number++)
        if (tally->no[number] != 0)
            printf(" %d: %" PRIu64, number, tally->no[number]);
    printf("; overload %" PRIu64 ", beyond %" PRIu64 ", buffer %" PRIu64 "; report's buffer too short %" PRIu64 "\n",
           tally->reason[OVERLOAD], tally->reason[BEYOND], tally->reason[BUFFER], tally->short_arrays);
}

int main(int argc, char **argv)
{
    if (argc != 3)
        return 2;
    struct dice dice = { strtoull(argv[1], NULL, 10) };
    uint64_t count = strtoull(argv[2], NULL, 10);
    struct tally tally = { 0 };
    uint8_t room[1600 + 8];
    for (uint64_t k = 0; k < count; k++) {
        uint8_t *file = room + k % 8; /* aligned and not */
        size_t length = made_file(&dice, file);
        const char *what = archive_differs(file, length, dice_roll(&dice), &tally);
        if (what != NULL) {
            printf("file %" PRIu64 " of seed %s: %s differs\n", k, argv[1], what);
            print_file(file, length);
            return 1;
        }
    }
    printf("%" PRIu64 " files, every answer and every element as the rules say\n", count);
    print_tally(&tally);
    return 0;
}
