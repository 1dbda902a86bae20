/* given: lines `NAME<TAB>HEX..`, each a show file; prints the name and the calculator's text with its newlines written out, as the rules have it, where
 * the archive says the same. For tests/data, whose answers came from elsewhere. */
#include "chikchiro.h"
#include "rules.h"

#include "lines.h"

#include <stdio.h>
#include <string.h>

/* The text of a line's file; hands back whether the rules and the archive agree on it. */
static bool answer(struct word name, const uint8_t *file, size_t length)
{
    char text[TEXT_MOST];
    uint8_t buffer[CHIKCHIRO_TEXT];
    size_t size = file_report(file, length, text);
    if (chikchiro_report(file, length, buffer, sizeof buffer) != size || memcmp(buffer, text, size) != 0)
        return false;
    printf("%.*s\t", (int)name.length, name.at);
    print_text(text, size);
    putchar('\n');
    return true;
}

int main(void)
{
    static char line[LINE_MOST + 1];
    static uint8_t file[LINE_MOST];
    size_t length, bytes;
    while (read_line(stdin, line, &length)) {
        struct word word[3];
        split((struct word){ line, length }, '\t', word, 3);
        if (!hex(word[1], file, sizeof file, &bytes) || !answer(word[0], file, bytes)) {
            printf("the archive differs, or no hex: %.*s\n", (int)word[0].length, word[0].at);
            return 1;
        }
    }
    return 0;
}
