/* Writes a framed line, or reads one: frame write NUMBER < content, frame read NUMBER < line
 *
 * The number is two upper-case hex digits, as they stand in the line: the host's number of a line that is written, the
 * instrument's that is expected of one that is read. A line is written with its newline, and read with it or without.
 *
 * Build the library first (rt lib in crates/capi), then for example:
 *     cc -Iinclude examples/frame.c crates/capi/out/libcapi.a -o frame
 *
 * Status 0, or 1 where the content or the line is refused, or 2 where it is called wrongly, or where reading or writing
 * fails.
 */
#include <stdio.h>
#include <string.h>

#include "satvrengi.h"

/* The longest line with its newline, and one byte more, so that a longer one is known. */
static uint8_t given[SATV_MOST_CONTENT + SATV_FRAME_REST + 1];

static uint8_t line[SATV_MOST_CONTENT + SATV_FRAME_REST];

/* The number of two upper-case hex digits, or -1. */
static int number_of(const char *word)
{
    static const char digits[] = "0123456789ABCDEF";
    if (strlen(word) != 2 || strspn(word, digits) != 2)
        return -1;
    return (int)((strchr(digits, word[0]) - digits) * 16 + (strchr(digits, word[1]) - digits));
}

static int failed(const char *what)
{
    perror(what);
    return 2;
}

static SatvFrame put_line(size_t length, uint8_t number)
{
    SatvFrame frame = satv_frame_write(given, length, number, line, sizeof line);
    fwrite(line, 1, frame.length, stdout);
    return frame;
}

static SatvFrame put_content(size_t length, uint8_t number)
{
    if (length > 0 && given[length - 1] == '\n')
        length--;
    SatvFrame frame = satv_frame_read(given, length, number);
    if (frame.result == SATV_GOOD) {
        printf("next=%02X\ncontent=", (unsigned)frame.next);
        fwrite(given, 1, frame.length, stdout);
        printf("\n");
    }
    return frame;
}

int main(int count, char **words)
{
    int number = count == 3 ? number_of(words[2]) : -1;
    int writes = count == 3 && strcmp(words[1], "write") == 0;
    int reads = count == 3 && strcmp(words[1], "read") == 0;
    if (number < 0 || !(writes || reads)) {
        fprintf(stderr, "usage: frame write NUMBER < content\n       frame read NUMBER < line\n");
        return 2;
    }
    size_t length = fread(given, 1, sizeof given, stdin);
    if (ferror(stdin))
        return failed("frame: standard input");
    SatvFrame frame = writes ? put_line(length, (uint8_t)number) : put_content(length, (uint8_t)number);
    if (frame.result != SATV_GOOD)
        printf("result=%u\n", (unsigned)frame.result);
    if (fflush(stdout) != 0 || ferror(stdout))
        return failed("frame: standard output");
    return frame.result == SATV_GOOD ? 0 : 1;
}
