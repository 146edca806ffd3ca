/* Prints one row of a reply: row NUMBER < reply
 *
 * Build the library first (rt lib in crates/capi), then for example:
 *     cc -Iinclude examples/row.c crates/capi/out/libcapi.a -o row
 *
 * Status 0, or 1 where the reply is refused or has no such row, or 2 where it is called wrongly, or where reading or
 * writing fails.
 */
#include <errno.h>
#include <stdio.h>
#include <stdlib.h>
#include <string.h>

#include "satvrengi.h"

/* One byte more than the longest reply, so that a longer one is known. */
static uint8_t reply[SATV_MOST_REPLY + 1];

/* The number of a word of decimal digits; 0 in `good` where it is none, or too great. */
static size_t number_of(const char *word, int *good)
{
    errno = 0;
    unsigned long number = strtoul(word, NULL, 10);
    *good = word[0] != '\0' && strspn(word, "0123456789") == strlen(word) && errno == 0;
    return number;
}

static int failed(const char *what)
{
    perror(what);
    return 2;
}

int main(int count, char **words)
{
    int good = 0;
    size_t number = count == 2 ? number_of(words[1], &good) : 0;
    if (!good) {
        fprintf(stderr, "usage: row NUMBER < reply\n");
        return 2;
    }
    size_t length = fread(reply, 1, sizeof reply, stdin);
    if (ferror(stdin))
        return failed("row: standard input");
    SatvRow row = satv_reply_row(reply, length, number);
    if (row.result != SATV_GOOD) {
        printf("result=%u\nline=%zu\n", (unsigned)row.result, row.line);
    } else {
        printf("kind=%c\nmark=%04X\n", row.kind, (unsigned)row.mark);
        printf("parent=%zu\npackages=%zu\n", row.parent, row.packages);
    }
    if (fflush(stdout) != 0 || ferror(stdout))
        return failed("row: standard output");
    return row.result == SATV_GOOD ? 0 : 1;
}
