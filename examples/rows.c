/* Lists all rows of a reply: rows < reply
 *
 * Build the library first (rt lib in crates/capi), then for example:
 *     cc -Iinclude examples/rows.c crates/capi/out/libcapi.a -o rows
 *
 * Status 0, or 1 where the reply is refused, or 2 where it is called wrongly, or where reading or writing fails.
 */
#include <stdio.h>

#include "satvrengi.h"

/* One byte more than the longest reply, so that a longer one is known. */
static uint8_t reply[SATV_MOST_REPLY + 1];

static uint32_t numbers[SATV_MOST_ROWS * SATV_NUMBERS_A_ROW];

static void put_row(size_t place)
{
    const uint32_t *row = numbers + place * SATV_NUMBERS_A_ROW;
    printf("row=%zu\nkind=%c\nmark=%04X\n", place, (int)row[0], (unsigned)row[1]);
    printf("parent=%u\npackages=%u\n", (unsigned)row[2], (unsigned)row[3]);
}

static int failed(const char *what)
{
    perror(what);
    return 2;
}

int main(int count, char **words)
{
    (void)words;
    if (count != 1) {
        fprintf(stderr, "usage: rows < reply\n");
        return 2;
    }
    size_t length = fread(reply, 1, sizeof reply, stdin);
    if (ferror(stdin))
        return failed("rows: standard input");
    SatvReply read = satv_reply_rows(reply, length, numbers, sizeof numbers / sizeof *numbers);
    if (read.result != SATV_GOOD)
        printf("result=%u\nline=%zu\n", (unsigned)read.result, read.line);
    else
        printf("result=0\ncode=%04X\nused=%zu\nrows=%zu\n", (unsigned)read.code, read.used, read.rows);
    for (size_t i = 0; i < read.rows; i++)
        put_row(i);
    if (fflush(stdout) != 0 || ferror(stdout))
        return failed("rows: standard output");
    return read.result == SATV_GOOD ? 0 : 1;
}
