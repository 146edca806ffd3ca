/* Checks a script before the cell is switched on: check < script
 *
 * Build the library first (rt lib in crates/capi), then for example:
 *     cc -Iinclude examples/check.c crates/capi/out/libcapi.a -o check
 *
 * Status 0, or 1 where the script is refused, or 2 where it is called wrongly, or where reading or writing fails.
 */
#include <stdio.h>

#include "satvrengi.h"

/* One byte more than the longest script, so that a longer one is known. */
static uint8_t script[SATV_MOST_SCRIPT + 1];

static int failed(const char *what)
{
    perror(what);
    return 2;
}

int main(int count, char **words)
{
    (void)words;
    if (count != 1) {
        fprintf(stderr, "usage: check < script\n");
        return 2;
    }
    size_t length = fread(script, 1, sizeof script, stdin);
    if (ferror(stdin))
        return failed("check: standard input");
    SatvVerdict verdict = satv_script_check(script, length);
    printf("result=%u\n", (unsigned)verdict.result);
    if (verdict.result != SATV_GOOD)
        printf("line=%zu\n", verdict.line);
    if (fflush(stdout) != 0 || ferror(stdout))
        return failed("check: standard output");
    return verdict.result == SATV_GOOD ? 0 : 1;
}
