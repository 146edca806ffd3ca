/* The answers of the C entry points to cases from standard input, each ended by an empty line: frame_read, frame_write,
 * reply (with 1,024 rows at the most), row and check. Behind each, as `numbers=`, all that the entry point gave back, in
 * the order of its struct. All memory is lent at either end of pages between forbidden ones. */
#define _DEFAULT_SOURCE
#include "host.h"
#include "lend.h"
#include "satvrengi.h"

enum { MOST_TEXT = 1 << 20, MOST_BYTES = MOST_LENT, MOST_BUFFER = 4096 };

/* What a lent buffer holds, where the case's own text is too long to be laid in it. */
enum { BEFORE = 165 };

/* What has been read and not yet answered, ended by a zero byte. */
static char text[MOST_TEXT + 1];
static size_t have;

/* Takes on more of standard input; 0 at its end, or where a case has no room. */
static int more(void)
{
    long got = have < MOST_TEXT ? read(0, text + have, MOST_TEXT - have) : 0;
    if (got <= 0)
        return 0;
    have += (size_t)got;
    text[have] = '\0';
    return 1;
}

/* The value of the case's line with this key, `=` included; an empty line ends the case. */
static const char *value(const char *at, const char *key)
{
    for (; *at != '\0' && *at != '\n'; at++) {
        if (strncmp(at, key, strlen(key)) == 0)
            return at + strlen(key);
        while (*at != '\n')
            at++;
    }
    return "";
}

static int digit(char c)
{
    return c >= '0' && c <= '9' ? c - '0' : c >= 'A' && c <= 'F' ? c - 'A' + 10 : -1;
}

/* The bytes of the case's line with this key, lent. */
static const uint8_t *bytes(const char *at, const char *key, size_t *length, int at_front)
{
    static uint8_t read[MOST_BYTES];
    const char *digits = value(at, key);
    size_t n = 0;
    for (; n < MOST_BYTES && digit(digits[0]) >= 0 && digit(digits[1]) >= 0; digits += 2)
        read[n++] = (uint8_t)(digit(digits[0]) * 16 + digit(digits[1]));
    *length = n;
    return lend(read, n, at_front);
}

static void put_bytes(const uint8_t *from, size_t length)
{
    for (size_t i = 0; i < length; i++)
        printf("%02X", from[i]);
}

/* A number of the case in decimal digits, and one byte in two hex digits. */
static size_t count_of(const char *at, const char *key)
{
    return strtoul(value(at, key), NULL, 10);
}

static uint8_t byte_of(const char *at, const char *key)
{
    return (uint8_t)strtoul(value(at, key), NULL, 16);
}

static void put_refused(unsigned result, const char *key, size_t place)
{
    printf("result=%u\n%s=%lu\n", result, key, (unsigned long)place);
}

static void put_frame_numbers(SatvFrame frame)
{
    printf("numbers=%u %u %lu\n", frame.result, frame.next, (unsigned long)frame.length);
}

static void frame_read(const char *at, int at_front)
{
    size_t length;
    const uint8_t *line = bytes(at, "line=", &length, at_front);
    SatvFrame frame = satv_frame_read(line, length, byte_of(at, "expected="));
    if (frame.result != SATV_GOOD) {
        put_refused(frame.result, "place", 0);
    } else {
        printf("result=0\ncontent=");
        put_bytes(line, frame.length);
        printf("\nnext=%02X\n", frame.next);
    }
    put_frame_numbers(frame);
}

/* The buffer holds the case's own text before it is lent, as far as that is not too long. */
static void frame_write(const char *at, size_t text_length, int at_front)
{
    static uint8_t before[MOST_BUFFER];
    size_t length, room = count_of(at, "buffer=");
    const uint8_t *content = bytes(at, "content=", &length, at_front);
    uint8_t number = byte_of(at, "number=");
    room = room < MOST_BUFFER ? room : MOST_BUFFER;
    memset(before, BEFORE, sizeof before);
    if (text_length <= sizeof before)
        memcpy(before, at, text_length);
    uint8_t *buffer = lend_room(room, at_front);
    memcpy(buffer, before, room);
    SatvFrame frame = satv_frame_write(content, length, number, buffer, room);
    if (frame.result != SATV_GOOD) {
        put_refused(frame.result, "place", 0);
    } else {
        printf("result=0\nbytes=");
        put_bytes(buffer, frame.length);
        printf("\nhost=%02X\n", frame.next);
    }
    printf("lent=");
    put_bytes(buffer, room);
    printf(room_is_kept(room) ? "\n" : "\nwritten elsewhere\n");
    put_frame_numbers(frame);
}

static void put_row(unsigned kind, unsigned mark, size_t parent, size_t packages)
{
    printf("kind=%c\nmark=%04X\n", (int)kind, mark);
    printf("parent=%lu\npackages=%lu\n", (unsigned long)parent, (unsigned long)packages);
}

/* What every row holds before it is lent; no reply makes such a row. */
static const uint32_t no_row[SATV_NUMBERS_A_ROW] = {'L', 999, 77, 99};

static size_t rows_kept(const uint32_t *numbers)
{
    size_t kept = 0;
    for (size_t i = 0; i < SATV_MOST_ROWS; i++)
        kept += memcmp(numbers + i * SATV_NUMBERS_A_ROW, no_row, sizeof no_row) == 0;
    return kept;
}

/* With 1,024 rows lent, the other two entry points must say the same. */
static int others_agree(const uint8_t *lent, size_t length, SatvReply read, const uint32_t *numbers)
{
    SatvReply other = satv_reply_read(lent, length);
    int agree = other.result == read.result && other.line == read.line && other.code == read.code
        && other.used == read.used && other.rows == read.rows;
    for (size_t i = 0; agree && i < read.rows; i++) {
        SatvRow row = satv_reply_row(lent, length, i);
        const uint32_t *four = numbers + i * SATV_NUMBERS_A_ROW;
        agree = row.result == SATV_GOOD && row.line == 0 && row.kind == four[0] && row.mark == four[1]
            && row.parent == four[2] && row.packages == four[3];
    }
    return agree;
}

static void reply(const char *at, int at_front)
{
    enum { NUMBERS = SATV_MOST_ROWS * SATV_NUMBERS_A_ROW };
    size_t length, rows = count_of(at, "rows=");
    const uint8_t *lent = bytes(at, "bytes=", &length, at_front);
    uint32_t *numbers = (uint32_t *)lend_room(NUMBERS * sizeof(uint32_t), at_front);
    rows = rows < SATV_MOST_ROWS ? rows : SATV_MOST_ROWS;
    for (size_t i = 0; i < NUMBERS; i++)
        numbers[i] = no_row[i % SATV_NUMBERS_A_ROW];
    SatvReply read = satv_reply_rows(lent, length, numbers, rows * SATV_NUMBERS_A_ROW);
    if (read.result != SATV_GOOD) {
        put_refused(read.result, "line", read.line);
    } else {
        printf("result=0\ncode=%04X\n", (unsigned)read.code);
        printf("used=%lu\nrows=%lu\n", (unsigned long)read.used, (unsigned long)read.rows);
    }
    for (size_t i = 0; i < read.rows; i++) {
        const uint32_t *four = numbers + i * SATV_NUMBERS_A_ROW;
        printf("row=%lu\n", (unsigned long)i);
        put_row(four[0], four[1], four[2], four[3]);
    }
    if (rows == SATV_MOST_ROWS && !others_agree(lent, length, read, numbers))
        printf("the entry points differ\n");
    printf("kept=%lu\n", (unsigned long)rows_kept(numbers));
    printf("numbers=%u %lu %lu %lu %lu\n", read.result, (unsigned long)read.code, (unsigned long)read.line,
           (unsigned long)read.used, (unsigned long)read.rows);
}

static void row(const char *at, int at_front)
{
    size_t length;
    const uint8_t *lent = bytes(at, "bytes=", &length, at_front);
    SatvRow read = satv_reply_row(lent, length, count_of(at, "row="));
    if (read.result != SATV_GOOD) {
        put_refused(read.result, "line", read.line);
    } else {
        printf("result=0\n");
        put_row(read.kind, read.mark, read.parent, read.packages);
    }
    printf("numbers=%u %u %lu %lu %lu %lu\n", read.result, read.kind, (unsigned long)read.mark,
           (unsigned long)read.line, (unsigned long)read.parent, (unsigned long)read.packages);
}

static void check(const char *at, int at_front)
{
    size_t length;
    const uint8_t *script = bytes(at, "script=", &length, at_front);
    SatvVerdict verdict = satv_script_check(script, length);
    if (verdict.result != SATV_GOOD)
        put_refused(verdict.result, "place", verdict.line);
    else
        printf("result=0\n");
    printf("numbers=%u %lu\n", verdict.result, (unsigned long)verdict.line);
}

/* Whether the case is one of this op. */
static int is_op(const char *at, const char *name)
{
    const char *op = value(at, "op=");
    return strncmp(op, name, strlen(name)) == 0 && op[strlen(name)] == '\n';
}

static void answer(const char *at, size_t text_length, int at_front)
{
    if (is_op(at, "frame_read"))
        frame_read(at, at_front);
    else if (is_op(at, "frame_write"))
        frame_write(at, text_length, at_front);
    else if (is_op(at, "reply"))
        reply(at, at_front);
    else if (is_op(at, "row"))
        row(at, at_front);
    else if (is_op(at, "check"))
        check(at, at_front);
    else
        printf("not a case\n");
    printf("\n");
}

int main(void)
{
    size_t at = 0;
    for (int turn = 0;;) {
        /* An empty line before a case is none. */
        while (text[at] == '\n')
            at++;
        const char *end = strstr(text + at, "\n\n");
        if (end != NULL) {
            answer(text + at, (size_t)(end - (text + at)), turn++ % 2);
            at = (size_t)(end - text) + 2;
            continue;
        }
        memmove(text, text + at, have - at + 1);
        have -= at;
        at = 0;
        if (!more())
            return have == 0 ? EXIT_SUCCESS : EXIT_FAILURE;
    }
}
