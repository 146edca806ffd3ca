/* The C entry points, called as the bench computer's program calls them: every number of every answer, at both ends of
 * memory between forbidden pages. What is only read lies on pages that may not be written. Good C++ too. */
#define _DEFAULT_SOURCE
#include "host.h"
#include "lend.h"
#include "satvrengi.h"

static int passed, failed;

static void expect(int good, const char *what)
{
    if (good) {
        passed++;
    } else {
        failed++;
        printf("c: failed: %s\n", what);
    }
}

/* ---- frames */

static int same_frame(SatvFrame frame, unsigned result, unsigned next, size_t length)
{
    return frame.result == result && frame.next == next && frame.length == length;
}

static void frame_read(const char *line, uint8_t expected, unsigned result)
{
    size_t length = strlen(line);
    for (int at_front = 0; at_front < 2; at_front++) {
        SatvFrame read = satv_frame_read(lend(line, length, at_front), length, expected);
        if (result == SATV_GOOD)
            expect(same_frame(read, SATV_GOOD, (uint8_t)(expected + 1), length - (SATV_FRAME_REST - 1)), line);
        else
            expect(same_frame(read, result, expected, 0), line);
    }
}

static void frames_read(void)
{
    char long_line[SATV_MOST_CONTENT + SATV_FRAME_REST + 1];
    memset(long_line, 'x', sizeof long_line);
    long_line[sizeof long_line - 1] = '\0';
    frame_read("t0A9524", 0x0A, SATV_GOOD);
    frame_read("<0A>04935F", 0x04, SATV_GOOD);
    frame_read("tes4_hr1000#Jun  7 2021 16:51:380569DC", 0x05, SATV_GOOD);
    frame_read("tes4_hr1000#Jun 7 2021 16:51:380569DC", 0x05, SATV_WRONG_CRC);
    frame_read("e03BFA2", 0x03, SATV_GOOD);
    frame_read("e03BFA2", 0x04, SATV_WRONG_NUMBER);
    frame_read("e03bFA2", 0x03, SATV_WRONG_CRC);
    frame_read("057E6C", 0x05, SATV_GOOD);
    frame_read("57E6C", 0x05, SATV_SHORT_LINE);
    frame_read("", 0x05, SATV_SHORT_LINE);
    frame_read(long_line, 0x05, SATV_BAD_CONTENT);
}

/* Content into room for so many bytes. What is written is the line; all else stays. */
static void frame_write(const char *content, uint8_t number, size_t room, unsigned result, const char *line)
{
    size_t length = strlen(content), written = strlen(line);
    for (int at_front = 0; at_front < 2; at_front++) {
        const uint8_t *lent = lend(content, length, at_front);
        uint8_t *buffer = lend_room(room, at_front);
        SatvFrame wrote = satv_frame_write(lent, length, number, buffer, room);
        if (result == SATV_GOOD)
            expect(same_frame(wrote, SATV_GOOD, (uint8_t)(number + 1), written), content);
        else
            expect(same_frame(wrote, result, number, 0), content);
        expect(memcmp(buffer, line, written) == 0 && room_is_kept(written), content);
    }
}

/* A line that was written is read back with the same number. */
static void frame_back(size_t length, uint8_t number)
{
    uint8_t content[SATV_MOST_CONTENT], buffer[SATV_MOST_CONTENT + SATV_FRAME_REST];
    for (size_t i = 0; i < length; i++) {
        uint8_t byte = (uint8_t)(i * 37 + number);
        content[i] = byte == '\n' ? ' ' : byte;
    }
    SatvFrame wrote = satv_frame_write(content, length, number, buffer, sizeof buffer);
    expect(same_frame(wrote, SATV_GOOD, (uint8_t)(number + 1), length + SATV_FRAME_REST), "a line written");
    expect(buffer[wrote.length - 1] == '\n', "its newline");
    SatvFrame read = satv_frame_read(buffer, wrote.length - 1, number);
    expect(same_frame(read, SATV_GOOD, wrote.next, length), "the line read back");
    expect(memcmp(buffer, content, length) == 0, "its content");
}

static void frames_written(void)
{
    char long_content[SATV_MOST_CONTENT + 2];
    memset(long_content, 'x', sizeof long_content);
    long_content[sizeof long_content - 1] = '\0';
    frame_write("t", 0x0A, 8, SATV_GOOD, "t0A9524\n");
    frame_write("t", 0x0A, 100, SATV_GOOD, "t0A9524\n");
    frame_write("e", 0x03, 9, SATV_GOOD, "e03BFA2\n");
    frame_write("", 0x05, 7, SATV_GOOD, "057E6C\n");
    frame_write("t", 0x0A, 7, SATV_SHORT_BUFFER, "");
    frame_write("", 0x05, 0, SATV_SHORT_BUFFER, "");
    frame_write("t\nt", 0x0A, 100, SATV_BAD_CONTENT, "");
    frame_write("t\n", 0x0A, 0, SATV_BAD_CONTENT, "");
    frame_write(long_content, 0xFF, 200, SATV_BAD_CONTENT, "");
    for (size_t length = 0; length <= SATV_MOST_CONTENT; length++)
        frame_back(length, (uint8_t)(length * 5 + 129));
    frame_back(0, 0xFF);
}

/* ---- replies */

/* A text with `|` for newline, lent. */
static const uint8_t *lend_text(const char *text, size_t length, int at_front)
{
    static char bytes[4096];
    for (size_t i = 0; i < length; i++)
        bytes[i] = text[i] == '|' ? '\n' : text[i];
    return lend(bytes, length, at_front);
}

static int same_reply(SatvReply read, unsigned result, size_t line, uint32_t code, size_t used, size_t rows)
{
    return read.result == result && read.line == line && read.code == code && read.used == used && read.rows == rows;
}

static void reply(const char *text, unsigned result, size_t line, uint32_t code, size_t used, size_t rows)
{
    size_t length = strlen(text);
    for (int at_front = 0; at_front < 2; at_front++) {
        const uint8_t *lent = lend_text(text, length, at_front);
        expect(same_reply(satv_reply_read(lent, length), result, line, code, used, rows), text);
    }
}

static void row(const char *text, size_t number, unsigned result, size_t line, uint8_t kind, uint32_t mark,
                size_t parent, size_t packages)
{
    size_t length = strlen(text);
    for (int at_front = 0; at_front < 2; at_front++) {
        SatvRow read = satv_reply_row(lend_text(text, length, at_front), length, number);
        expect(read.result == result && read.line == line && read.kind == kind, text);
        expect(read.mark == mark && read.parent == parent && read.packages == packages, text);
    }
}

/* All rows into room for so many numbers: they are those of satv_reply_row, and all else stays. */
static void rows(const char *text, size_t room, unsigned result, size_t line, uint32_t code, size_t used, size_t count)
{
    size_t length = strlen(text);
    for (int at_front = 0; at_front < 2; at_front++) {
        const uint8_t *lent = lend_text(text, length, at_front);
        uint32_t *numbers = (uint32_t *)lend_room(room * sizeof(uint32_t), at_front);
        SatvReply read = satv_reply_rows(lent, length, numbers, room);
        expect(same_reply(read, result, line, code, used, count), text);
        expect(room_is_kept(count * SATV_NUMBERS_A_ROW * sizeof(uint32_t)), text);
        for (size_t i = 0; i < count; i++) {
            SatvRow one = satv_reply_row(lent, length, i);
            const uint32_t *four = numbers + i * SATV_NUMBERS_A_ROW;
            expect(one.result == SATV_GOOD && four[0] == one.kind && four[1] == one.mark, text);
            expect(four[2] == one.parent && four[3] == one.packages, text);
        }
    }
}

static const char nested[] = "e|L|M0001|Paa8000000 |*|+||";
static const char scanned[] = "e|M0005|C0001|Paa8000000 |-|C|-|*||";

/* A reply with so many loops, one after the other. */
static size_t loops(uint8_t *bytes, size_t count)
{
    size_t length = 0;
    bytes[length++] = 'e';
    for (size_t i = 0; i < count; i++) {
        memcpy(bytes + length, "\nL\n+", 4);
        length += 4;
    }
    memcpy(bytes + length, "\n\n", 2);
    return length + 2;
}

/* The letters of all rows of a sweep with two scans in it, by one call. */
static void scans_listed(void)
{
    enum { ROWS = 4 };
    uint32_t numbers[ROWS * SATV_NUMBERS_A_ROW];
    const uint8_t *lent = lend_text(scanned, strlen(scanned), 0);
    SatvReply read = satv_reply_rows(lent, strlen(scanned), numbers, ROWS * SATV_NUMBERS_A_ROW);
    expect(same_reply(read, SATV_GOOD, 0, 0, strlen(scanned), ROWS), scanned);
    for (size_t i = 0; i < ROWS; i++)
        expect(numbers[i * SATV_NUMBERS_A_ROW] == (uint32_t)"SMCC"[i], "the letter of a scan");
}

/* As many rows as the table has, and one more. */
static void many_rows(void)
{
    static uint8_t bytes[MOST_LENT];
    for (size_t count = SATV_MOST_ROWS - 1; count <= SATV_MOST_ROWS; count++) {
        size_t length = loops(bytes, count), room = SATV_MOST_ROWS * SATV_NUMBERS_A_ROW;
        const uint8_t *lent = lend(bytes, length, 0);
        SatvReply read = satv_reply_read(lent, length);
        SatvReply listed = satv_reply_rows(lent, length, (uint32_t *)lend_room(room * sizeof(uint32_t), 0), room);
        SatvRow last = satv_reply_row(lent, length, count);
        if (count < SATV_MOST_ROWS) {
            expect(same_reply(read, SATV_GOOD, 0, 0, length, count + 1), "1,024 rows");
            expect(same_reply(listed, SATV_GOOD, 0, 0, length, count + 1), "1,024 rows listed");
            expect(last.result == SATV_GOOD && last.kind == 'L' && last.line == 0, "row 1,023");
        } else {
            expect(same_reply(read, SATV_SHORT_TABLE, count * 2, 0, 0, 0), "1,025 rows");
            expect(same_reply(listed, SATV_SHORT_TABLE, count * 2, 0, 0, 0) && room_is_kept(0), "1,025 rows listed");
            expect(last.result == SATV_SHORT_TABLE && last.line == count * 2 && last.kind == 0, "row 1,024");
        }
    }
}

/* The longest reply, and one byte more. */
static void long_reply(void)
{
    static uint8_t bytes[SATV_MOST_REPLY + 1];
    memset(bytes, 'x', sizeof bytes);
    memcpy(bytes, "e\nT", 3);
    memcpy(bytes + SATV_MOST_REPLY - 2, "\n\n", 2);
    const uint8_t *lent = lend(bytes, SATV_MOST_REPLY, 0);
    expect(same_reply(satv_reply_read(lent, SATV_MOST_REPLY), SATV_GOOD, 0, 0, SATV_MOST_REPLY, 1), "65,536 bytes");
    lent = lend(bytes, sizeof bytes, 0);
    expect(same_reply(satv_reply_read(lent, sizeof bytes), SATV_LONG_REPLY, 0, 0, 0, 0), "65,537 bytes");
}

static void replies(void)
{
    reply("e|M0000|*||", SATV_GOOD, 0, 0, 11, 2);
    reply("e!4001: Line 2|", SATV_GOOD, 0, 0x4001, 15, 1);
    reply("e|L|e!0010|", SATV_GOOD, 0, 0x0010, 11, 2);
    reply("e|L||", SATV_NO_MATE, 3, 0, 0, 0);
    reply("e|M0000|", SATV_NO_ENDING, 3, 0, 0, 0);
    reply("e|x|", SATV_UNKNOWN_LINE, 2, 0, 0, 0);
    reply("e|P|", SATV_BAD_PART, 2, 0, 0, 0);
    reply("e|L|L|L|L|L|L|L|L|L|", SATV_NINTH_LOOP, 10, 0, 0, 0);
    reply("", SATV_NO_ENDING, 1, 0, 0, 0);
    reply(scanned, SATV_GOOD, 0, 0, strlen(scanned), 4);
    reply("e|L|C|-|+||", SATV_NO_MATE, 3, 0, 0, 0);
    reply("e|M0005|C|L|+|-|*||", SATV_NO_MATE, 4, 0, 0, 0);
    reply("e|L|L|L|L|L|L|L|M0000|C|", SATV_NINTH_LOOP, 10, 0, 0, 0);
    row(nested, 0, SATV_GOOD, 0, 'S', 0, 0, 0);
    row(nested, 1, SATV_GOOD, 0, 'L', 0, 0, 0);
    row(nested, 2, SATV_GOOD, 0, 'M', 1, 1, 1);
    row(nested, 3, SATV_NO_SUCH_ROW, 0, 0, 0, 0, 0);
    row(nested, (size_t)-1, SATV_NO_SUCH_ROW, 0, 0, 0, 0, 0);
    row(scanned, 1, SATV_GOOD, 0, 'M', 5, 0, 0);
    row(scanned, 2, SATV_GOOD, 0, 'C', 0, 1, 1);
    row(scanned, 3, SATV_GOOD, 0, 'C', 0, 1, 0);
    row(scanned, 4, SATV_NO_SUCH_ROW, 0, 0, 0, 0, 0);
    row("e|*|", 9, SATV_NO_MATE, 2, 0, 0, 0, 0);
    row("", 0, SATV_NO_ENDING, 1, 0, 0, 0, 0);
    rows(nested, 12, SATV_GOOD, 0, 0, strlen(nested), 3);
    rows(nested, 15, SATV_GOOD, 0, 0, strlen(nested), 3);
    rows(nested, 4096, SATV_GOOD, 0, 0, strlen(nested), 3);
    rows(nested, 11, SATV_SHORT_TABLE, 3, 0, 0, 0);
    rows(nested, 4, SATV_SHORT_TABLE, 2, 0, 0, 0);
    rows(nested, 3, SATV_SHORT_TABLE, 1, 0, 0, 0);
    rows(nested, 0, SATV_SHORT_TABLE, 1, 0, 0, 0);
    rows(scanned, 16, SATV_GOOD, 0, 0, strlen(scanned), 4);
    rows(scanned, 15, SATV_SHORT_TABLE, 6, 0, 0, 0);
    rows("e|L|e!0010|", 100, SATV_GOOD, 0, 0x0010, 11, 2);
    rows("e|L||", 100, SATV_NO_MATE, 3, 0, 0, 0);
    rows("", 100, SATV_NO_ENDING, 1, 0, 0, 0);
    scans_listed();
    many_rows();
    long_reply();
}

/* ---- scripts */

static void script(const char *text, unsigned result, size_t line)
{
    size_t length = strlen(text);
    for (int at_front = 0; at_front < 2; at_front++) {
        SatvVerdict verdict = satv_script_check(lend_text(text, length, at_front), length);
        expect(verdict.result == result && verdict.line == line, text);
    }
}

static void scripts(void)
{
    static uint8_t bytes[SATV_MOST_SCRIPT + 1];
    script("|", SATV_GOOD, 0);
    script("var a|cell_on|on_finished:|cell_off||", SATV_GOOD, 0);
    script("", SATV_NO_END, 1);
    script("cell_on|", SATV_NO_END, 2);
    script("cell_oN||", SATV_UNKNOWN_COMMAND, 1);
    script("wait 1 # x||", SATV_BAD_ARGUMENTS, 1);
    script("var a|wait b||", SATV_UNDECLARED, 2);
    script("var a|var a||", SATV_DECLARED_TWICE, 2);
    script("wait 1i||", SATV_WRONG_KIND, 1);
    script("var a|wait a||", SATV_NOT_SURELY_WRITTEN, 2);
    script("cell_on|loop 1 == 1||", SATV_BAD_MARK, 3);
    script("pck_end||", SATV_BAD_PACKAGE_MARK, 1);
    script("on_finished:|on_finished:||", SATV_BAD_TAG, 2);
    script("var a|meas_loop_lsv a a 0 1 1 1|endloop||", SATV_SAME_NAME, 2);
    memset(bytes, ' ', sizeof bytes);
    bytes[0] = '\n';
    SatvVerdict longest = satv_script_check(lend(bytes, SATV_MOST_SCRIPT, 0), SATV_MOST_SCRIPT);
    expect(longest.result == SATV_GOOD && longest.line == 0, "8,192 bytes");
    SatvVerdict longer = satv_script_check(lend(bytes, sizeof bytes, 0), sizeof bytes);
    expect(longer.result == SATV_LONG_SCRIPT && longer.line == 0, "8,193 bytes");
}

/* ---- no bytes at all, behind a null pointer */

static void nothing(void)
{
    uint8_t buffer[SATV_FRAME_REST];
    uint32_t numbers[SATV_NUMBERS_A_ROW];
    SatvRow no_row = satv_reply_row(NULL, 0, 0);
    SatvVerdict no_script = satv_script_check(NULL, 0);
    expect(same_frame(satv_frame_read(NULL, 0, 7), SATV_SHORT_LINE, 7, 0), "no line");
    expect(same_frame(satv_frame_write(NULL, 0, 5, buffer, sizeof buffer), SATV_GOOD, 6, 7), "no content");
    expect(memcmp(buffer, "057E6C\n", 7) == 0, "a line without content");
    expect(same_frame(satv_frame_write((const uint8_t *)"t", 1, 5, NULL, 0), SATV_SHORT_BUFFER, 5, 0), "no buffer");
    expect(same_frame(satv_frame_write(NULL, 0, 5, NULL, 0), SATV_SHORT_BUFFER, 5, 0), "neither content nor buffer");
    expect(same_reply(satv_reply_read(NULL, 0), SATV_NO_ENDING, 1, 0, 0, 0), "no reply");
    expect(same_reply(satv_reply_rows(NULL, 0, numbers, SATV_NUMBERS_A_ROW), SATV_NO_ENDING, 1, 0, 0, 0),
           "no reply to list");
    expect(same_reply(satv_reply_rows((const uint8_t *)"e\n\n", 3, NULL, 0), SATV_SHORT_TABLE, 1, 0, 0, 0),
           "no numbers");
    expect(same_reply(satv_reply_rows(NULL, 0, NULL, 0), SATV_NO_ENDING, 1, 0, 0, 0), "neither reply nor numbers");
    expect(no_row.result == SATV_NO_ENDING && no_row.line == 1 && no_row.kind == 0 && no_row.mark == 0, "no row");
    expect(no_row.parent == 0 && no_row.packages == 0, "nothing of no row");
    expect(no_script.result == SATV_NO_END && no_script.line == 1, "no script");
}

/* ---- bytes of any sort: what matters is that only they are read, and only the lent memory is written */

static uint32_t next_random(void)
{
    static uint32_t state = 1;
    state = state * 1664525u + 1013904223u;
    return state >> 8;
}

static int any_case(int turn)
{
    static uint8_t bytes[400];
    size_t length = next_random() % sizeof bytes, room = next_random() % 40;
    for (size_t i = 0; i < length; i++)
        bytes[i] = (uint8_t)("eM0L*+C-P\nda;F 8"[next_random() % 16]);
    const uint8_t *lent = lend(bytes, length, turn % 2);
    SatvReply answer = satv_reply_read(lent, length);
    SatvReply listed = satv_reply_rows(lent, length, (uint32_t *)lend_room(room * 4, turn % 2), room);
    int kept = room_is_kept(listed.rows * SATV_NUMBERS_A_ROW * 4);
    uint8_t *buffer = lend_room(room * 4, turn % 2);
    SatvFrame wrote = satv_frame_write(lent, length, (uint8_t)turn, buffer, room * 4);
    return kept && room_is_kept(wrote.length) && satv_frame_read(lent, length, 0).result <= SATV_WRONG_NUMBER
        && satv_reply_row(lent, length, turn % 4).result <= SATV_NO_SUCH_ROW && answer.result <= SATV_LONG_REPLY
        && satv_script_check(lent, length).result <= SATV_NESTED_SWEEP;
}

static void any_bytes(int turns)
{
    int good = 1;
    for (int turn = 0; turn < turns && good; turn++)
        good = any_case(turn);
    expect(good, "any bytes");
}

int main(void)
{
    frames_read();
    frames_written();
    replies();
    scripts();
    nothing();
    any_bytes(2000);
    printf("c: %d passed, %d failed\n", passed, failed);
    return failed == 0 ? EXIT_SUCCESS : EXIT_FAILURE;
}
