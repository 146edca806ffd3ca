/* How much stack each entry point takes: the stack below is painted, the entry point is called, and how far down the
 * paint is gone is what it took. Fails where that is more than the header says. */
#define _DEFAULT_SOURCE
#include "host.h"
#include "satvrengi.h"

enum { STACK = 1 << 20, PAINT = 0xA5 };

static uint8_t bytes[SATV_MOST_REPLY + 1];
static size_t length;
static uint32_t numbers[SATV_MOST_ROWS * SATV_NUMBERS_A_ROW];
static uint8_t buffer[256];

static void frame_read(void) { satv_frame_read(bytes, length, 0); }
static void frame_write(void) { satv_frame_write(bytes, length, 0, buffer, sizeof buffer); }
static void reply_read(void) { satv_reply_read(bytes, length); }
static void reply_rows(void) { satv_reply_rows(bytes, length, numbers, sizeof numbers / sizeof *numbers); }
static void reply_row(void) { satv_reply_row(bytes, length, 1); }
static void script_check(void) { satv_script_check(bytes, length); }

/* Where the paint begins, and where the stack stood when the entry point was called. */
static uintptr_t painted, stood;

static __attribute__((noinline)) void paint(void)
{
    volatile uint8_t area[STACK];
    for (size_t i = 0; i < sizeof area; i++)
        area[i] = PAINT;
    painted = (uintptr_t)area;
}

static __attribute__((noinline)) void call(void (*function)(void))
{
    volatile uint8_t here = 0;
    stood = (uintptr_t)&here;
    function();
    /* So that this is still there while the function runs. */
    here = 1;
}

static size_t taken_by(void (*function)(void))
{
    size_t untouched = 0;
    /* Once before: what the dynamic linker needs to bind a name of the C library is not the entry point's. */
    call(function);
    paint();
    call(function);
    const volatile uint8_t *at = (const volatile uint8_t *)painted;
    while (untouched < STACK && at[untouched] == PAINT)
        untouched++;
    return stood - (painted + untouched);
}

/* Text with `|` for newline becomes the bytes; it is put there so many times, and then its end once. */
static void say(const char *text, size_t times, const char *end)
{
    length = 0;
    for (size_t i = 0; i <= times; i++)
        for (const char *at = i < times ? text : end; *at != '\0' && length < sizeof bytes; at++)
            bytes[length++] = (uint8_t)(*at == '|' ? '\n' : *at);
}

static const struct {
    const char *text;
    size_t times;
    const char *end;
} inputs[] = {
    {"", 0, ""},
    {"t0A9524", 1, ""},
    {"x", SATV_MOST_CONTENT, ""},
    {"x", SATV_MOST_CONTENT, "05FFFF"},
    {"e|L|M0001|Paa8000000 ;ba8000001m,14,203;cc     nan|*|+||", 1, ""},
    {"e|Paa8000000 ;", 1, "ba8000001u;ba8000001u;ba8000001u;ba8000001u;ba8000001u;ba8000001u;ba8000001u||"},
    {"e|L|L|L|L|L|L|L|L|+|+|+|+|+|+|+|+|e!0010: x|", 1, ""},
    {"e|L|L|L|L|L|L|M0005|", 1, "C0000|Paa8000000 |-|C|Paa8000000 |-|*|+|+|+|+|+|+||"},
    {"e|", 1, "e!00FF|"},
    {"x", SATV_MOST_REPLY, ""},
    {"|", 1, ""},
    {"var a|store_var a 1 ja|if a == 1|loop a < 2|", 1, "endloop|elseif a > 1|else|endif|on_finished:|cell_off||"},
    {"loop 1 == 1|", 8, "breakloop|endloop|endloop|endloop|endloop|endloop|endloop|endloop|endloop||"},
    {"if 1 == 1|", 8, "cell_on|endif|endif|endif|endif|endif|endif|endif|endif||"},
    {"loop 1 == 1|", 9, "|"},
    {"var p|var c|meas_loop_lsv p c -200m 200m 10m 100m|pck_start|pck_add p|pck_add c|pck_end|endloop||", 1, ""},
    {"send_string \"x\"|", 128, "|"},
    {"x", SATV_MOST_SCRIPT + 1, ""},
};

static int failed;

static void measure(const char *name, void (*function)(void), size_t most)
{
    size_t taken = 0;
    for (size_t i = 0; i < sizeof inputs / sizeof *inputs; i++) {
        say(inputs[i].text, inputs[i].times, inputs[i].end);
        size_t now = taken_by(function);
        taken = now > taken ? now : taken;
    }
    int good = taken > 0 && taken <= most;
    failed += !good;
    printf("stack: %s takes %lu of %lu bytes%s\n", name, (unsigned long)taken, (unsigned long)most,
           good ? "" : ", TOO MANY");
}

int main(void)
{
    measure("satv_frame_read", frame_read, SATV_STACK_FRAME_READ);
    measure("satv_frame_write", frame_write, SATV_STACK_FRAME_WRITE);
    measure("satv_reply_read", reply_read, SATV_STACK_REPLY_READ);
    measure("satv_reply_rows", reply_rows, SATV_STACK_REPLY_ROWS);
    measure("satv_reply_row", reply_row, SATV_STACK_REPLY_ROW);
    measure("satv_script_check", script_check, SATV_STACK_SCRIPT_CHECK);
    return failed == 0 ? EXIT_SUCCESS : EXIT_FAILURE;
}
