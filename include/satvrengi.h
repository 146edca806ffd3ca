/* Satvrengi for C: the proved readers, the frame writer and the script's checker, called with bytes and numbers.
 *
 * Bytes are handed over as a pointer and a length, and so is the memory that the caller lends to be written. Where the
 * length is 0 nothing is read or written, and the pointer may be null. What is read and what is lent must not overlap.
 *
 * Nothing is kept and nothing is allocated, and the library has no data that can be written: it may be called from
 * several threads at once, as long as no two calls are lent the same memory.
 *
 * How much stack a function may take, those that it calls included, is SATV_STACK_ and its name, in bytes: a thread
 * that calls it must have that much left. The numbers were measured, and the tests measure them again. Where a program
 * is linked lazily, the dynamic linker may take some KB on top at the first call, to find the C library's memset.
 */
#ifndef SATVRENGI_H
#define SATVRENGI_H

#include <stddef.h>
#include <stdint.h>

#define SATV_VERSION_MAJOR 1
#define SATV_VERSION_MINOR 0
#define SATV_VERSION_PATCH 0
/* One number that grows from version to version: 1.2.3 is 10203. */
#define SATV_VERSION (SATV_VERSION_MAJOR * 10000 + SATV_VERSION_MINOR * 100 + SATV_VERSION_PATCH)

/* The longest content of a frame, the longest reply and the longest script, in bytes. */
#define SATV_MOST_CONTENT 127
#define SATV_MOST_REPLY 65536
#define SATV_MOST_SCRIPT 8192

/* What a framed line has beside its content: two digits of line number, four of CRC, and its newline. */
#define SATV_FRAME_REST 7

/* The rows of satv_reply_read and satv_reply_row, and how many numbers a row of satv_reply_rows is. */
#define SATV_MOST_ROWS 1024
#define SATV_NUMBERS_A_ROW 4

/* The number with which the host's lines begin, and the instrument's. */
#define SATV_FIRST_NUMBER 0

#define SATV_STACK_FRAME_READ 1024
#define SATV_STACK_FRAME_WRITE 1024
#define SATV_STACK_REPLY_READ 1024
#define SATV_STACK_REPLY_ROWS 1024
#define SATV_STACK_REPLY_ROW 18432
#define SATV_STACK_SCRIPT_CHECK 65536

#ifdef __cplusplus
extern "C" {
#endif

/* The number of a result: 0, or why something is refused. The entry points give those numbers alone that they list
 * below; the others are the rest of the rules', for a program that also keeps numbers of the Rattle library. */
typedef uint16_t SatvResult;

enum {
    SATV_GOOD = 0,

    /* Frames. */
    SATV_BAD_CONTENT = 1,
    SATV_SHORT_LINE = 2,
    SATV_WRONG_CRC = 3,
    SATV_WRONG_NUMBER = 4,
    SATV_SHORT_BUFFER = 5,

    /* Scripts: form. */
    SATV_LONG_SCRIPT = 10,
    SATV_NO_END = 11,
    SATV_LONG_LINE = 12,
    SATV_TOO_MANY_ITEMS = 13,
    SATV_UNKNOWN_COMMAND = 14,
    SATV_BAD_ARGUMENTS = 15,
    SATV_UNDECLARED = 16,
    SATV_DECLARED_TWICE = 17,
    SATV_TOO_MANY_NAMES = 18,

    /* Scripts: rules. */
    SATV_WRONG_KIND = 19,
    SATV_NOT_SURELY_WRITTEN = 20,
    SATV_BAD_MARK = 21,
    SATV_NINTH_BOX = 22,
    SATV_BAD_PACKAGE_MARK = 23,
    SATV_BAD_TAG = 24,
    SATV_SAME_NAME = 25,
    SATV_NESTED_SWEEP = 26,

    /* A table, a run state or a reading that does not fit. */
    SATV_OUT_OF_SHAPE = 30,
    SATV_WRONG_READING = 31,

    /* Packages. */
    SATV_BAD_PART = 40,
    SATV_TOO_MANY_PARTS = 41,

    /* Replies. */
    SATV_NO_ENDING = 50,
    SATV_UNKNOWN_LINE = 51,
    SATV_NO_MATE = 52,
    SATV_NINTH_LOOP = 53,
    SATV_SHORT_TABLE = 54,
    SATV_LONG_REPLY = 55,
    SATV_NO_SUCH_ROW = 56,

    /* Faults of a run. */
    SATV_FAULT_UNWRITTEN = 60,
    SATV_FAULT_KIND = 61,
    SATV_FAULT_MARK = 62,
    SATV_FAULT_NINTH_BOX = 63,
    SATV_FAULT_PACKAGE = 64
};

/* What reading or writing a framed line gives.
 *
 * result  0, or why the line is refused; see the function
 * next    the number of the line after it; of a refused line, the number that was handed in
 * length  read: how many bytes of content there are, at the front of the line; written: how many bytes the line has in
 *         the buffer, its newline included; of a refused line 0
 */
typedef struct {
    SatvResult result;
    uint8_t next;
    size_t length;
} SatvFrame;

/* Reads one framed line, given without its newline, and the number that the instrument's next line should have. Refused
 * by, tested in this order:
 *
 *   SATV_SHORT_LINE    it has under 6 bytes
 *   SATV_BAD_CONTENT   its content has over 127 bytes
 *   SATV_WRONG_CRC     the CRC differs, one of its digits is not upper-case hex, or there is a newline in the line
 *   SATV_WRONG_NUMBER  the number is not the expected one, or one of its digits is not upper-case hex
 *
 * Stack: SATV_STACK_FRAME_READ.
 */
SatvFrame satv_frame_read(const uint8_t *line, size_t line_length, uint8_t expected);

/* Writes content as a framed line with the host's number and its newline, at the start of the buffer; what stands
 * behind the newline stays. Refused, with the buffer as it was, by, tested in this order:
 *
 *   SATV_BAD_CONTENT   the content has over 127 bytes, or a newline in it
 *   SATV_SHORT_BUFFER  the buffer has fewer bytes than the content and SATV_FRAME_REST
 *
 * The host's numbers and the instrument's are two counters: `next` of a line that was read is never the number of one
 * that is written.
 *
 * Stack: SATV_STACK_FRAME_WRITE.
 */
SatvFrame satv_frame_write(const uint8_t *content, size_t content_length, uint8_t number, uint8_t *buffer,
                           size_t buffer_length);

/* What reading a reply gives.
 *
 * result  0, or why the reply is refused:
 *           SATV_LONG_REPLY      it has over 65,536 bytes
 *           SATV_UNKNOWN_LINE    an unknown line
 *           SATV_BAD_PART        a package with a bad part
 *           SATV_TOO_MANY_PARTS  a package with a 17th part
 *           SATV_NO_MATE         a closing mark without its mate, a loop or scan where none may stand, or an ending
 *                                line with one open
 *           SATV_NINTH_LOOP      a ninth open loop or scan
 *           SATV_SHORT_TABLE     more rows than the table has
 *           SATV_NO_ENDING       no ending line
 * code    the error line's code that ended the reply, 0 where an empty line did
 * line    the line of the refusal, from 1; 0 for SATV_LONG_REPLY, and where there is none
 * used    how many bytes the reply took, its last newline included
 * rows    how many rows there are: the script's, and one for each loop and each scan
 * (Of a refused reply code, used and rows are 0.)
 */
typedef struct {
    SatvResult result;
    uint32_t code;
    size_t line;
    size_t used;
    size_t rows;
} SatvReply;

/* Reads a whole reply, for a table of 1,024 rows. Stack: SATV_STACK_REPLY_READ. */
SatvReply satv_reply_read(const uint8_t *reply, size_t reply_length);

/* Reads a whole reply, and puts all its rows into the lent numbers, SATV_NUMBERS_A_ROW to a row:
 *
 *   the letter of its kind   'S' for the script (row 0), 'M' for a measuring loop, 'L' for any other loop, 'C' for a
 *                            scan of a measuring loop
 *   its mark                 the code of a measuring loop's mark, otherwise 0
 *   its parent               the number of the row that it is directly inside; row 0 is its own
 *   its packages             how many packages are directly inside it
 *
 * `numbers_length` counts numbers, not bytes. The table has as many rows as the numbers have room for, and the reply is
 * refused by SATV_SHORT_TABLE where that is too few. Of a refused reply all the numbers stay as they were; those behind
 * the last row always do. Room for SATV_MOST_ROWS rows reads whatever satv_reply_read reads.
 *
 * Stack: SATV_STACK_REPLY_ROWS.
 */
SatvReply satv_reply_rows(const uint8_t *reply, size_t reply_length, uint32_t *numbers, size_t numbers_length);

/* One row of a reply.
 *
 * result    0; the reply's refusal, as above; or SATV_NO_SUCH_ROW
 * kind      'S', 'M', 'L' or 'C', as above
 * mark      the code of a measuring loop's mark, otherwise 0
 * line      the line of the reply's refusal; otherwise 0
 * parent    the number of the row that it is directly inside; row 0 is its own
 * packages  how many packages are directly inside it
 * (Where result is not 0, the others but line are 0.)
 */
typedef struct {
    SatvResult result;
    uint8_t kind;
    uint32_t mark;
    size_t line;
    size_t parent;
    size_t packages;
} SatvRow;

/* Reads a whole reply, for a table of 1,024 rows, and gives its row of that number, from 0. It reads the reply anew at
 * each call: whoever wants all rows calls satv_reply_rows once. Stack: SATV_STACK_REPLY_ROW. */
SatvRow satv_reply_row(const uint8_t *reply, size_t reply_length, size_t row);

/* What checking a script gives.
 *
 * result  0, or the number by which it is refused, form first (SATV_LONG_SCRIPT to SATV_TOO_MANY_NAMES), then the rules
 *         (SATV_WRONG_KIND to SATV_NESTED_SWEEP)
 * line    the line of the refusal, from 1; 0 for SATV_LONG_SCRIPT, and where there is none
 */
typedef struct {
    SatvResult result;
    size_t line;
} SatvVerdict;

/* Checks a script, so that it is refused before the cell is switched on. One that passes never stops half way, whatever
 * is measured. Stack: SATV_STACK_SCRIPT_CHECK. */
SatvVerdict satv_script_check(const uint8_t *script, size_t script_length);

#ifdef __cplusplus
}
#endif

#endif
