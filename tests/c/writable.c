/* writable FILE: how many bytes of data that can be written an archive of ELF files has, or one such file. Status 0
 * where there is none and at least one file was looked at, 1 where there is some. It reads the 64-bit little-endian form
 * of the x86-64 archive, on whatever machine it runs. */
#include <stdint.h>
#include <stdio.h>
#include <stdlib.h>
#include <string.h>

enum { MEMBER_HEAD = 60, MEMBER_SIZE = 48, MEMBER_SIZE_DIGITS = 10 };
enum { ELF_SECTIONS = 40, ELF_SECTION_SIZE = 58, ELF_SECTION_COUNT = 60, ELF_HEAD = 64 };
enum { SECTION_FLAGS = 8, SECTION_BYTES = 32, SECTION_HEAD = 64, FLAG_WRITE = 1, FLAG_ALLOC = 2 };

static const uint8_t archive_mark[] = {'!', '<', 'a', 'r', 'c', 'h', '>', '\n'};
static const uint8_t elf_mark[] = {0x7F, 'E', 'L', 'F', 2, 1};

static void stop(const char *why)
{
    fprintf(stderr, "writable: %s\n", why);
    exit(2);
}

static uint64_t number(const uint8_t *at, int bytes)
{
    uint64_t value = 0;
    while (bytes-- > 0)
        value = value << 8 | at[bytes];
    return value;
}

static uint64_t in_elf(const uint8_t *file, size_t length)
{
    if (length < ELF_HEAD)
        stop("an ELF file that is cut off");
    uint64_t start = number(file + ELF_SECTIONS, 8), count = number(file + ELF_SECTION_COUNT, 2), bytes = 0;
    if (number(file + ELF_SECTION_SIZE, 2) != SECTION_HEAD || count == 0 || start > length
        || count * SECTION_HEAD > length - start)
        stop("an ELF file without its sections");
    for (uint64_t i = 0; i < count; i++) {
        const uint8_t *section = file + start + i * SECTION_HEAD;
        uint64_t flags = number(section + SECTION_FLAGS, 8);
        if ((flags & FLAG_WRITE) && (flags & FLAG_ALLOC))
            bytes += number(section + SECTION_BYTES, 8);
    }
    return bytes;
}

static int is_elf(const uint8_t *file, size_t length)
{
    return length >= sizeof elf_mark && memcmp(file, elf_mark, sizeof elf_mark) == 0;
}

int main(int count, char **words)
{
    static uint8_t file[1 << 24];
    FILE *from = count == 2 ? fopen(words[1], "rb") : NULL;
    size_t length = from != NULL ? fread(file, 1, sizeof file, from) : 0, files = 0;
    uint64_t bytes = 0;
    if (from == NULL || ferror(from) || length == sizeof file)
        stop("usage: writable FILE, a file that can be read");
    if (is_elf(file, length)) {
        bytes = in_elf(file, length);
        files = 1;
    } else if (length >= sizeof archive_mark && memcmp(file, archive_mark, sizeof archive_mark) == 0) {
        for (size_t at = sizeof archive_mark; at + MEMBER_HEAD <= length;) {
            char digits[MEMBER_SIZE_DIGITS + 1] = {0};
            memcpy(digits, file + at + MEMBER_SIZE, MEMBER_SIZE_DIGITS);
            size_t size = strtoul(digits, NULL, 10);
            at += MEMBER_HEAD;
            if (size > length - at)
                stop("an archive that is cut off");
            if (is_elf(file + at, size)) {
                bytes += in_elf(file + at, size);
                files++;
            }
            at += size + size % 2;
        }
    }
    printf("writable: %s: %lu files, %lu bytes that can be written\n", words[1], (unsigned long)files,
           (unsigned long)bytes);
    return files > 0 && bytes == 0 ? EXIT_SUCCESS : EXIT_FAILURE;
}
