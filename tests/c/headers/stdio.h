/* What the examples call of the C library, as it is on x86-64 Linux: for a machine that has no headers of it. */
#ifndef HEADERS_STDIO_H
#define HEADERS_STDIO_H

#include <stddef.h>

typedef struct _IO_FILE FILE;
extern FILE *stdin, *stdout, *stderr;
int printf(const char *, ...);
int fprintf(FILE *, const char *, ...);
size_t fread(void *, size_t, size_t, FILE *);
size_t fwrite(const void *, size_t, size_t, FILE *);
int fflush(FILE *);
int ferror(FILE *);
void perror(const char *);

#endif
