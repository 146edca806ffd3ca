/* The functions of the C library that the tests call. Where the machine has no headers of it for x86-64, they are
 * declared here, as they are on x86-64 Linux. */
#ifndef HOST_H
#define HOST_H

#include <stddef.h>
#include <stdint.h>

#if __STDC_HOSTED__
#include <stdio.h>
#include <stdlib.h>
#include <string.h>
#include <sys/mman.h>
#include <unistd.h>
#else
#ifdef __cplusplus
extern "C" {
#endif
int printf(const char *, ...);
void perror(const char *);
void exit(int) __attribute__((noreturn));
void *memcpy(void *, const void *, size_t);
void *memmove(void *, const void *, size_t);
void *memset(void *, int, size_t);
int memcmp(const void *, const void *, size_t);
size_t strlen(const char *);
int strncmp(const char *, const char *, size_t);
char *strstr(const char *, const char *);
unsigned long strtoul(const char *, char **, int);
long read(int, void *, size_t);
long sysconf(int);
void *mmap(void *, size_t, int, int, int, long);
int mprotect(void *, size_t, int);
#ifdef __cplusplus
/* Without this, C++ that knows no C library gives main a name of its own. */
int main(void);
}
#endif
#define EXIT_SUCCESS 0
#define EXIT_FAILURE 1
#define PROT_NONE 0
#define PROT_READ 1
#define PROT_WRITE 2
#define MAP_PRIVATE 2
#define MAP_ANONYMOUS 32
#define MAP_FAILED ((void *)-1)
#define _SC_PAGESIZE 30
#endif

#endif
