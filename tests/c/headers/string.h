#ifndef HEADERS_STRING_H
#define HEADERS_STRING_H

#include <stddef.h>

size_t strlen(const char *);
size_t strspn(const char *, const char *);
char *strchr(const char *, int);
int strcmp(const char *, const char *);

#endif
