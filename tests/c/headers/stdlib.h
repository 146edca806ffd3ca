#ifndef HEADERS_STDLIB_H
#define HEADERS_STDLIB_H

unsigned long strtoul(const char *, char **, int);

#endif
