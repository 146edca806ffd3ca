#ifndef HEADERS_ERRNO_H
#define HEADERS_ERRNO_H

int *__errno_location(void);
#define errno (*__errno_location())

#endif
