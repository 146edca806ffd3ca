/* Memory lent between two pages that may not be touched: a byte read or written outside ends the test. */
#ifndef LEND_H
#define LEND_H

#include <stddef.h>
#include <stdint.h>

/* The most bytes that are lent at once, to be read and to be written. */
enum { MOST_LENT = 1 << 17, MOST_ROOM = 1 << 15 };

/* A copy of the bytes that ends, or with at_front begins, where the forbidden page does. It may not be written. */
const uint8_t *lend(const void *bytes, size_t length, int at_front);

/* Room for so many bytes at one of those ends, to be written. It is filled, and so is all that the pages hold beside it,
 * in such a way that hardly a byte is like the next. */
uint8_t *lend_room(size_t length, int at_front);

/* Whether all that the pages hold is as it was filled, but for so many bytes at the front of the room. */
int room_is_kept(size_t but);

#endif
