/* Values that are made from their end, the innermost first. */
#ifndef VALUES_H
#define VALUES_H

#include "octets.h"

/* Octets of which those from `start` to `size` are made. */
struct growing {
    uint8_t *at;
    size_t start, size;
};

/* None yet, in memory for so many. */
struct growing room_for(size_t size);

/* Puts octets before those that there are, or so many of one octet. */
void put(struct growing *made, const void *octets, size_t size);
void fill(struct growing *made, uint8_t octet, size_t count);

/* Puts identifier and length of a value whose contents are all from `start` to `end` (X.690 8.1). */
void head(struct growing *made, uint8_t tag, size_t end);

/* All of them, in memory of exactly their size. */
struct octets made_of(struct growing *made);

/* So many SEQUENCEs one inside the other, the innermost of so many NULLs. */
struct octets levels(size_t count, size_t nulls);

#endif
