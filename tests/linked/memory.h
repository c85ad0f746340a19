/* Allocations of the calls, which can be refused. Linked with --wrap for malloc, realloc and free. */
#ifndef MEMORY_H
#define MEMORY_H

#include <stdbool.h>
#include <stddef.h>

/* Refuses the allocation of this number from here on, counted from 0; none where it is NONE_REFUSED. */
#define NONE_REFUSED ((size_t)-1)
void count_allocations(size_t refused);

/* What was seen since then: how many were asked for, and whether all that was given has been freed and nothing was
 * written after a block. No more is counted or refused. */
size_t allocations(bool *all_freed);

/* Whether none was asked for since then. */
bool took_none(void);

/* The most octets that were held at once since then, with both blocks of each realloc. */
size_t most_octets(void);

#endif
