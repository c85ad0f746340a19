/* Octets that calls are given and write to, and the hexadecimal digits of rows. */
#ifndef OCTETS_H
#define OCTETS_H

#include <stdbool.h>
#include <stddef.h>
#include <stdint.h>

/* What is where a call may write, before it does. */
enum { FILL = 0x5A };

/* Octets in memory of exactly their size, so that a sanitizer sees what reads or writes past their end. */
struct octets {
    uint8_t *at;
    size_t size;
};

/* Octets of `size` in memory of their own: those at `at`, or the octet `fill` where `at` is NULL. */
struct octets new_octets(const uint8_t *at, size_t size, uint8_t fill);

/* Whether octets from a place on are all as they were filled. */
bool untouched(const void *from, size_t size);

/* Writes the octets that the first digits spell, two each, but no more than `most`; returns how many it wrote. */
size_t hexadecimal(const char *digits, uint8_t *octets, size_t most);

/* All octets that the first digits spell, in memory of their own; none where there are no digits. */
struct octets octets_spelt(const char *digits);

#endif
