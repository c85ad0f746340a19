#include "octets.h"

#include <stdio.h>
#include <stdlib.h>
#include <string.h>

struct octets new_octets(const uint8_t *at, size_t size, uint8_t fill) {
    struct octets made;
    made.at = malloc(size ? size : 1);
    made.size = size;
    if (!made.at) {
        fputs("no memory\n", stderr);
        exit(2);
    }
    if (at) {
        memcpy(made.at, at, size);
    } else {
        memset(made.at, fill, size);
    }
    return made;
}

bool untouched(const void *from, size_t size) {
    const uint8_t *at = from;
    while (size > 0) {
        if (at[--size] != FILL) return false;
    }
    return true;
}

/* The value of a digit, or 16. */
static unsigned value_of(char digit) {
    if (digit >= '0' && digit <= '9') return (unsigned)(digit - '0');
    if (digit >= 'a' && digit <= 'f') return (unsigned)(digit - 'a' + 10);
    if (digit >= 'A' && digit <= 'F') return (unsigned)(digit - 'A' + 10);
    return 16;
}

/* How many octets the first digits spell. */
static size_t count_spelt(const char *digits) {
    size_t count = 0;
    while (value_of(digits[2 * count]) < 16 && value_of(digits[2 * count + 1]) < 16) count++;
    return count;
}

size_t hexadecimal(const char *digits, uint8_t *octets, size_t most) {
    size_t size = count_spelt(digits), place;
    if (size > most) size = most;
    for (place = 0; place < size; place++) {
        octets[place] = (uint8_t)(16 * value_of(digits[2 * place]) + value_of(digits[2 * place + 1]));
    }
    return size;
}

struct octets octets_spelt(const char *digits) {
    struct octets made = new_octets(NULL, count_spelt(digits), 0);
    hexadecimal(digits, made.at, made.size);
    return made;
}
