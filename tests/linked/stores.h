/* Calls that store octets in a buffer of the caller's, and tell how many they are. */
#ifndef STORES_H
#define STORES_H

#include <stdbool.h>
#include <stddef.h>
#include <stdint.h>

#include "rows.h"
#include "rpki.h"

/* What a call has to leave alone. */
enum { NOTHING = 77 };

/* Says which test it was where it went wrong. */
bool told(bool well, const char *what, const char *of);

/* A text in memory of its own. */
struct octets text_of(const char *text);

/* A call that stores octets, as a function of a buffer. */
typedef rpki_status store(const void *of, uint8_t *out, size_t capacity, size_t *written);

/*
 * Whether a call stores these octets: in a buffer that has room for them, in one that has more, and not in one that has
 * less; and no octet after them is written.
 */
bool stores(store *call, const void *of, const uint8_t *octets, size_t size);

/* Whether a call returns this status and writes nothing. */
bool refuses(store *call, const void *of, rpki_status status);

/* Octets, or two of them, that a call takes. */
struct given {
    struct octets one, two;
};

/* Calls of rpki.h on these. */
store signed_write, signed_make, key_write, rsa_write, bits_write, name_write;

#endif
