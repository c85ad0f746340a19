/*
 * Parts of octets, for readers in plain C: what they begin with, taken value by value.
 */
#ifndef PLAIN_PARTS_H
#define PLAIN_PARTS_H

#include <string.h>

#include "plain.h"

struct part {
    const uint8_t *at, *past;
};

/* Classes of characters: of a PrintableString, of a URI, of the name of a file before its point and after it, and those
 * of ASCII. */
enum { PRINTABLE = 1, OF_URI = 2, OF_FILE = 4, LOWER = 8, ASCII = 16 };

extern const uint8_t plain_classes[256];

/* The length after a first octet of 0x80 or more, which is passed in `length`; of one and two octets first. */
static inline bool long_length(const uint8_t **at, const uint8_t *past, size_t *length) {
    size_t count = *length & 0x7F, left = (size_t)(past - *at);
    const uint8_t *octets = *at;
    if (count == 2 && left >= 2 && octets[0] != 0) {
        *length = (size_t)octets[0] << 8 | octets[1];
        *at += 2;
        return true;
    }
    if (count == 0 || count > 4 || left < count || octets[0] == 0) return false;
    for (*length = 0; count > 0; count--) *length = *length << 8 | *octets++;
    *at = octets;
    return *length >= 0x80;
}

/* The contents of the value at the front, which has this identifier octet; `in` begins behind it then. */
static inline bool take(struct part *in, uint8_t first, struct part *contents) {
    const uint8_t *at = in->at;
    size_t length;
    if (in->past - at < 2 || *at != first) return false;
    length = at[1];
    at += 2;
    if (length >= 0x80 && !long_length(&at, in->past, &length)) return false;
    if (length > (size_t)(in->past - at)) return false;
    contents->at = at;
    contents->past = in->at = at + length;
    return true;
}

/* The same of a value that is all there is. */
static inline bool only(struct part in, uint8_t first, struct part *contents) {
    return take(&in, first, contents) && in.at == in.past;
}

static inline bool is(struct part part, const void *octets, size_t size) {
    return (size_t)(part.past - part.at) == size && memcmp(part.at, octets, size) == 0;
}

static inline size_t size_of(struct part part) { return (size_t)(part.past - part.at); }

static inline struct rpki_span span_of(const uint8_t *at, const uint8_t *past) {
    return (struct rpki_span){at, (size_t)(past - at)};
}

/* An algorithm identifier of this object identifier, with NULL for parameters or with none. */
static inline bool take_algorithm(struct part *in, const uint8_t id[11], bool *has_parameters) {
    const uint8_t *at = in->at;
    size_t size = size_of(*in);
    if (size < 13 || at[0] != 0x30 || memcmp(at + 2, id, 11) != 0) return false;
    *has_parameters = at[1] == 13;
    if (*has_parameters) {
        if (size < 15 || at[13] != 0x05 || at[14] != 0) return false;
    } else if (at[1] != 11) {
        return false;
    }
    in->at += *has_parameters ? 15 : 13;
    return true;
}

/* Eight octets as a number, the most significant first. */
static inline uint64_t number_at(const uint8_t *at) {
    return (uint64_t)at[0] << 56 | (uint64_t)at[1] << 48 | (uint64_t)at[2] << 40 | (uint64_t)at[3] << 32 |
           (uint64_t)at[4] << 24 | (uint64_t)at[5] << 16 | (uint64_t)at[6] << 8 | (uint64_t)at[7];
}

/* Whether all characters of a text are of this class. */
static inline bool all_of(struct part text, uint8_t class) {
    const uint8_t *of = plain_classes, *at = text.at;
    unsigned common = class;
    for (; text.past - at >= 8; at += 8) {
        common &= of[at[0]] & of[at[1]] & of[at[2]] & of[at[3]] & of[at[4]] & of[at[5]] & of[at[6]] & of[at[7]];
    }
    for (; at < text.past; at++) common &= of[*at];
    return common == class;
}

/* Whether these are the contents of an object identifier. */
static inline bool is_identifier(struct part id) {
    uint8_t before = 0;
    if (id.at == id.past || id.past[-1] >= 0x80) return false;
    for (; id.at < id.past; id.at++) {
        if (*id.at == 0x80 && before < 0x80) return false;
        before = *id.at;
    }
    return true;
}

#endif
