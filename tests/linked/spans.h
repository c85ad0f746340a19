/* Spans as rows tell them, where they start and their sizes, and octets by their digits. */
#ifndef SPANS_H
#define SPANS_H

#include <stdbool.h>
#include <stdio.h>

#include "rpki.h"

/*
 * Writes the start of the span in the octets, and its size, after a space each; `*` for the start of an empty one,
 * which may be anywhere, and `outside` where a part of it isn't inside the octets. Returns where the text ends.
 */
static inline char *tell_span(char *text, const uint8_t *octets, size_t size, struct rpki_span span) {
    uintptr_t first = (uintptr_t)octets, start = (uintptr_t)span.data;
    if (span.size == 0) return text + sprintf(text, " * 0");
    if (start < first || start - first > size || span.size > size - (start - first)) {
        return text + sprintf(text, " outside");
    }
    return text + sprintf(text, " %zu %zu", (size_t)(start - first), span.size);
}

/* Writes octets as hexadecimal digits, and returns where these end. */
static inline char *tell_octets(char *text, const uint8_t *octets, size_t size) {
    size_t number;
    for (number = 0; number < size; number++) text += sprintf(text, "%02x", octets[number]);
    return text;
}

/* Whether the words are those that are told, of which `*` is any word; what follows them, or NULL. */
static inline const char *following(const char *told, const char *words) {
    while (*told) {
        if (*told == '*') {
            told++;
            while (*words && *words != ' ') words++;
        } else if (*told++ != *words++) {
            return NULL;
        }
    }
    return words;
}

/* The same of all the words. */
static inline bool is_told(const char *told, const char *words) {
    words = following(told, words);
    return words && !*words;
}

#endif
