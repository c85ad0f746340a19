#include "values.h"

#include <stdlib.h>
#include <string.h>

struct growing room_for(size_t size) {
    struct growing made = {malloc(size), size, size};
    if (!made.at) abort();
    return made;
}

void put(struct growing *made, const void *octets, size_t size) {
    if (made->start < size) abort();
    made->start -= size;
    if (size) memcpy(made->at + made->start, octets, size);
}

void fill(struct growing *made, uint8_t octet, size_t count) {
    if (made->start < count) abort();
    made->start -= count;
    memset(made->at + made->start, octet, count);
}

/* A header before what was put since the end was here (X.690 8.1.3). */
void head(struct growing *made, uint8_t tag, size_t end) {
    size_t length = end - made->start, rest, count = 0;
    for (rest = length; length > 127 && rest > 0; rest >>= 8, count++) fill(made, (uint8_t)rest, 1);
    fill(made, (uint8_t)(length > 127 ? 0x80 + count : length), 1);
    fill(made, tag, 1);
}

/* What was made, in memory of its own. */
struct octets made_of(struct growing *made) {
    struct octets octets = new_octets(made->at + made->start, made->size - made->start, 0);
    free(made->at);
    return octets;
}

struct octets levels(size_t count, size_t nulls) {
    struct growing made = room_for(6 * count + 2 * nulls);
    size_t each;
    for (each = 0; each < nulls; each++) put(&made, "\x05\x00", 2);
    for (each = 0; each < count; each++) head(&made, 0x30, made.size);
    return made_of(&made);
}
