/*
 * The fastest plain C that was found which makes the same checks as the library's calls, by hand and unproved: ends of
 * open values as pointers, headers of two octets first, a table of kinds of identifier octets, lengths of one or two
 * octets inline.
 */
#include <stdlib.h>
#include <string.h>

#include "plain_parts.h"

#define likely(x) __builtin_expect(!!(x), 1)
#define unlikely(x) __builtin_expect(!!(x), 0)

/* By 16 in a row; octets from 128 on are of no class. */
const uint8_t plain_classes[256] = {
    16, 16, 16, 16, 16, 16, 16, 16, 16, 16, 16, 16, 16, 16, 16, 16, 16, 16, 16, 16, 16, 16, 16, 16, 16, 16,
    16, 16, 16, 16, 16, 16, 17, 18, 16, 16, 18, 18, 18, 19, 19, 19, 18, 19, 19, 23, 19, 19, 23, 23, 23, 23,
    23, 23, 23, 23, 23, 23, 19, 18, 16, 19, 16, 17, 16, 23, 23, 23, 23, 23, 23, 23, 23, 23, 23, 23, 23, 23,
    23, 23, 23, 23, 23, 23, 23, 23, 23, 23, 23, 23, 23, 16, 16, 16, 16, 22, 16, 31, 31, 31, 31, 31, 31, 31,
    31, 31, 31, 31, 31, 31, 31, 31, 31, 31, 31, 31, 31, 31, 31, 31, 31, 31, 31, 16, 16, 16, 18, 16};

/* ---- Headers ---- */

/* A header of any size: how many octets it has, or 0. All checks of rpki_header. */
__attribute__((noinline, cold)) static size_t slow_header(const uint8_t *at, size_t size, size_t *length,
                                                          uint32_t *number) {
    size_t place = 1, count;
    if (size < 2) return 0;
    *number = at[0] & 0x1F;
    if (*number == 0x1F) {
        *number = 0;
        do {
            if (place == size || place > 4) return 0;
            *number = *number << 7 | (at[place] & 0x7F);
            if (*number == 0) return 0;
        } while (at[place++] & 0x80);
        if (*number < 31 || place == size) return 0;
    } else if ((at[0] & 0xDF) == 0) {
        return 0;
    }
    *length = at[place++];
    if (*length < 0x80) return place;
    count = *length & 0x7F;
    if (count == 0 || count > 4 || size - place < count || at[place] == 0) return 0;
    for (*length = 0; count > 0; count--) *length = *length << 8 | at[place++];
    return *length < 0x80 ? 0 : place;
}

/* 0 primitive, 1 constructed, 2 other */
#define PRIMITIVE 0, 0, 0, 0, 0, 0, 0, 0, 0, 0, 0, 0, 0, 0, 0, 0, 0, 0, 0, 0, 0, 0, 0, 0, 0, 0, 0, 0, 0, 0, 0, 2
#define CONSTRUCTED 1, 1, 1, 1, 1, 1, 1, 1, 1, 1, 1, 1, 1, 1, 1, 1, 1, 1, 1, 1, 1, 1, 1, 1, 1, 1, 1, 1, 1, 1, 1, 2
static const uint8_t kind[256] = {
    2, 0, 0, 0, 0, 0, 0, 0, 0, 0, 0,         0,           0,         0,           0,         0,          0, 0,
    0, 0, 0, 0, 0, 0, 0, 0, 0, 0, 0,         0,           0,         2,           2,         1,          1, 1,
    1, 1, 1, 1, 1, 1, 1, 1, 1, 1, 1,         1,           1,         1,           1,         1,          1, 1,
    1, 1, 1, 1, 1, 1, 1, 1, 1, 2, PRIMITIVE, CONSTRUCTED, PRIMITIVE, CONSTRUCTED, PRIMITIVE, CONSTRUCTED};

/* ---- The walk, and the index ---- */

size_t plain_walk(const uint8_t *octets, size_t size, size_t *taken) {
    const uint8_t *fixed[64], **base = fixed, **top = fixed, **limit = fixed + 64;
    const uint8_t *at = octets, *end = octets + size, *stop = octets + size;
    size_t headers = 0;
    for (;;) {
        size_t length;
        unsigned form;
        if (unlikely(stop - at < 2)) goto fail;
        form = kind[at[0]];
        length = at[1];
        headers++;
        if (likely(form < 2 && length < 0x80)) {
            at += 2;
        } else {
            uint32_t number;
            size_t n;
            if (end < at) goto fail;
            if (form < 2 && length == 0x82 && end - at >= 4 && at[2]) {
                length = (size_t)at[2] << 8 | at[3];
                n = 4;
            } else if (form < 2 && length == 0x81 && end - at >= 3 && at[2] >= 0x80) {
                length = at[2];
                n = 3;
            } else {
                form = at[0] >> 5 & 1;
                n = slow_header(at, (size_t)(end - at), &length, &number);
                if (!n) goto fail;
            }
            at += n;
        }
        if (unlikely((ptrdiff_t)length > end - at)) goto fail;
        if (form) {
            if (unlikely(top == limit)) {
                size_t used = (size_t)(top - base), room = 2 * used;
                const uint8_t **more = base == fixed ? malloc(room * sizeof *more) : realloc(base, room * sizeof *more);
                if (!more) goto fail;
                if (base == fixed) memcpy(more, fixed, used * sizeof *more);
                base = more;
                top = base + used;
                limit = base + room;
            }
            *top++ = end;
            end = at + length;
        } else {
            at += length;
            if (unlikely(top == base)) goto done;
        }
        while (at == end) {
            end = *--top;
            if (top == base) goto done;
        }
    }
done:
    if (base != fixed) free(base);
    *taken = (size_t)(at - octets);
    return headers;
fail:
    if (base != fixed) free(base);
    return 0;
}

size_t plain_index(const uint8_t *octets, size_t size, struct rpki_entry *entries, size_t capacity, size_t *taken) {
    size_t place = 0, end = size, headers = 0, parent = RPKI_NO_PARENT;
    for (;;) {
        const uint8_t *at = octets + place;
        size_t length, left = end - place, n = 2;
        uint32_t number;
        struct rpki_entry *entry;
        if (unlikely(left < 2)) return 0;
        length = at[1];
        number = at[0] & 0x1F;
        if (unlikely(number == 0x1F || (at[0] & 0xDF) == 0 || length >= 0x80)) {
            n = slow_header(at, left, &length, &number);
            if (!n) return 0;
        }
        if (unlikely(length > left - n) || unlikely(headers == capacity)) return 0;
        entry = entries + headers;
        entry->start = place;
        entry->contents = place + n;
        entry->end = place + n + length;
        entry->parent = parent;
        entry->number = number;
        entry->tag_class = at[0] >> 6;
        entry->constructed = at[0] >> 5 & 1;
        if (entry->constructed) {
            parent = headers;
            place += n;
            end = place + length;
        } else {
            place += n + length;
            if (unlikely(headers == 0)) break;
        }
        headers++;
        while (place == end) {
            parent = entries[parent].parent;
            if (parent == RPKI_NO_PARENT) {
                *taken = place;
                return headers;
            }
            end = entries[parent].end;
        }
    }
    *taken = place;
    return 1;
}

/* ---- Small values ---- */

bool plain_serial(const uint8_t *octets, size_t size, uint8_t out[20]) {
    struct part number;
    size_t length;
    if (!only((struct part){octets, octets + size}, 0x02, &number) || number.at == number.past) return false;
    if (number.at[0] >= 0x80) return false;
    if (number.at[0] == 0 && size_of(number) > 1) {
        if (number.at[1] < 0x80) return false;
        number.at++;
    }
    length = size_of(number);
    if (length > 20 || (length == 20 && number.at[0] >= 0x80)) return false;
    memset(out, 0, 20);
    memcpy(out + 20 - length, number.at, length);
    return true;
}

static inline bool two_digits(const uint8_t *at, uint32_t *out) {
    unsigned tens = at[0] - '0', ones = at[1] - '0';
    *out = tens * 10 + ones;
    return tens < 10 && ones < 10;
}

bool plain_time(const uint8_t *octets, size_t size, struct rpki_moment *out) {
    static const uint8_t days[] = {0, 31, 28, 31, 30, 31, 30, 31, 31, 30, 31, 30, 31};
    static const uint16_t before[] = {0, 0, 31, 59, 90, 120, 151, 181, 212, 243, 273, 304, 334};
    const struct part all = {octets, octets + size};
    struct part text;
    uint32_t high, low, year;
    int64_t day;
    bool leap;
    if (only(all, 0x17, &text)) {
        if (size_of(text) != 13 || !two_digits(text.at, &low)) return false;
        high = low < 50 ? 20 : 19;
    } else {
        if (!only(all, 0x18, &text) || size_of(text) != 15) return false;
        if (!two_digits(text.at, &high) || !two_digits(text.at + 2, &low)) return false;
        text.at += 2;
    }
    if (!two_digits(text.at + 2, &out->month) || !two_digits(text.at + 4, &out->day) || text.at[12] != 'Z')
        return false;
    if (!two_digits(text.at + 6, &out->hour) || !two_digits(text.at + 8, &out->minute)) return false;
    if (!two_digits(text.at + 10, &out->second)) return false;
    year = high * 100 + low;
    leap = year % 4 == 0 && (year % 100 != 0 || year % 400 == 0);
    if (out->month - 1 > 11 || out->hour > 23 || out->minute > 59 || out->second > 59) return false;
    if (out->day == 0 || out->day > days[out->month] + (uint32_t)(leap && out->month == 2)) return false;
    out->year = (int32_t)year;
    /* The days from the year 0 on, in which leap years are those before; 719,528 of them are before 1970. */
    day = year * 365 + (year + 3) / 4 - (year + 99) / 100 + (year + 399) / 400;
    day += before[out->month] + (leap && out->month > 2) + out->day - 1;
    out->seconds = (day - 719528) * 86400 + out->hour * 3600 + out->minute * 60 + out->second;
    return true;
}

static const uint8_t rsa[] = {0x2A, 0x86, 0x48, 0x86, 0xF7, 0x0D, 0x01, 0x01, 0x01};
static const uint8_t elliptic[] = {0x2A, 0x86, 0x48, 0xCE, 0x3D, 0x02, 0x01};
static const uint8_t curve[] = {0x06, 0x08, 0x2A, 0x86, 0x48, 0xCE, 0x3D, 0x03, 0x01, 0x07};

bool plain_key(const uint8_t *octets, size_t size, struct rpki_key_parts *out) {
    static const uint8_t null[] = {0x05, 0x00};
    struct part key, format, id, bits;
    if (!only((struct part){octets, octets + size}, 0x30, &key)) return false;
    if (!take(&key, 0x30, &format) || !take(&format, 0x06, &id)) return false;
    if (is(id, rsa, sizeof rsa)) {
        if (format.at != format.past && !is(format, null, sizeof null)) return false;
        out->format = RPKI_RSA;
    } else {
        if (!is(id, elliptic, sizeof elliptic) || !is(format, curve, sizeof curve)) return false;
        out->format = RPKI_ECDSA_P256;
    }
    if (!only(key, 0x03, &bits) || bits.at == bits.past) return false;
    out->unused = *bits.at++;
    if (out->unused != 0) {
        if (bits.at == bits.past || out->unused > 7 || (bits.past[-1] & ((1u << out->unused) - 1)) != 0) return false;
    }
    out->bits = span_of(bits.at, bits.past);
    return true;
}

bool plain_extension(const uint8_t *octets, size_t size, struct rpki_extension_parts *out) {
    struct part all, id, flag, value;
    if (!only((struct part){octets, octets + size}, 0x30, &all)) return false;
    if (!take(&all, 0x06, &id) || !is_identifier(id)) return false;
    out->id = span_of(id.at, id.past);
    out->critical = false;
    if (all.at < all.past && *all.at == 0x01) {
        if (!take(&all, 0x01, &flag) || size_of(flag) != 1 || (*flag.at != 0 && *flag.at != 0xFF)) return false;
        out->critical = *flag.at != 0;
    }
    if (!only(all, 0x04, &value)) return false;
    out->octets = span_of(value.at, value.past);
    return true;
}

/* ---- Names ---- */

/* A strict name, whose strings have so many characters. */
static inline bool is_strict(const uint8_t *octets, size_t size, size_t least, size_t most) {
    struct part name, set, pair, id, text;
    unsigned found = 0;
    if (!only((struct part){octets, octets + size}, 0x30, &name) || name.at == name.past) return false;
    while (name.at < name.past) {
        if (!take(&name, 0x31, &set) || set.at == set.past) return false;
        while (set.at < set.past) {
            unsigned which;
            if (!take(&set, 0x30, &pair) || !take(&pair, 0x06, &id) || !only(pair, 0x13, &text)) return false;
            if (size_of(id) != 3 || id.at[0] != 0x55 || id.at[1] != 4) return false;
            if (id.at[2] != 3 && id.at[2] != 5 && id.at[2] != 10) return false;
            which = 1u << id.at[2];
            if (found & which || size_of(text) < least || size_of(text) > most || !all_of(text, PRINTABLE))
                return false;
            found |= which;
        }
    }
    return found >> 3 & 1;
}

bool plain_name(const uint8_t *octets, size_t size) { return is_strict(octets, size, 0, SIZE_MAX); }

bool plain_sized_name(const uint8_t *octets, size_t size) { return is_strict(octets, size, 1, 64); }

/* A value, with all that is nested in it, and nothing else; short ones of octets first. */
static inline bool is_value(struct part in) {
    size_t size = size_of(in), taken;
    if (size >= 2 && kind[in.at[0]] == 0 && in.at[1] < 0x80) return size == 2u + in.at[1];
    return plain_walk(in.at, size, &taken) > 0 && taken == size;
}

bool plain_any_name(const uint8_t *octets, size_t size) {
    struct part name, set, pair, id;
    if (!only((struct part){octets, octets + size}, 0x30, &name) || name.at == name.past) return false;
    while (name.at < name.past) {
        if (!take(&name, 0x31, &set) || set.at == set.past) return false;
        while (set.at < set.past) {
            if (!take(&set, 0x30, &pair) || !take(&pair, 0x06, &id)) return false;
            if (!is_identifier(id) || !is_value(pair)) return false;
        }
    }
    return true;
}

/* ---- URIs ---- */

/* Eight octets, the first in the lowest bits. */
static inline uint64_t eight(const uint8_t *at) {
    return at[0] | (uint64_t)at[1] << 8 | (uint64_t)at[2] << 16 | (uint64_t)at[3] << 24 | (uint64_t)at[4] << 32 |
           (uint64_t)at[5] << 40 | (uint64_t)at[6] << 48 | (uint64_t)at[7] << 56;
}

/* The high bits of those of eight octets, each below 128, that are slashes. */
static inline uint64_t slashes(uint64_t octets) {
    return ~((octets ^ 0x2F2F2F2F2F2F2F2Fu) + 0x7F7F7F7F7F7F7F7Fu) & 0x8080808080808080u;
}

/* Whether what is between two slashes may stand there. */
static inline bool is_segment(const uint8_t *at, const uint8_t *past) {
    size_t size = (size_t)(past - at);
    return size - 1 < 255 && !(at[0] == '.' && (size == 1 || (size == 2 && at[1] == '.')));
}

/* The eight octets that a text begins with, the letters among them small. */
static bool begins(const uint8_t *text, const char *scheme) {
    return (eight(text) | 0x0000002020202020u) == eight((const uint8_t *)scheme);
}

bool plain_rsync(const uint8_t *text, size_t size, struct rpki_rsync_parts *out) {
    const uint8_t *start = text + 8, *past = text + size, *at = start, *slash;
    size_t pieces = 0;
    if (size < 8 || size - 8 >= 3072 || !begins(text, "rsync://")) return false;
    if (!all_of((struct part){at, past}, OF_URI)) return false;
    for (; at < past; at += 8) {
        size_t left = (size_t)(past - at);
        uint64_t found = slashes(left >= 8 ? eight(at) : eight(past - 8) >> 8 * (8 - left));
        for (; found != 0; found &= found - 1, pieces++) {
            slash = at + __builtin_ctzll(found) / 8;
            if (!is_segment(start, slash)) return false;
            if (pieces == 0) {
                out->authority = (struct rpki_place){8, (size_t)(slash - start)};
            } else if (pieces == 1) {
                out->module_name = (struct rpki_place){(size_t)(start - text), (size_t)(slash - start)};
                out->path = (struct rpki_place){(size_t)(slash + 1 - text), (size_t)(past - slash - 1)};
            }
            start = slash + 1;
        }
    }
    return pieces >= 2 && (start == past || is_segment(start, past));
}

bool plain_https(const uint8_t *text, size_t size) {
    const uint8_t *slash;
    if (size < 8 || !begins(text, "https://")) return false;
    if (!all_of((struct part){text + 8, text + size}, OF_URI)) return false;
    slash = memchr(text + 8, '/', size - 8);
    return (slash ? (size_t)(slash - text) : size) - 8 < 256;
}
