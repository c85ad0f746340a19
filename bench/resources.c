/*
 * Times rpki_ip_blocks and rpki_ip_blocks_encompass beside plain C with the same checks, on lists of 1, 100 and 10,000
 * blocks: processor time, in turn, the smallest of 31 rounds.
 *
 * usage: resources
 */
#define _POSIX_C_SOURCE 199309L

#include <stdio.h>
#include <stdlib.h>
#include <string.h>

#include "rpki.h"
#include "timing.h"

enum { MOST = 10000, ROOM = 64 * MOST };

typedef unsigned __int128 number;

/* ---- Plain C, unproved ---- */

/* The contents of a value of this identifier octet, which begin at `*at`; NULL where there is none. */
static const uint8_t *plain_contents(const uint8_t **at, const uint8_t *end, uint8_t first) {
    const uint8_t *place = *at;
    size_t length, count;
    if (end - place < 2 || place[0] != first) return NULL;
    length = place[1];
    place += 2;
    if (length >= 0x80) {
        count = length & 0x7F;
        if (count == 0 || count > 4 || (size_t)(end - place) < count || place[0] == 0) return NULL;
        for (length = 0; count > 0; count--) length = length << 8 | *place++;
        if (length < 0x80) return NULL;
    }
    if ((size_t)(end - place) < length) return NULL;
    *at = place;
    return place + length;
}

static bool plain_address(const uint8_t **at, const uint8_t *end, unsigned width, number *bits, unsigned *size) {
    const uint8_t *behind = plain_contents(at, end, 3), *place = *at;
    unsigned unused;
    number found = 0;
    if (!behind || behind == place || behind - place > 17) return false;
    unused = *place++;
    if (unused > 7 || (place == behind && unused)) return false;
    *size = 8 * (unsigned)(behind - place) - unused;
    if (*size > width) return false;
    while (place < behind) found = found << 8 | *place++;
    if (found & (((number)1 << unused) - 1)) return false;
    *bits = found >> unused;
    *at = behind;
    return true;
}

static number low_end(number bits, unsigned missing) { return missing == 128 ? 0 : bits << missing; }

static number high_end(number bits, unsigned missing) {
    return missing == 128 ? ~(number)0 : (bits << missing) + (((number)1 << missing) - 1);
}

static bool plain_block(const uint8_t **at, const uint8_t *end, unsigned width, number *low, number *high) {
    const uint8_t *behind;
    number first, last, differ;
    unsigned few, many;
    if (*at < end && **at != 0x30) {
        if (!plain_address(at, end, width, &first, &few)) return false;
        *low = low_end(first, width - few);
        *high = high_end(first, width - few);
        return true;
    }
    behind = plain_contents(at, end, 0x30);
    if (!behind || !plain_address(at, behind, width, &first, &few) || !plain_address(at, behind, width, &last, &many)) {
        return false;
    }
    if (*at != behind || (few && !(first & 1)) || (many && (last & 1))) return false;
    *low = low_end(first, width - few);
    *high = high_end(last, width - many);
    differ = *low ^ *high;
    return *low <= *high && ((differ & (differ + 1)) || (*low & differ));
}

static void write_address(uint8_t out[16], number address, unsigned width) {
    unsigned octet;
    memset(out, 0, 16);
    for (octet = 0; octet < width / 8; octet++) out[octet] = (uint8_t)(address >> (width - 8 - 8 * octet));
}

/* The next block behind this number; 1, 0 where there is none, or -1 where it is none. */
static int plain_next(const uint8_t **at, const uint8_t *end, unsigned width, bool is_first, number last, number *low,
                      number *high) {
    if (*at == end) return 0;
    if (!plain_block(at, end, width, low, high)) return -1;
    return is_first || (*low > last && *low - last > 1) ? 1 : -1;
}

/* A family: how many bits its addresses have, and where its blocks end; NULL for those of the issuer. */
static bool plain_family(const uint8_t **at, const uint8_t *end, unsigned *width, const uint8_t **behind) {
    const uint8_t *whole = plain_contents(at, end, 0x30), *name;
    if (!whole) return false;
    name = plain_contents(at, whole, 4);
    if (!name || name - *at != 2 || (*at)[0] != 0 || ((*at)[1] != 1 && (*at)[1] != 2)) return false;
    *width = (*at)[1] == 1 ? 32 : 128;
    *at = name;
    if (*at < whole && **at == 5) {
        *behind = NULL;
        return plain_contents(at, whole, 5) == *at && *at == whole;
    }
    *behind = plain_contents(at, whole, 0x30);
    return *behind == whole && *at < whole;
}

/* The entries, of which the array has room for so many; 0 where the octets are no addresses. */
static size_t plain_ip_blocks(const uint8_t *octets, size_t size, struct rpki_ip_block *blocks, size_t capacity) {
    const uint8_t *at = octets, *end = plain_contents(&at, octets + size, 0x30), *behind;
    unsigned width, before = 0;
    size_t count = 0;
    if (end != octets + size || at == end) return 0;
    for (; at < end; before = width) {
        number low, high = 0;
        int more;
        bool is_first = true;
        if (!plain_family(&at, end, &width, &behind) || width <= before) return 0;
        if (!behind) {
            if (count == capacity) return 0;
            memset(&blocks[count], 0, sizeof *blocks);
            blocks[count].family = width == 32 ? 4 : 6;
            blocks[count++].is_inherited = true;
            continue;
        }
        while ((more = plain_next(&at, behind, width, is_first, high, &low, &high)) == 1) {
            if (count == capacity) return 0;
            write_address(blocks[count].low, low, width);
            write_address(blocks[count].high, high, width);
            blocks[count].family = width == 32 ? 4 : 6;
            blocks[count++].is_inherited = false;
            is_first = false;
        }
        if (more < 0) return 0;
    }
    return count;
}

/* Whether the blocks of the one family of two contents are within each other; both are of one family here. */
static int plain_encompass(const uint8_t *outer, size_t outer_size, const uint8_t *inner, size_t inner_size) {
    const uint8_t *a = outer, *b = inner, *a_end, *b_end;
    const uint8_t *a_all = plain_contents(&a, outer + outer_size, 0x30);
    const uint8_t *b_all = plain_contents(&b, inner + inner_size, 0x30);
    unsigned a_width, b_width;
    number low, high = 0, bottom = 0, top = 0;
    bool is_within = true, is_first = true;
    int more, around;
    if (a_all != outer + outer_size || b_all != inner + inner_size) return -1;
    if (!plain_family(&a, a_all, &a_width, &a_end) || !plain_family(&b, b_all, &b_width, &b_end)) return -1;
    if (!a_end || !b_end || a_width != b_width || a_end != a_all || b_end != b_all) return -1;
    around = plain_next(&a, a_end, a_width, true, 0, &bottom, &top);
    while ((more = plain_next(&b, b_end, b_width, is_first, high, &low, &high)) == 1) {
        is_first = false;
        while (around == 1 && top < low) around = plain_next(&a, a_end, a_width, false, top, &bottom, &top);
        if (around != 1 || low < bottom || top < high) is_within = false;
    }
    while (around == 1) around = plain_next(&a, a_end, a_width, false, top, &bottom, &top);
    return more < 0 || around < 0 ? -1 : is_within;
}

/* ---- Inputs ---- */

static size_t wrap(uint8_t *at, size_t length, uint8_t first) {
    size_t head = length < 0x80 ? 2 : length < 0x100 ? 3 : length < 0x10000 ? 4 : 5, place;
    memmove(at + head, at, length);
    at[0] = first;
    at[1] = head == 2 ? (uint8_t)length : (uint8_t)(0x7E + head);
    for (place = head; place > 2; length >>= 8) at[--place] = (uint8_t)length;
    return head;
}

/* So many blocks of IP version 6, a /48 and a range in turn, with a gap between them. */
static size_t contents_of(uint8_t *octets, size_t blocks) {
    size_t size = 0, number_of;
    for (number_of = 0; number_of < blocks; number_of++) {
        uint8_t high = (uint8_t)(number_of >> 8), low = (uint8_t)number_of;
        if (number_of % 2 == 0) {
            const uint8_t prefix[] = {3, 7, 0, 0x20, 0x01, high, low, 0, 1};
            memcpy(octets + size, prefix, sizeof prefix);
            size += sizeof prefix;
        } else {
            const uint8_t range[] = {0x30, 20, 3, 7,    0,    0x20, 0x01, high, low, 0, 1,
                                     3,    9,  0, 0x20, 0x01, high, low,  0,    2,   0, 2};
            memcpy(octets + size, range, sizeof range);
            size += sizeof range;
        }
    }
    size += wrap(octets, size, 0x30);
    memmove(octets + 4, octets, size);
    memcpy(octets, "\4\2\0\2", 4);
    size += 4;
    size += wrap(octets, size, 0x30);
    size += wrap(octets, size, 0x30);
    return size;
}

/* ---- Times ---- */

static struct rpki_ip_block entries[MOST];
static uint8_t octets[ROOM];
static size_t size, count;

static bool read_plainly(void) { return plain_ip_blocks(octets, size, entries, MOST) == count; }

static bool read_proved(void) {
    size_t found = 0;
    return rpki_ip_blocks(octets, size, entries, MOST, &found) == RPKI_OK && found == count;
}

static bool compare_plainly(void) { return plain_encompass(octets, size, octets, size) == 1; }

static bool compare_proved(void) {
    bool answer = false;
    return rpki_ip_blocks_encompass(octets, size, octets, size, &answer) == RPKI_OK && answer;
}

static void beside(const char *name, bool (*proved)(void), bool (*plain)(void), size_t repeats) {
    const struct timed both[] = {{"the library", proved}, {"plain C", plain}};
    double best[2];
    if (!time_each(both, 2, repeats, best)) exit(1);
    printf("%-12s %6zu blocks %12.1f ns %12.1f ns in plain C, %5.2f times\n", name, count, best[0], best[1],
           best[0] / best[1]);
}

int main(void) {
    static const size_t counts[] = {1, 100, 10000};
    size_t each;
    for (each = 0; each < 3; each++) {
        count = counts[each];
        size = contents_of(octets, count);
        beside("read", read_proved, read_plainly, 200000 / count + 1);
        beside("encompass", compare_proved, compare_plainly, 200000 / count + 1);
    }
    return 0;
}
