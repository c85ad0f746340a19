/* What no row of rows.txt can say of the calls that read: NULL, other profiles, deep nesting, long arcs, statuses. */
#include "calls.h"
#include "parts.h"
#include "values.h"

#include <stdio.h>
#include <stdlib.h>
#include <string.h>

/* No octets, by NULL: as no octets by another pointer. */
bool null_input(void) {
    size_t place;
    struct octets none = {NULL, 0}, out = new_octets(NULL, sizeof(struct joined), FILL);
    bool well = true;
    for (place = 0; place < CALLS; place++) {
        rpki_status expected = calls[place].kind == TEXTS ? RPKI_URI_BAD_SCHEME : RPKI_TRUNCATED;
        struct octets given[2];
        if (calls[place].kind == OTHER) continue;
        given[0] = given[1] = none;
        well = well && calls[place].make(given, out.at) == expected && untouched(out.at, out.size);
    }
    free(out.at);
    return well;
}

/* Arrays and buffers without room, by NULL. */
bool null_output(void) {
    static const uint8_t octets[] = {0x30, 0x00};
    static const uint8_t base[] = "rsync://host/module/";
    uint8_t text[32];
    size_t count = 77, written = 77;
    bool well = rpki_index(octets, sizeof octets, NULL, 0, &count) == RPKI_TOO_SMALL && count == 1;
    well =
        well && rpki_rsync_join(base, sizeof base - 1, base, 0, NULL, 0, &written) == RPKI_TOO_SMALL && written == 77;
    return well && rpki_rsync_join(base, sizeof base - 1, NULL, 0, text, sizeof text, &written) == RPKI_OK &&
           written == sizeof base - 1;
}

/* A profile that there is not, of octets that are a name and of octets that are none. */
bool no_profile(void) {
    static const uint8_t name[] = {0x30, 0x0C, 0x31, 0x0A, 0x30, 0x08, 0x06, 0x03, 0x55, 0x04, 0x03, 0x13, 0x01, 0x41};
    unsigned profile;
    bool well = true;
    for (profile = 2; profile < 256; profile++) {
        well = well && rpki_name_inspect(name, sizeof name, (uint8_t)profile, true) == RPKI_NO_PROFILE;
        well = well && rpki_name_inspect(name, sizeof name, (uint8_t)profile, false) == RPKI_NO_PROFILE;
        well = well && rpki_name_inspect(name, 1, (uint8_t)profile, true) == RPKI_NO_PROFILE;
    }
    return well;
}

enum { LEVELS = 100001, DEEP = 483407 };

/* SEQUENCEs one inside the other, 100,001 of them, which take 483,407 octets (X.690 8.1.3). */
bool deep(void) {
    struct octets value = levels(LEVELS, 0);
    struct rpki_entry *entries = malloc(LEVELS * sizeof *entries);
    struct rpki_walked walked = {0, 0};
    size_t count = 0, place;
    bool well = value.size == DEEP && rpki_walk(value.at, value.size, &walked) == RPKI_OK;
    well = well && walked.headers == LEVELS && walked.size == DEEP;
    well = well && entries && rpki_index(value.at, value.size, entries, LEVELS, &count) == RPKI_OK && count == LEVELS;
    for (place = 0; well && place < LEVELS; place++) {
        well = entries[place].end == DEEP && entries[place].parent == (place ? place - 1 : RPKI_NO_PARENT);
        well = well && entries[place].start == (place ? entries[place - 1].contents : 0) && entries[place].number == 16;
    }
    free(entries);
    free(value.at);
    return well;
}

/* An arc of twenty octets, and one of more, also where there is no room, or where what follows is no identifier. */
static bool long_arcs(void) {
    uint8_t octets[65536];
    char text[4 * 21 + 3];
    bool well;
    memset(octets, 0xFF, sizeof octets);
    octets[0] = 0x2A;
    octets[20] = 0x7F;
    well = rpki_oid_text(octets, 21, text, sizeof text) == RPKI_OK;
    well = well && !strcmp(text, "1.2.1393796574908163946345982392040522594123775"); /* 2^140 - 1 */
    octets[20] = 0xFF;
    octets[sizeof octets - 1] = 0x7F;
    well = well && rpki_oid_text(octets, sizeof octets, text, 0) == RPKI_TOO_LONG;
    octets[sizeof octets - 1] = 0xFF;
    return well && rpki_oid_text(octets, sizeof octets, text, sizeof text) == RPKI_CONTENT;
}

/* Contents octets of no object identifier, and one with an arc of 128 bits, a UUID (X.667 6.3). */
bool identifiers(void) {
    static const uint8_t none[] = {0x2A, 0x80, 0x01, 0x86};
    static const uint8_t uuid[] = {0x69, 0x83, 0xF0, 0x9D, 0xA7, 0xEB, 0xCF, 0xDE, 0xE0, 0xC7,
                                   0xA1, 0xA7, 0xB2, 0xC0, 0x94, 0x8C, 0xC8, 0xF9, 0xD7, 0x76};
    static const char uuid_text[] = "2.25.329800735698586629295641978511506172918";
    char text[4 * sizeof uuid + 3];
    bool well = long_arcs() && rpki_oid_text(none, 0, text, sizeof text) == RPKI_CONTENT;
    well = well && rpki_oid_text(none, 0, text, 0) == RPKI_CONTENT && rpki_oid_text(none, 4, text, 0) == RPKI_CONTENT;
    well = well && rpki_oid_text(none, 2, text, sizeof text) == RPKI_CONTENT;
    well = well && rpki_oid_text(none, 3, text, sizeof text) == RPKI_CONTENT;
    well = well && rpki_oid_text(none + 1, 2, text, sizeof text) == RPKI_CONTENT;
    well = well && rpki_oid_text(none, 4, text, sizeof text) == RPKI_CONTENT;
    return well && rpki_oid_text(uuid, sizeof uuid, text, sizeof text) == RPKI_OK && !strcmp(text, uuid_text);
}

/* Each status has a name of its own, that of its constant, and no other number has one. */
static bool is_named(unsigned one, bool is_second) {
    const char *name = rpki_status_name((rpki_status)one), *prefix = is_second ? "RPKI_SECOND + RPKI_" : "RPKI_";
    unsigned other;
    bool well = (*name != 0) == (strcmp(rpki_status_text((rpki_status)one), "unknown status") != 0);
    for (other = 0; other < one && *name != 0; other++) {
        well = well && strcmp(name, rpki_status_name((rpki_status)other));
    }
    return well && (*name == 0 || !strncmp(name, prefix, strlen(prefix)));
}

/* Each status has a text of its own, and no other number has one; that of a sum says of which of two it is. */
bool texts_differ(void) {
    static const char second[] = "second: ";
    unsigned one, other;
    bool well = true;
    for (one = 0; one < 256; one++) {
        const char *text = rpki_status_text((rpki_status)one);
        bool is_second =
            (one > RPKI_SECOND && one <= RPKI_SECOND + RPKI_TRAILING) ||
            (one >= RPKI_SECOND + RPKI_URI_INVALID_CHARACTERS && one <= RPKI_SECOND + RPKI_URI_LONG_SEGMENTS);
        well = well && is_named(one, is_second) && !strncmp(text, second, sizeof second - 1) == is_second;
        well = well &&
               (!is_second || !strcmp(text + sizeof second - 1, rpki_status_text((rpki_status)(one - RPKI_SECOND))));
        for (other = 0; other < one && strcmp(text, "unknown status"); other++) {
            well = well && strcmp(text, rpki_status_text((rpki_status)other));
        }
    }
    return well;
}
