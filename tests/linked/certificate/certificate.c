/*
 * Reads certificates with rpki_certificate and rpki_certificate_extensions, and compares statuses and places with those
 * of rows that rows.py writes, and what rpki_certificate_error writes. What a call refuses leaves `out` as it was. Each
 * beginning of a certificate is none, nor is one with an octet more. Then holds them to each profile with
 * rpki_certificate_inspect, and asks for all of this at once with rpki_certificate_of_profile. No call allocates.
 *
 * usage: certificate ROWS
 */
#include "../certificates.h"
#include "../judging.h"
#include "../memory.h"
#include "../octets.h"

#include <stdio.h>
#include <stdlib.h>
#include <string.h>

#include "rpki.h"

enum { MOST_OCTETS = 1 << 16 };

/* What either call writes. */
union found {
    struct rpki_certificate_parts parts;
    struct rpki_known_extensions extensions;
};

/* A copy of the octets of a call, which lasts until the next one. */
static struct octets copy = {NULL, 0};

static void copy_exactly(const uint8_t *octets, size_t size) {
    free(copy.at);
    copy = new_octets(octets, size, 0);
}

/* Makes a call on a copy of the octets. */
static rpki_status made(bool extensions, const uint8_t *octets, size_t size, union found *out, bool *clean) {
    rpki_status status;
    copy_exactly(octets, size);
    memset(out, FILL, sizeof *out);
    count_allocations(0);
    status = extensions ? rpki_certificate_extensions(copy.at, size, &out->extensions)
                        : rpki_certificate(copy.at, size, &out->parts);
    *clean = took_none();
    if (status != RPKI_OK) *clean = *clean && untouched(out, sizeof *out);
    return status;
}

/* Asks what is wrong with a copy of exactly these octets, where no allocation succeeds. Status 0 writes nothing. */
static bool is_wrong(const uint8_t *octets, size_t size, unsigned wanted, unsigned error) {
    struct octets other = new_octets(octets, size, 0);
    rpki_status status, written;
    bool clean;
    memset(&written, FILL, sizeof written);
    count_allocations(0);
    status = rpki_certificate_error(other.at, size, &written);
    clean = took_none();
    free(other.at);
    if (status == RPKI_OK) return clean && wanted == RPKI_OK && untouched(&written, sizeof written);
    if (written != error) printf("error %u, not %u\n", written, error);
    return clean && status == wanted && written == error;
}

static void beginnings(unsigned line, bool extensions, uint8_t *octets, size_t size) {
    union found out;
    size_t count;
    bool clean, well = true;
    for (count = 0; count < size; count++) {
        well = made(extensions, octets, count, &out, &clean) == RPKI_PART_CERTIFICATE && clean && well;
        well = is_wrong(octets, count, RPKI_PART_CERTIFICATE, RPKI_TRUNCATED) && well;
    }
    judge(line, "each beginning", well);
    octets[size] = 0;
    well = made(extensions, octets, size + 1, &out, &clean) == RPKI_PART_CERTIFICATE && clean;
    judge(line, "an octet more", well && is_wrong(octets, size + 1, RPKI_PART_CERTIFICATE, RPKI_TRAILING));
}

/*
 * One extension at a time: each where rpki_certificate_extensions has it, and where one of those is wrong, a status of
 * rpki_certificate all the same. Beyond the last there is none.
 */
static void alone(unsigned line, const uint8_t *octets, size_t size) {
    struct rpki_known_extensions all;
    struct rpki_known_extension known[13], one;
    rpki_status of_all = rpki_certificate_extensions(octets, size, &all), wanted;
    unsigned number;
    bool well = true;
    wanted = of_all >= RPKI_WRONG_BASIC_CONSTRAINTS && of_all <= RPKI_WRONG_CERTIFICATE_POLICIES ? RPKI_OK : of_all;
    memcpy(known, &all, sizeof known);
    count_allocations(0);
    for (number = 0; number < 256; number++) {
        rpki_status status;
        memset(&one, FILL, sizeof one);
        status = rpki_certificate_extension(octets, size, (uint8_t)number, &one);
        well = well && status == (number < 13 ? wanted : RPKI_NO_ANSWER);
        well = well && (status == RPKI_OK || untouched(&one, sizeof one));
        if (well && number < 13 && of_all == RPKI_OK) {
            well = one.is_there == known[number].is_there && one.critical == known[number].critical &&
                   one.octets.size == known[number].octets.size &&
                   (one.octets.size == 0 || one.octets.data == known[number].octets.data);
        }
    }
    judge(line, "one extension allocates", took_none());
    judge(line, "one extension at a time", well);
}

/* Makes one of the calls, of which the words are a status and what is found. */
static void compare(unsigned line, bool extensions, uint8_t *octets, size_t size, const char *words) {
    static char told[1024];
    union found out;
    unsigned wanted = (unsigned)strtoul(words, (char **)&words, 10);
    bool clean;
    rpki_status status = made(extensions, octets, size, &out, &clean);
    judge(line, "allocates, or writes what it refuses", clean);
    judge_status(line, "the status", status, wanted);
    if (extensions) {
        alone(line, octets, size);
    } else {
        judge(line, "the error", is_wrong(octets, size, wanted, (unsigned)strtoul(words, NULL, 10)));
    }
    if (wanted != RPKI_OK || status != RPKI_OK) return;
    if (extensions) {
        tell_extensions(told, copy.at, copy.size, &out.extensions);
    } else {
        tell_certificate(told, copy.at, copy.size, &out.parts);
    }
    judge_words(line, extensions ? "the extensions" : "the parts", told, words);
    if (line == 1) beginnings(line, extensions, octets, size);
}

/* Holds a copy of exactly these octets to a profile, where no allocation succeeds. */
static rpki_status inspected(const uint8_t *octets, size_t size, unsigned profile, bool strict, bool *clean) {
    rpki_status status;
    copy_exactly(octets, size);
    count_allocations(0);
    status = rpki_certificate_inspect(copy.at, size, (uint8_t)profile, strict);
    *clean = took_none();
    return status;
}

/* Asks for all at once on a copy of exactly these octets, where no allocation succeeds. */
static rpki_status checked(const uint8_t *octets, size_t size, unsigned profile, bool strict, union found *parts,
                           union found *extensions, bool *clean) {
    rpki_status status;
    copy_exactly(octets, size);
    memset(parts, FILL, sizeof *parts);
    memset(extensions, FILL, sizeof *extensions);
    count_allocations(0);
    status =
        rpki_certificate_of_profile(copy.at, size, (uint8_t)profile, strict, &parts->parts, &extensions->extensions);
    *clean = took_none();
    if (status != RPKI_OK) {
        *clean = *clean && untouched(parts, sizeof *parts) && untouched(extensions, sizeof *extensions);
    }
    return status;
}

/* The words are the statuses of the first four profiles, strict; then the same not strict; then of the fifth. */
static void inspect(unsigned line, const uint8_t *octets, size_t size, const char *words) {
    unsigned number;
    bool clean;
    for (number = 0; number < 10; number++) {
        unsigned wanted = (unsigned)strtoul(words, (char **)&words, 10);
        unsigned profile = number < 8 ? number % 4 : RPKI_CERTIFICATE_DETACHED_EE;
        bool strict = number < 4 || number == 8;
        rpki_status status = inspected(octets, size, profile, strict, &clean);
        if (status != wanted) printf("profile %u: status %u, not %u\n", profile, status, wanted);
        judge(line, "an inspection", status == wanted);
        judge(line, "an inspection allocates", clean);
    }
    judge(line, "another profile", inspected(octets, size, 5, true, &clean) == RPKI_NO_PROFILE && clean);
}

/* Asks for all at once: what the rows of the three calls say, of which the first that is not 0 is the status. */
static void check(unsigned line, const uint8_t *octets, size_t size, const char *words, const char *known,
                  const char *inspections) {
    static char told[1024];
    unsigned number;
    for (number = 0; number < 10; number++) {
        unsigned wanted = (unsigned)strtoul(known, NULL, 10);
        unsigned broken = (unsigned)strtoul(inspections, (char **)&inspections, 10);
        unsigned profile = number < 8 ? number % 4 : RPKI_CERTIFICATE_DETACHED_EE;
        union found parts, extensions;
        bool clean;
        rpki_status status;
        if (wanted == RPKI_OK) wanted = broken;
        status = checked(octets, size, profile, number < 4 || number == 8, &parts, &extensions, &clean);
        if (status != wanted) printf("profile %u: status %u, not %u\n", profile, status, wanted);
        judge(line, "a check", status == wanted && clean);
        if (wanted != RPKI_OK || status != RPKI_OK) continue;
        tell_certificate(told, copy.at, copy.size, &parts.parts);
        judge(line, "the parts of a check", is_told(told, strchr(words, ' ')));
        tell_extensions(told, copy.at, copy.size, &extensions.extensions);
        judge(line, "the extensions of a check", is_told(told, strchr(known, ' ')));
    }
}

static void row(unsigned line, char *text) {
    static uint8_t octets[MOST_OCTETS];
    char *bar = strstr(text, " | "), *second = bar ? strstr(bar + 3, " | ") : NULL;
    size_t size = hexadecimal(text, octets, MOST_OCTETS - 1);
    if (!second) exit(2);
    *bar = *second = 0;
    compare(line, false, octets, size, strchr(text, ' ') + 1);
    compare(line, true, octets, size, bar + 3);
    inspect(line, octets, size, second + 3);
    check(line, octets, size, strchr(text, ' ') + 1, bar + 3, second + 3);
}

int main(int count, char **words) { return judge_rows(count, words, row); }
