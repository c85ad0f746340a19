/*
 * Times rpki_manifest, rpki_roa and rpki_aspa on contents of 1, 100, 1,000 and 10,000 entries, alone and with a call
 * for each entry, beside plain C with the same checks: nanoseconds of processor time, the smallest of 31 rounds in
 * turn.
 *
 * usage: cc -O2 -Iinclude bench/contents.c bench/plain.c bench/plain_contents.c bindings/out/librpki.a -o contents
 *        ./contents
 */
#include <stdio.h>
#include <string.h>

#include "plain.h"
#include "rpki.h"
#include "timing.h"

enum { MOST_OCTETS = 1 << 20, CALLS = 12 };

static uint8_t contents[3][MOST_OCTETS];
static size_t sizes[3];
enum { MANIFEST, ORIGIN, PROVIDERS };

/* ---- Contents are written from their end ---- */

struct end {
    uint8_t *at, *past;
};

static void put(struct end *end, const void *octets, size_t size) {
    end->at -= size;
    memcpy(end->at, octets, size);
}

/* The header of what has been written since `past`. */
static void close_value(struct end *end, uint8_t first, const uint8_t *past) {
    size_t length = (size_t)(past - end->at), rest;
    uint8_t count = 0;
    if (length >= 128) {
        for (rest = length; rest > 0; rest >>= 8, count++) {
            uint8_t octet = (uint8_t)rest;
            put(end, &octet, 1);
        }
        count |= 0x80;
    } else {
        count = (uint8_t)length;
    }
    put(end, &count, 1);
    put(end, &first, 1);
}

static void put_value(struct end *end, uint8_t first, const void *octets, size_t size) {
    const uint8_t *past = end->at;
    put(end, octets, size);
    close_value(end, first, past);
}

static void put_number(struct end *end, uint32_t number) {
    const uint8_t *past = end->at;
    uint8_t octet;
    do {
        octet = (uint8_t)number;
        put(end, &octet, 1);
        number >>= 8;
    } while (number > 0);
    if (octet >= 0x80) put(end, "", 1);
    close_value(end, 0x02, past);
}

static struct end begin(int which) {
    struct end end = {contents[which] + MOST_OCTETS, contents[which] + MOST_OCTETS};
    return end;
}

static void finish(int which, struct end *end) {
    close_value(end, 0x30, end->past);
    sizes[which] = (size_t)(end->past - end->at);
    memmove(contents[which], end->at, sizes[which]);
}

static void write_manifest(unsigned count) {
    struct end end = begin(MANIFEST);
    unsigned number;
    for (number = count; number > 0; number--) {
        const uint8_t *past = end.at;
        uint8_t bits[33] = {0};
        char name[40];
        memset(bits + 1, (int)number, 32);
        put_value(&end, 0x03, bits, sizeof bits);
        put_value(&end, 0x16, name, (size_t)snprintf(name, sizeof name, "31302e302e302e302f382d3234_%06u.roa", number));
        close_value(&end, 0x30, past);
    }
    close_value(&end, 0x30, end.past);
    put_value(&end, 0x06, "\x60\x86\x48\x01\x65\x03\x04\x02\x01", 9);
    put_value(&end, 0x18, "20260102000000Z", 15);
    put_value(&end, 0x18, "20260101000000Z", 15);
    put_number(&end, 70000);
    finish(MANIFEST, &end);
}

/* Addresses of a family, each with a maximum length but every other one. */
static void put_family(struct end *end, uint8_t family, unsigned count) {
    const uint8_t *past = end->at, id[2] = {0, family};
    unsigned number;
    for (number = count; number > 0; number--) {
        const uint8_t *inner = end->at;
        uint8_t bits[7] = {0, family == 1 ? 10 : 0x20, 1, (uint8_t)(number >> 8), (uint8_t)number, 0, 1};
        if (number % 2) put_number(end, family == 1 ? 32 : 64);
        put_value(end, 0x03, bits, family == 1 ? 5 : 7);
        close_value(end, 0x30, inner);
    }
    close_value(end, 0x30, past);
    put_value(end, 0x04, id, 2);
    close_value(end, 0x30, past);
}

static void write_origin(unsigned count) {
    struct end end = begin(ORIGIN);
    if (count > 1) put_family(&end, 2, count / 2);
    put_family(&end, 1, count - count / 2);
    close_value(&end, 0x30, end.past);
    put_number(&end, 4200000000u);
    finish(ORIGIN, &end);
}

static void write_providers(unsigned count) {
    struct end end = begin(PROVIDERS);
    const uint8_t *past;
    unsigned number;
    for (number = count; number > 0; number--) put_number(&end, 100000 + number * 37);
    close_value(&end, 0x30, end.past);
    put_number(&end, 64496);
    past = end.at;
    put_number(&end, 1);
    close_value(&end, 0xA0, past);
    finish(PROVIDERS, &end);
}

/* ---- What is timed ---- */

static bool reads_manifest(size_t *count) {
    struct rpki_manifest_parts parts = {0};
    *count = 0;
    return rpki_manifest(contents[MANIFEST], sizes[MANIFEST], &parts) == RPKI_OK;
}

static bool reads_files(size_t *count) {
    struct rpki_manifest_parts parts = {0};
    struct rpki_manifest_file_parts file = {0};
    if (rpki_manifest(contents[MANIFEST], sizes[MANIFEST], &parts) != RPKI_OK) return false;
    for (*count = 0; parts.files.size > 0; ++*count) {
        if (rpki_manifest_file(&parts.files, &file) != RPKI_OK) return false;
    }
    return true;
}

static bool reads_origin(size_t *count) {
    struct rpki_roa_parts parts = {0};
    *count = 0;
    return rpki_roa(contents[ORIGIN], sizes[ORIGIN], false, &parts) == RPKI_OK;
}

static bool reads_prefixes(size_t *count) {
    struct rpki_roa_parts parts = {0};
    struct rpki_roa_address_parts prefix;
    uint8_t family;
    if (rpki_roa(contents[ORIGIN], sizes[ORIGIN], false, &parts) != RPKI_OK) return false;
    for (*count = 0, family = RPKI_IPV4; family <= RPKI_IPV6; family += 2) {
        struct rpki_span rest = family == RPKI_IPV4 ? parts.v4 : parts.v6;
        for (; rest.size > 0; ++*count) {
            if (rpki_roa_address(&rest, family, &prefix) != RPKI_OK) return false;
        }
    }
    return true;
}

static bool reads_aspa(size_t *count) {
    struct rpki_aspa_parts parts = {0};
    *count = 0;
    return rpki_aspa(contents[PROVIDERS], sizes[PROVIDERS], &parts) == RPKI_OK;
}

static bool reads_providers(size_t *count) {
    struct rpki_aspa_parts parts = {0};
    uint32_t provider;
    if (rpki_aspa(contents[PROVIDERS], sizes[PROVIDERS], &parts) != RPKI_OK) return false;
    for (*count = 0; parts.providers.size > 0; ++*count) {
        if (rpki_aspa_provider(&parts.providers, &provider) != RPKI_OK) return false;
    }
    return true;
}

static bool plain_reads_manifest(size_t *count) {
    struct rpki_manifest_parts parts = {0};
    *count = 0;
    return plain_manifest(contents[MANIFEST], sizes[MANIFEST], &parts);
}

static bool plain_reads_files(size_t *count) {
    struct rpki_manifest_parts parts = {0};
    struct rpki_manifest_file_parts file = {0};
    if (!plain_manifest(contents[MANIFEST], sizes[MANIFEST], &parts)) return false;
    for (*count = 0; parts.files.size > 0; ++*count) {
        if (!plain_file(&parts.files, &file)) return false;
    }
    return true;
}

static bool plain_reads_origin(size_t *count) {
    struct rpki_roa_parts parts = {0};
    *count = 0;
    return plain_roa(contents[ORIGIN], sizes[ORIGIN], &parts);
}

static bool plain_reads_prefixes(size_t *count) {
    struct rpki_roa_parts parts = {0};
    struct rpki_roa_address_parts prefix;
    uint8_t family;
    if (!plain_roa(contents[ORIGIN], sizes[ORIGIN], &parts)) return false;
    for (*count = 0, family = RPKI_IPV4; family <= RPKI_IPV6; family += 2) {
        struct rpki_span rest = family == RPKI_IPV4 ? parts.v4 : parts.v6;
        for (; rest.size > 0; ++*count) {
            if (!plain_address(&rest, family, &prefix)) return false;
        }
    }
    return true;
}

static bool plain_reads_aspa(size_t *count) {
    struct rpki_aspa_parts parts = {0};
    *count = 0;
    return plain_aspa(contents[PROVIDERS], sizes[PROVIDERS], &parts);
}

static bool plain_reads_providers(size_t *count) {
    struct rpki_aspa_parts parts = {0};
    uint32_t provider;
    if (!plain_aspa(contents[PROVIDERS], sizes[PROVIDERS], &parts)) return false;
    for (*count = 0; parts.providers.size > 0; ++*count) {
        if (!plain_provider(&parts.providers, &provider)) return false;
    }
    return true;
}

/* Each call, and after it the same in plain C. */
static const struct {
    const char *name;
    bool (*call)(size_t *count);
} calls[CALLS] = {{"rpki_manifest", reads_manifest},
                  {"", plain_reads_manifest},
                  {"and each file", reads_files},
                  {"", plain_reads_files},
                  {"rpki_roa", reads_origin},
                  {"", plain_reads_origin},
                  {"and each prefix", reads_prefixes},
                  {"", plain_reads_prefixes},
                  {"rpki_aspa", reads_aspa},
                  {"", plain_reads_aspa},
                  {"and each provider", reads_providers},
                  {"", plain_reads_providers}};

static bool times(unsigned entries) {
    double least[CALLS];
    size_t count;
    int round, call, time, many = (int)(100000 / entries) + 1;
    for (call = 0; call < CALLS; call++) least[call] = 1e18;
    for (round = 0; round < ROUNDS; round++) {
        for (call = 0; call < CALLS; call++) {
            double begun = now();
            for (time = 0; time < many; time++) {
                if (!calls[call].call(&count) || (count != 0 && count != entries)) return false;
            }
            begun = (now() - begun) / many;
            if (begun < least[call]) least[call] = begun;
        }
    }
    for (call = 0; call < CALLS; call += 2) {
        printf("%u entries, %s: %.0f ns, %.1f an entry, %.2f of plain C\n", entries, calls[call].name, least[call],
               least[call] / entries, least[call] / least[call + 1]);
    }
    return true;
}

int main(void) {
    static const unsigned counts[] = {1, 100, 1000, 10000};
    size_t at;
    for (at = 0; at < sizeof counts / sizeof *counts; at++) {
        write_manifest(counts[at]);
        write_origin(counts[at]);
        write_providers(counts[at]);
        if (!times(counts[at])) return 1;
    }
    return 0;
}
