/*
 * Times the calls of the C library in one process, beside plain C with the same checks (plain.c) and, where they are
 * there, beside libcrypto and mbedtls: processor time, in turn, the smallest of 31 rounds.
 *
 * usage: linked CERTIFICATE CERTIFICATES [ROOTS]
 *        linked CERTIFICATE CERTIFICATES --calls NAME COUNT    (so many of one contender's calls, and no clock:
 * bench/instructions.py)
 *
 * CERTIFICATES is a file of bench/certificates.py.
 */
#define _POSIX_C_SOURCE 199309L

#include <stdio.h>
#include <stdlib.h>
#include <string.h>

#ifdef WITH_LIBCRYPTO
#include <openssl/asn1.h>
#include <openssl/x509.h>
#endif
#ifdef WITH_MBEDTLS
#include <mbedtls/asn1.h>
#include <mbedtls/x509_crt.h>
#endif

#include "plain.h"
#include "rpki.h"
#include "timing.h"

enum { SMALL = 1 << 20, LEVELS = 1000000, NULLS = 10 << 20, ROOM = 21 << 20, CONTENDERS = 6 };

/* Octets, and what a call on them has to find: a number of headers, or 1. */
struct input {
    const char *name;
    const uint8_t *octets;
    size_t size;
    size_t repeats; /* calls a round */
    size_t found;
    struct rpki_entry *entries;
};

static void stop(const char *why) {
    fprintf(stderr, "linked: %s\n", why);
    exit(1);
}

/* ---- Plain C ---- */

static size_t walk_plainly(const struct input *input) {
    size_t taken;
    return plain_walk(input->octets, input->size, &taken);
}

static size_t index_plainly(const struct input *input) {
    size_t taken;
    return plain_index(input->octets, input->size, input->entries, input->found, &taken);
}

static size_t serial_plainly(const struct input *input) {
    uint8_t serial[20];
    return plain_serial(input->octets, input->size, serial);
}

static size_t time_plainly(const struct input *input) {
    struct rpki_moment moment;
    return plain_time(input->octets, input->size, &moment);
}

static size_t key_plainly(const struct input *input) {
    struct rpki_key_parts key = {0};
    return plain_key(input->octets, input->size, &key);
}

static size_t name_plainly(const struct input *input) { return plain_name(input->octets, input->size); }

static size_t extension_plainly(const struct input *input) {
    struct rpki_extension_parts parts = {0};
    return plain_extension(input->octets, input->size, &parts);
}

static size_t rsync_plainly(const struct input *input) {
    struct rpki_rsync_parts parts;
    return plain_rsync(input->octets, input->size, &parts);
}

/* ---- The library ---- */

static size_t walk(const struct input *input) {
    struct rpki_walked walked;
    return rpki_walk(input->octets, input->size, &walked) == RPKI_OK ? walked.headers : 0;
}

static size_t indexed(const struct input *input) {
    size_t count;
    return rpki_index(input->octets, input->size, input->entries, input->found, &count) == RPKI_OK ? count : 0;
}

static size_t counted(const struct input *input) {
    size_t count;
    return rpki_index(input->octets, input->size, input->entries, 0, &count) == RPKI_TOO_SMALL ? count : 0;
}

static size_t signed_data(const struct input *input) {
    struct rpki_signed_parts parts = {0};
    return rpki_signed_data(input->octets, input->size, &parts) == RPKI_OK ? input->found : 0;
}

static size_t serial(const struct input *input) {
    uint8_t out[20];
    return rpki_serial(input->octets, input->size, out) == RPKI_OK;
}

static size_t moment(const struct input *input) {
    struct rpki_moment out;
    return rpki_time(input->octets, input->size, &out) == RPKI_OK;
}

static size_t key(const struct input *input) {
    struct rpki_key_parts out = {0};
    return rpki_public_key(input->octets, input->size, &out) == RPKI_OK;
}

static size_t name(const struct input *input) {
    return rpki_name_inspect(input->octets, input->size, RPKI_PROFILE_RPKI, true) == RPKI_OK;
}

static size_t extension(const struct input *input) {
    struct rpki_extension_parts out = {0};
    return rpki_extension(input->octets, input->size, &out) == RPKI_OK;
}

static size_t certificate_parts(const struct input *input) {
    struct rpki_certificate_parts out;
    return rpki_certificate(input->octets, input->size, &out) == RPKI_OK ? input->found : 0;
}

static size_t certificate_extensions(const struct input *input) {
    struct rpki_known_extensions out;
    return rpki_certificate_extensions(input->octets, input->size, &out) == RPKI_OK ? input->found : 0;
}

/* As examples/certificate/show.c opens it. */
static size_t certificate_opened(const struct input *input) {
    return certificate_parts(input) && certificate_extensions(input) ? walk(input) : 0;
}

static size_t rsync_parse(const struct input *input) {
    struct rpki_rsync_parts out;
    return rpki_rsync_parse(input->octets, input->size, &out) == RPKI_OK;
}

/* The octets of an entry's value. */
static struct input part(const struct input *whole, size_t number) {
    struct input made = {NULL, whole->octets + whole->entries[number].start, 0, 20000, 1, NULL};
    made.size = whole->entries[number].end - whole->entries[number].start;
    return made;
}

/* The parts of a certificate of version 3 that are read on: the numbers of their entries. */
enum { SERIAL, ISSUER, VALIDITY, SUBJECT, KEY, EXTENSIONS, PARTS };

static void find_parts(const struct rpki_entry *entries, size_t count, size_t numbers[PARTS]) {
    size_t number = rpki_next_sibling(entries, count, rpki_first_child(entries, count, 1));
    size_t place;
    numbers[SERIAL] = number;
    number = rpki_next_sibling(entries, count, number); /* the algorithm */
    for (place = ISSUER; place <= EXTENSIONS; place++) {
        number = rpki_next_sibling(entries, count, number);
        numbers[place] = number;
    }
    if (number == RPKI_NO_ENTRY) stop("no certificate");
    numbers[EXTENSIONS] = rpki_first_child(entries, count, number);
}

/* A whole certificate: its signed data, its index, its serial number, both names, validity, key and each extension. */
static size_t whole(const struct input *input) {
    size_t count, numbers[PARTS], number;
    struct rpki_signed_parts parts = {0};
    struct rpki_period period;
    struct input each;
    if (rpki_signed_data(input->octets, input->size, &parts) != RPKI_OK) return 0;
    if (rpki_index(input->octets, input->size, input->entries, input->found, &count) != RPKI_OK) return 0;
    find_parts(input->entries, count, numbers);
    each = part(input, numbers[SERIAL]);
    if (!serial(&each)) return 0;
    each = part(input, numbers[ISSUER]);
    if (!name(&each)) return 0;
    each = part(input, numbers[SUBJECT]);
    if (!name(&each)) return 0;
    each = part(input, numbers[VALIDITY]);
    if (rpki_validity(each.octets, each.size, &period) != RPKI_OK) return 0;
    each = part(input, numbers[KEY]);
    if (!key(&each)) return 0;
    number = rpki_first_child(input->entries, count, numbers[EXTENSIONS]);
    for (; number != RPKI_NO_ENTRY; number = rpki_next_sibling(input->entries, count, number)) {
        each = part(input, number);
        if (!extension(&each)) return 0;
    }
    return count;
}

/* ---- libcrypto, mbedtls ---- */

#if defined(WITH_LIBCRYPTO) || defined(WITH_MBEDTLS)
/* Ends of the values that a walk is inside of. */
struct ends {
    size_t count, room;
    const uint8_t **items;
};

static void push(struct ends *ends, const uint8_t *end) {
    if (ends->count == ends->room) {
        ends->room = ends->room ? 2 * ends->room : 32;
        ends->items = realloc(ends->items, ends->room * sizeof *ends->items);
        if (!ends->items) stop("no memory");
    }
    ends->items[ends->count++] = end;
}

/* A walk by a function that reads a header: it moves past it, or returns a form below 0. */
static inline size_t walk_by(const struct input *input,
                             int (*header)(const uint8_t **at, const uint8_t *end, size_t *length)) {
    struct ends ends = {0, 0, NULL};
    const uint8_t *at = input->octets, *end = at + input->size;
    size_t headers = 0;
    do {
        size_t length;
        int form = header(&at, end, &length);
        if (form < 0) break;
        headers++;
        if (form > 0) {
            end = at + length;
            push(&ends, end);
        } else {
            at += length;
        }
        while (ends.count > 0 && at == end) {
            ends.count--;
            if (ends.count > 0) end = ends.items[ends.count - 1];
        }
    } while (ends.count > 0);
    free(ends.items);
    return ends.count ? 0 : headers;
}
#endif

#ifdef WITH_LIBCRYPTO
static int libcrypto_header(const uint8_t **at, const uint8_t *end, size_t *length) {
    long found;
    int tag, tag_class, form = ASN1_get_object(at, &found, &tag, &tag_class, end - *at);
    *length = (size_t)found;
    return form & 0x80 ? -1 : form & V_ASN1_CONSTRUCTED;
}

static size_t libcrypto_walk(const struct input *input) { return walk_by(input, libcrypto_header); }

static size_t libcrypto_whole(const struct input *input) {
    const uint8_t *at = input->octets;
    X509 *certificate = d2i_X509(NULL, &at, (long)input->size);
    X509_free(certificate);
    return certificate ? input->found : 0;
}
#endif

#ifdef WITH_MBEDTLS
static int mbedtls_header(const uint8_t **at, const uint8_t *end, size_t *length) {
    unsigned char *behind = (unsigned char *)*at + 1;
    int form = *at < end ? **at & MBEDTLS_ASN1_CONSTRUCTED : -1;
    if (form < 0 || mbedtls_asn1_get_len(&behind, end, length) != 0) return -1;
    *at = behind;
    return form;
}

static size_t mbedtls_walk(const struct input *input) { return walk_by(input, mbedtls_header); }

/* Any other extension will do, critical or not. */
static int any_extension(void *context, const mbedtls_x509_crt *certificate, const mbedtls_x509_buf *identifier,
                         int critical, const unsigned char *at, const unsigned char *end) {
    (void)context, (void)certificate, (void)identifier, (void)critical, (void)at, (void)end;
    return 0;
}

static size_t mbedtls_whole(const struct input *input) {
    mbedtls_x509_crt certificate;
    int status;
    mbedtls_x509_crt_init(&certificate);
    status = mbedtls_x509_crt_parse_der_with_ext_cb(&certificate, input->octets, input->size, 0, any_extension, NULL);
    mbedtls_x509_crt_free(&certificate);
    return status == 0 ? input->found : 0;
}
#endif

/* ---- Certificates that differ: of each its size in 4 octets, the last first, and its octets ---- */

/* How many of them a call reads. */
static size_t each(const struct input *input, bool (*call)(const uint8_t *octets, size_t size)) {
    size_t at = 0, found = 0;
    while (at + 4 <= input->size) {
        const uint8_t *octets = input->octets + at;
        size_t size = octets[0] | (size_t)octets[1] << 8 | (size_t)octets[2] << 16;
        found += call(octets + 4, size);
        at += 4 + size;
    }
    return found;
}

static bool checks_plainly(const uint8_t *octets, size_t size) {
    struct rpki_certificate_parts parts;
    struct rpki_known_extensions extensions;
    return plain_certificate(octets, size, &parts, &extensions);
}

static bool checks(const uint8_t *octets, size_t size) {
    struct rpki_certificate_parts parts;
    struct rpki_known_extensions extensions;
    return rpki_certificate_of_profile(octets, size, RPKI_CERTIFICATE_CA, true, &parts, &extensions) == RPKI_OK;
}

static bool divides(const uint8_t *octets, size_t size) {
    struct rpki_certificate_parts parts;
    return rpki_certificate(octets, size, &parts) == RPKI_OK;
}

static bool inspects(const uint8_t *octets, size_t size) {
    return rpki_certificate_inspect(octets, size, RPKI_CERTIFICATE_CA, true) == RPKI_OK;
}

static bool makes_three_calls(const uint8_t *octets, size_t size) {
    struct rpki_known_extensions extensions;
    return divides(octets, size) && rpki_certificate_extensions(octets, size, &extensions) == RPKI_OK &&
           inspects(octets, size);
}

static size_t each_plainly(const struct input *input) { return each(input, checks_plainly); }

static size_t each_checked(const struct input *input) { return each(input, checks); }

static size_t each_divided(const struct input *input) { return each(input, divides); }

static size_t each_inspected(const struct input *input) { return each(input, inspects); }

static size_t each_by_three(const struct input *input) { return each(input, makes_three_calls); }

#ifdef WITH_MBEDTLS
static bool mbedtls_reads(const uint8_t *octets, size_t size) {
    const struct input input = {NULL, octets, size, 1, 1, NULL};
    return mbedtls_whole(&input) == 1;
}

static size_t each_by_mbedtls(const struct input *input) { return each(input, mbedtls_reads); }
#endif

/* ---- Inputs ---- */

/* Puts a header in front of the last `size` octets of a room that is filled from its end. */
static size_t put_header(uint8_t *room, size_t size, uint8_t first) {
    size_t rest, count = 0, length = size;
    for (rest = length; length > 127 && rest > 0; rest >>= 8, count++) room[ROOM - ++size] = (uint8_t)rest;
    room[ROOM - ++size] = (uint8_t)(length > 127 ? 0x80 + count : length);
    room[ROOM - ++size] = first;
    return size;
}

static const uint8_t ending[] = {0x30, 0x0D, 0x06, 0x09, 0x2A, 0x86, 0x48, 0x86, 0xF7, 0x0D,
                                 0x01, 0x01, 0x0B, 0x05, 0x00, 0x03, 0x02, 0x00, 0xAA};

/* A room that ends with an algorithm identifier and a signature. */
static uint8_t *new_room(void) {
    uint8_t *room = malloc(ROOM);
    if (!room) stop("no memory");
    memcpy(room + ROOM - sizeof ending, ending, sizeof ending);
    return room;
}

/* Signed data of `levels` SEQUENCEs, one inside the other. */
static struct input nested(size_t levels) {
    struct input input = {"1,000,000 deep", NULL, 0, 1, levels + 5, NULL};
    uint8_t *room = new_room();
    size_t size = 0;
    /* First in a room that ends where the values do, then with the ending after them. */
    while (levels-- > 0) size = put_header(room, size, 0x30);
    memmove(room + ROOM - size - sizeof ending, room + ROOM - size, size);
    memcpy(room + ROOM - sizeof ending, ending, sizeof ending);
    size = put_header(room, size + sizeof ending, 0x30);
    input.octets = room + ROOM - size;
    input.size = size;
    return input;
}

/* Signed data of units, one after the other. */
static struct input units(const char *name, const uint8_t *unit, size_t unit_size, size_t count, size_t headers) {
    struct input input = {name, NULL, 0, 1, 0, NULL};
    uint8_t *room = new_room();
    size_t size = sizeof ending, place;
    for (place = 0; place < count; place++) {
        size += unit_size;
        memcpy(room + ROOM - size, unit, unit_size);
    }
    /* The header of what is signed goes in front of the units alone, so the ending is left out of its length. */
    size = put_header(room - sizeof ending, size - sizeof ending, 0x30) + sizeof ending;
    size = put_header(room, size, 0x30);
    input.octets = room + ROOM - size;
    input.size = size;
    input.found = 6 + headers * count;
    return input;
}

static struct input small_values(void) {
    static const uint8_t unit[] = {0x30, 0x10, 0x06, 0x03, 0x55, 0x04, 0x03, 0x31, 0x09,
                                   0x13, 0x04, 'n',  'a',  'm',  'e',  0x02, 0x01, 0x01};
    struct input input = units("1 MB of small values", unit, sizeof unit, SMALL / sizeof unit, 5);
    input.repeats = 5;
    return input;
}

static struct input nulls(void) {
    static const uint8_t unit[] = {0x05, 0x00};
    return units("20 MB of NULLs", unit, sizeof unit, NULLS, 1);
}

/* The octets of a file. */
static struct input of_file(const char *name, const char *path) {
    struct input input = {name, NULL, 0, 1, 0, NULL};
    uint8_t *room = new_room();
    FILE *file = fopen(path, "rb");
    if (!file) stop(path);
    input.octets = room;
    input.size = fread(room, 1, ROOM, file);
    fclose(file);
    return input;
}

static struct input certificate(const char *name, const char *path) {
    struct input input = of_file(name, path);
    input.repeats = 5000;
    input.found = walk_plainly(&input);
    return input;
}

static struct input certificates(const char *path) {
    struct input input = of_file("certificates that differ", path);
    input.found = each_plainly(&input);
    return input;
}

/* ---- Rounds ---- */

struct contender {
    const char *name;
    size_t (*call)(const struct input *input);
};

static double once(const struct input *input, const struct contender *contender) {
    size_t repeat;
    double start = now();
    for (repeat = 0; repeat < input->repeats; repeat++) {
        if (contender->call(input) != input->found) stop(contender->name);
    }
    return (now() - start) / (double)input->repeats;
}

/* Times the contenders in turn, and prints each over the first. */
static void measure(const struct input *input, const struct contender *contenders) {
    double best[CONTENDERS] = {0};
    size_t round, place;
    for (round = 0; round <= ROUNDS; round++) {
        for (place = 0; place < CONTENDERS && contenders[place].name; place++) {
            double took = once(input, &contenders[place]);
            /* The first round warms up. */
            if (round <= 1 || took < best[place]) best[place] = took;
        }
    }
    for (place = 0; place < CONTENDERS && contenders[place].name; place++) {
        printf("%-34s%14.1f%12.2f%14.2f\n", contenders[place].name, best[place], best[place] / (double)input->found,
               best[place] / best[0]);
    }
}

static const struct contender walks[CONTENDERS] = {
    {"walk: plain C", walk_plainly},
    {"rpki_walk", walk},
    {"rpki_index, capacity 0", counted},
    {"rpki_signed_data", signed_data},
#ifdef WITH_MBEDTLS
    {"mbedtls_asn1_get_len in a loop", mbedtls_walk},
#endif
#ifdef WITH_LIBCRYPTO
    {"ASN1_get_object in a loop", libcrypto_walk},
#endif
};
static const struct contender indexes[CONTENDERS] = {{"index: plain C", index_plainly}, {"rpki_index", indexed}};
static const struct contender wholes[CONTENDERS] = {
    {"a whole certificate, in parts", whole},
    {"rpki_certificate", certificate_parts},
    {"rpki_certificate_extensions", certificate_extensions},
    {"both, and rpki_walk", certificate_opened},
#ifdef WITH_MBEDTLS
    {"mbedtls_x509_crt_parse_der", mbedtls_whole},
#endif
#ifdef WITH_LIBCRYPTO
    {"d2i_X509 and X509_free", libcrypto_whole},
#endif
};

/* Of certificates that differ: an authority's parts, known extensions and profile, strict. */
static const struct contender batches[CONTENDERS] = {
    {"each certificate: plain C", each_plainly},
    {"each: rpki_certificate_of_profile", each_checked},
    {"each: rpki_certificate", each_divided},
    {"each: rpki_certificate_inspect", each_inspected},
    {"each: three calls", each_by_three},
#ifdef WITH_MBEDTLS
    {"each: mbedtls_x509_crt_parse_der", each_by_mbedtls},
#endif
};

/* Readers of small values, on those of a certificate, and of a URI. */
enum { READERS = 6 };
static const struct contender readers[READERS][CONTENDERS] = {
    {{"serial number: plain C", serial_plainly}, {"rpki_serial", serial}},
    {{"time: plain C", time_plainly}, {"rpki_time", moment}},
    {{"name, strict: plain C", name_plainly}, {"rpki_name_inspect", name}},
    {{"public key: plain C", key_plainly}, {"rpki_public_key", key}},
    {{"extension: plain C", extension_plainly}, {"rpki_extension", extension}},
    {{"rsync URI: plain C", rsync_plainly}, {"rpki_rsync_parse", rsync_parse}},
};

/* Room for an entry of each header. */
static void make_room(struct input *input) {
    input->entries = malloc(input->found * sizeof *input->entries);
    if (!input->entries) stop("no memory");
}

static void measure_walks(struct input input, bool is_certificate) {
    make_room(&input);
    printf("\n%s: %zu octets, %zu headers\n", input.name, input.size, input.found);
    printf("%-34s%14s%12s%14s\n", "", "ns a call", "ns/header", "x plain C");
    measure(&input, walks);
    measure(&input, indexes);
    if (is_certificate) measure(&input, wholes);
    free(input.entries);
}

static void measure_batch(struct input input) {
    printf("\n%s: %zu octets, %zu certificates\n", input.name, input.size, input.found);
    printf("%-34s%14s%12s%14s\n", "", "ns a call", "ns each", "x plain C");
    measure(&input, batches);
}

/* What the readers read: parts of a certificate whose entries have room, and a URI of 122 octets. */
static void find_inputs(struct input *input, struct input found[READERS]) {
    static const char uri[] =
        "rsync://rpki.example.net/repository/0123456789/abcdefghijklmnopqrst/ABCDEFGHIJKLMNOPQRST/"
        "0123456789-_~abcdefghij/file.roa/x";
    size_t numbers[PARTS];
    if (indexed(input) == 0) stop("no index");
    find_parts(input->entries, input->found, numbers);
    found[0] = part(input, numbers[SERIAL]);
    found[1] = part(input, rpki_first_child(input->entries, input->found, numbers[VALIDITY]));
    found[2] = part(input, numbers[ISSUER]);
    found[3] = part(input, numbers[KEY]);
    found[4] = part(input, rpki_first_child(input->entries, input->found, numbers[EXTENSIONS]));
    found[5] = (struct input){NULL, (const uint8_t *)uri, sizeof uri - 1, 20000, 1, NULL};
}

static void measure_readers(struct input input) {
    struct input inputs[READERS];
    size_t place;
    make_room(&input);
    find_inputs(&input, inputs);
    printf("\nparts of the certificate, and a URI\n%-34s%14s%12s%14s\n", "", "ns a call", "", "x plain C");
    for (place = 0; place < READERS; place++) measure(&inputs[place], readers[place]);
    free(input.entries);
}

/* Makes so many calls of the contender of this name, if it is among these. */
static bool calls(const struct input *input, const struct contender *contenders, const char *called, size_t count) {
    size_t place;
    for (place = 0; place < CONTENDERS && contenders[place].name; place++) {
        if (strcmp(contenders[place].name, called) != 0) continue;
        for (; count > 0; count--) {
            if (contenders[place].call(input) != input->found) stop(called);
        }
        return true;
    }
    return false;
}

static void make_calls(struct input input, struct input batch, const char *called, size_t count) {
    struct input inputs[READERS];
    size_t place;
    bool are_made;
    make_room(&input);
    are_made = calls(&input, walks, called, count) || calls(&input, indexes, called, count) ||
               calls(&input, wholes, called, count) || calls(&batch, batches, called, count);
    find_inputs(&input, inputs);
    for (place = 0; place < READERS && !are_made; place++)
        are_made = calls(&inputs[place], readers[place], called, count);
    if (!are_made) stop(called);
    free(input.entries);
}

int main(int count, char **words) {
    if (count == 6 && strcmp(words[3], "--calls") == 0) {
        make_calls(certificate("a certificate", words[1]), certificates(words[2]), words[4],
                   strtoul(words[5], NULL, 10));
        return 0;
    }
    if (count != 3 && count != 4) {
        fprintf(stderr, "usage: linked CERTIFICATE CERTIFICATES [ROOTS | --calls NAME COUNT]\n");
        return 2;
    }
    measure_walks(certificate("a certificate", words[1]), true);
    measure_batch(certificates(words[2]));
    measure_readers(certificate("a certificate", words[1]));
    if (count == 4) measure_walks(certificate("roots", words[3]), false);
    measure_walks(small_values(), false);
    measure_walks(nested(LEVELS), false);
    measure_walks(nulls(), false);
    return 0;
}
