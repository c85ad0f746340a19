/*
 * Opens a certificate and prints what a relying party looks at first, and last the three things to verify: that the
 * signature signs exactly the octets of the signed part.
 *
 * usage: show CERTIFICATE
 */
#include <inttypes.h>
#include <stdio.h>
#include <stdlib.h>
#include <string.h>

#include "rpki.h"

enum { MOST_OCTETS = 1 << 20 };

static void stop(const char *what, const char *why) {
    fprintf(stderr, "%s: %s\n", what, why);
    exit(1);
}

static void check(const char *what, rpki_status status) {
    if (status != RPKI_OK) stop(what, rpki_status_text(status));
}

static void print_octets(const char *name, const uint8_t *octets, size_t size) {
    printf("%s: ", name);
    for (; size > 0; size--) printf("%02X", *octets++);
    printf("\n");
}

static void print_moment(const char *name, const struct rpki_moment *at) {
    printf("%s: %04" PRId32 "-%02" PRIu32 "-%02" PRIu32, name, at->year, at->month, at->day);
    printf("T%02" PRIu32 ":%02" PRIu32 ":%02" PRIu32 "Z\n", at->hour, at->minute, at->second);
}

/* The contents of the value at the front, of which all was read; what follows it becomes the rest. */
static struct rpki_span take(struct rpki_span *rest) {
    struct rpki_header_parts header;
    struct rpki_span contents;
    check("value", rpki_header(rest->data, rest->size, &header));
    contents.data = rest->data + header.size;
    contents.size = header.length;
    rest->data = contents.data + contents.size;
    rest->size -= header.size + header.length;
    return contents;
}

static const char *is_of(struct rpki_span name, uint8_t profile) {
    rpki_status status = rpki_name_inspect(name.data, name.size, profile, true);
    if (status >= RPKI_MISSING_COMMON_NAME && status <= RPKI_ATTRIBUTE_NOT_PERMITTED) return "no";
    check("name", status);
    return "yes";
}

/* A name's first attribute, and which profiles the name is of. */
static void print_name(const char *what, struct rpki_span name) {
    struct rpki_span rest = name, names = take(&rest), set = take(&names), attribute = take(&set), text;
    take(&attribute);
    text = take(&attribute);
    printf("%s: %.*s", what, (int)text.size, (const char *)text.data);
    printf(" (RPKI %s, router %s)\n", is_of(name, RPKI_PROFILE_RPKI), is_of(name, RPKI_PROFILE_ROUTER));
}

/* The key, and its identifier, which is that of the extension (RFC 6487 4.8.2). */
static void print_key(struct rpki_span octets, const struct rpki_known_extensions *known) {
    struct rpki_key_parts key = {0};
    uint8_t identifier[20];
    check("public key", rpki_public_key(octets.data, octets.size, &key));
    check("public key", rpki_key_identifier(octets.data, octets.size, identifier));
    printf("public key: %s, %zu octets\n", key.format == RPKI_RSA ? "RSA" : "ECDSA P-256", key.bits.size);
    print_octets("key identifier", identifier, sizeof identifier);
    if (!known->subject_key_identifier.is_there || memcmp(known->subject_key, identifier, sizeof identifier)) {
        stop("subject key identifier", "not that of the key");
    }
}

/* An object identifier in dotted form. */
static void print_identifier(struct rpki_span contents) {
    size_t room = 4 * contents.size + 3;
    char *text = malloc(room);
    if (!text) stop("object identifier", "out of memory");
    check("object identifier", rpki_oid_text(contents.data, contents.size, text, room));
    printf("%s", text);
    free(text);
}

static void print_extensions(struct rpki_span rest) {
    struct rpki_extension_parts parts = {0};
    while (rest.size > 0) {
        const uint8_t *octets = rest.data;
        take(&rest);
        check("extension", rpki_extension(octets, (size_t)(rest.data - octets), &parts));
        printf("extension ");
        print_identifier(parts.id);
        printf(": %scritical, %zu octets\n", parts.critical ? "" : "not ", parts.octets.size);
    }
}

static void print_part(const char *name, const uint8_t *octets, struct rpki_span part) {
    printf("%s: %zu octets at %zu", name, part.size, (size_t)(part.data - octets));
}

/* What the octets say. */
static void show(const uint8_t *octets, size_t size) {
    struct rpki_certificate_parts parts = {0};
    struct rpki_known_extensions known = {0};
    struct rpki_walked walked;
    size_t zeros = 0;
    check("certificate", rpki_certificate(octets, size, &parts));
    check("certificate", rpki_certificate_extensions(octets, size, &known));
    check("certificate", rpki_walk(octets, size, &walked));
    printf("certificate: %zu octets, %" PRIu64 " headers\nversion: 3\n", size, walked.headers);
    while (zeros < 19 && parts.serial_number[zeros] == 0) zeros++;
    print_octets("serial number", parts.serial_number + zeros, 20 - zeros);
    print_moment("not before", &parts.validity.not_before);
    print_moment("not after", &parts.validity.not_after);
    print_name("issuer", parts.issuer);
    print_name("subject", parts.subject);
    print_key(parts.public_key, &known);
    print_extensions(parts.extensions);
    printf("to verify:\n");
    print_part("signed", octets, parts.data);
    print_part("\nalgorithm", octets, parts.algorithm);
    print_part(parts.has_parameters ? ", with parameters\nsignature" : ", without parameters\nsignature", octets,
               parts.signature);
    printf("\n");
}

int main(int count, char **words) {
    static uint8_t octets[MOST_OCTETS];
    FILE *file;
    size_t size;
    if (count != 2) {
        fprintf(stderr, "usage: show CERTIFICATE\n");
        return 2;
    }
    file = fopen(words[1], "rb");
    if (!file) stop(words[1], "cannot be read");
    size = fread(octets, 1, sizeof octets, file);
    fclose(file);
    show(octets, size);
    return 0;
}
