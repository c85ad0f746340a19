/*
 * Times rpki_signed_object on a signed object, and rpki_manifest or rpki_roa on what it contains, beside plain C with
 * the checks of the first around rpki_certificate, and beside libcrypto's d2i_CMS_ContentInfo, which reads no content:
 * nanoseconds of processor time, the smallest of 31 rounds in turn.
 *
 * usage: cc -O2 -Iinclude bench/objects.c bench/plain.c bench/plain_objects.c bindings/out/librpki.a -lcrypto -o
 * objects
 *        ./objects OBJECT
 */
#include <openssl/cms.h>
#include <stdio.h>
#include <stdlib.h>

#include "plain.h"
#include "rpki.h"
#include "timing.h"

enum { MOST_OCTETS = 1 << 24, CALLS = 4 };

static uint8_t octets[MOST_OCTETS];
static size_t size;
static struct rpki_signed_object_parts parts;

static bool reads(void) { return rpki_signed_object(octets, size, false, &parts) == RPKI_OK; }

static bool reads_content(void) {
    struct rpki_manifest_parts manifest = {0};
    struct rpki_roa_parts roa = {0};
    return rpki_manifest(parts.content.data, parts.content.size, &manifest) == RPKI_OK ||
           rpki_roa(parts.content.data, parts.content.size, false, &roa) == RPKI_OK;
}

static bool reads_plainly(void) {
    struct rpki_signed_object_parts found = {0};
    struct rpki_certificate_parts certificate;
    return plain_object(octets, size, &found) &&
           rpki_certificate(found.certificate.data, found.certificate.size, &certificate) == RPKI_OK;
}

static bool reads_by_openssl(void) {
    const unsigned char *at = octets;
    CMS_ContentInfo *object = d2i_CMS_ContentInfo(NULL, &at, (long)size);
    CMS_ContentInfo_free(object);
    return object != NULL;
}

static const struct timed calls[CALLS] = {{"rpki_signed_object", reads},
                                          {"what it contains", reads_content},
                                          {"plain C", reads_plainly},
                                          {"d2i_CMS_ContentInfo", reads_by_openssl}};

int main(int count, char **words) {
    double least[CALLS];
    FILE *file = count == 2 ? fopen(words[1], "rb") : NULL;
    int call;
    if (!file) return 2;
    size = fread(octets, 1, sizeof octets, file);
    fclose(file);
    /* A thousand calls of an object of few octets, ten of a large one. */
    if (!time_each(calls, CALLS, size < 10000 ? 1000 : 10, least)) return 1;
    for (call = 0; call < CALLS; call++) {
        printf("%s: %.0f ns, %.2f ns an octet, %.2f of plain C, %.2f of d2i_CMS_ContentInfo\n", calls[call].name,
               least[call], least[call] / (double)size, least[call] / least[CALLS - 2], least[call] / least[CALLS - 1]);
    }
    return 0;
}
