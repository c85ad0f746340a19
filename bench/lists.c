/*
 * Times rpki_crl and rpki_crl_contains on a revocation list, beside plain C with the checks of the first, and beside
 * libcrypto's d2i_X509_CRL: nanoseconds of processor time an entry, the smallest of 31 rounds in turn. A search asks
 * for a number that isn't there.
 *
 * usage: cc -O2 -Iinclude bench/lists.c bench/plain.c bench/plain_objects.c bindings/out/librpki.a -lcrypto -o lists
 *        ./lists LIST
 */
#include <openssl/x509.h>
#include <stdio.h>
#include <stdlib.h>

#include "plain.h"
#include "rpki.h"
#include "timing.h"

enum { MOST_OCTETS = 1 << 24, CALLS = 4 };

static uint8_t octets[MOST_OCTETS];
static size_t size;
static struct rpki_crl_parts parts;

static bool reads(void) { return rpki_crl(octets, size, &parts) == RPKI_OK; }

static bool searches(void) {
    static const uint8_t serial[20] = {0x11};
    bool found;
    return rpki_crl_contains(parts.revoked_certs.data, parts.revoked_certs.size, serial, &found) == RPKI_OK;
}

static bool reads_plainly(void) {
    struct rpki_crl_parts found = {0};
    return plain_list(octets, size, &found);
}

static bool reads_by_openssl(void) {
    const unsigned char *at = octets;
    X509_CRL *list = d2i_X509_CRL(NULL, &at, (long)size);
    X509_CRL_free(list);
    return list != NULL;
}

static const struct timed calls[CALLS] = {{"rpki_crl", reads},
                                          {"rpki_crl_contains", searches},
                                          {"plain C", reads_plainly},
                                          {"d2i_X509_CRL", reads_by_openssl}};

static size_t entries(void) {
    struct rpki_revoked_certificate entry;
    struct rpki_span rest = parts.revoked_certs;
    size_t count = 0;
    while (rest.size > 0 && rpki_crl_entry(&rest, &entry) == RPKI_OK) count++;
    return count;
}

int main(int count, char **words) {
    double least[CALLS];
    FILE *file = count == 2 ? fopen(words[1], "rb") : NULL;
    int call;
    if (!file) return 2;
    size = fread(octets, 1, sizeof octets, file);
    fclose(file);
    if (!time_each(calls, CALLS, 1, least)) return 1;
    for (call = 0; call < CALLS; call++) {
        printf("%s: %.1f ns an entry, %.2f of plain C, %.2f of d2i_X509_CRL\n", calls[call].name,
               least[call] / (double)entries(), least[call] / least[CALLS - 2], least[call] / least[CALLS - 1]);
    }
    return 0;
}
