/*
 * Times what a validator asks of a certificate, a revocation list, a manifest and a route origin of the example
 * repository: each decoded alone, with all the checks of its kind, and decoded and verified, with its signatures and
 * what its issuer has to say of it; beside libcrypto, which makes fewer checks. Nanoseconds of processor time, the
 * smallest of 31 rounds in turn.
 *
 * usage: cc -O2 -Iinclude bench/verified.c bindings/out/librpki.a -lcrypto -o verified
 *        ./verified examples/repository/rpki.example/repo [NAME COUNT]   (so many of one row's calls, and no clock)
 */
#define _POSIX_C_SOURCE 199309L

#include <openssl/cms.h>
#include <openssl/x509.h>
#include <stdlib.h>
#include <string.h>

#include "rpki.h"
#include "timing.h"

#define OF(file) (file).octets, (file).size
#define IN(span) (span).data, (span).size

enum { MOST_OCTETS = 1 << 16, MOST_BLOCKS = 64, CALLS = 16, REPEATS = 200 };

struct file {
    uint8_t octets[MOST_OCTETS];
    size_t size;
};

static struct file anchor, authority, list, manifest, origin;
static struct rpki_moment moment;
static struct rpki_ip_block blocks[MOST_BLOCKS];
static size_t block_count;
static EVP_PKEY *key_of_anchor, *key_of_authority;

/* ---- The library ---- */

static bool reads_certificate(void) {
    struct rpki_certificate_parts parts;
    struct rpki_known_extensions known;
    return rpki_certificate_of_profile(OF(authority), RPKI_CERTIFICATE_CA, true, &parts, &known) == RPKI_OK;
}

static bool verifies_certificate(void) {
    struct rpki_ip_block settled[MOST_BLOCKS];
    size_t count;
    return reads_certificate() && rpki_certificate_signed_by(OF(authority), OF(anchor)) == RPKI_OK &&
           rpki_ip_settle(OF(authority), blocks, block_count, settled, MOST_BLOCKS, &count) == RPKI_OK;
}

static bool reads_list(void) {
    struct rpki_crl_parts parts = {0};
    return rpki_crl(OF(list), &parts) == RPKI_OK;
}

static bool verifies_list(void) { return rpki_crl_issued_by(OF(list), OF(authority), &moment) == RPKI_OK; }

static struct rpki_signed_object_parts object;

static bool reads_object(const struct file *file) {
    struct rpki_certificate_parts parts = {0};
    struct rpki_known_extensions known = {0};
    return rpki_signed_object_of_profile(file->octets, file->size, false, true, &object, &parts, &known) == RPKI_OK;
}

static bool is_signed(const struct file *file) {
    return rpki_object_verify(file->octets, file->size, false) == RPKI_OK &&
           rpki_certificate_signed_by(IN(object.certificate), OF(authority)) == RPKI_OK;
}

static bool reads_manifest(void) {
    struct rpki_manifest_parts parts = {0};
    return reads_object(&manifest) && rpki_manifest(IN(object.content), &parts) == RPKI_OK;
}

static bool verifies_manifest(void) {
    return reads_manifest() && is_signed(&manifest) && rpki_manifest_inherits(IN(object.certificate)) == RPKI_OK;
}

static bool reads_origin(void) {
    struct rpki_roa_parts parts = {0};
    return reads_object(&origin) && rpki_roa(IN(object.content), false, &parts) == RPKI_OK;
}

static bool verifies_origin(void) {
    struct rpki_ip_block settled[MOST_BLOCKS];
    size_t count;
    return reads_origin() && is_signed(&origin) &&
           rpki_ip_settle(IN(object.certificate), blocks, block_count, settled, MOST_BLOCKS, &count) == RPKI_OK &&
           rpki_roa_is_within(IN(object.content), false, settled, count) == RPKI_OK;
}

/* ---- libcrypto ---- */

static bool certificate_by_openssl(bool verified) {
    const unsigned char *at = authority.octets;
    X509 *found = d2i_X509(NULL, &at, (long)authority.size);
    bool well = found && (!verified || X509_verify(found, key_of_anchor) == 1);
    X509_free(found);
    return well;
}

static bool list_by_openssl(bool verified) {
    const unsigned char *at = list.octets;
    X509_CRL *found = d2i_X509_CRL(NULL, &at, (long)list.size);
    bool well = found && (!verified || X509_CRL_verify(found, key_of_authority) == 1);
    X509_CRL_free(found);
    return well;
}

static bool object_by_openssl(const struct file *file, bool verified) {
    const unsigned char *at = file->octets;
    CMS_ContentInfo *found = d2i_CMS_ContentInfo(NULL, &at, (long)file->size);
    bool well = found != NULL;
    if (well && verified) {
        STACK_OF(X509) *signers = CMS_get1_certs(found);
        well = CMS_verify(found, NULL, NULL, NULL, NULL, CMS_NO_SIGNER_CERT_VERIFY | CMS_BINARY) == 1 &&
               X509_verify(sk_X509_value(signers, 0), key_of_authority) == 1;
        sk_X509_pop_free(signers, X509_free);
    }
    CMS_ContentInfo_free(found);
    return well;
}

static bool openssl_reads_certificate(void) { return certificate_by_openssl(false); }

static bool openssl_verifies_certificate(void) { return certificate_by_openssl(true); }

static bool openssl_reads_list(void) { return list_by_openssl(false); }

static bool openssl_verifies_list(void) { return list_by_openssl(true); }

static bool openssl_reads_manifest(void) { return object_by_openssl(&manifest, false); }

static bool openssl_verifies_manifest(void) { return object_by_openssl(&manifest, true); }

static bool openssl_reads_origin(void) { return object_by_openssl(&origin, false); }

static bool openssl_verifies_origin(void) { return object_by_openssl(&origin, true); }

/* ---- The run ---- */

static const struct timed calls[CALLS] = {{"certificate", reads_certificate},
                                          {"certificate, verified", verifies_certificate},
                                          {"list", reads_list},
                                          {"list, verified", verifies_list},
                                          {"manifest", reads_manifest},
                                          {"manifest, verified", verifies_manifest},
                                          {"route origin", reads_origin},
                                          {"route origin, verified", verifies_origin},
                                          {"certificate by libcrypto", openssl_reads_certificate},
                                          {"certificate by libcrypto, verified", openssl_verifies_certificate},
                                          {"list by libcrypto", openssl_reads_list},
                                          {"list by libcrypto, verified", openssl_verifies_list},
                                          {"manifest by libcrypto", openssl_reads_manifest},
                                          {"manifest by libcrypto, verified", openssl_verifies_manifest},
                                          {"route origin by libcrypto", openssl_reads_origin},
                                          {"route origin by libcrypto, verified", openssl_verifies_origin}};

static bool reads_file(const char *folder, const char *name, struct file *out) {
    char path[4096];
    FILE *file;
    snprintf(path, sizeof path, "%s/%s", folder, name);
    file = fopen(path, "rb");
    if (!file) return false;
    out->size = fread(out->octets, 1, MOST_OCTETS, file);
    fclose(file);
    return out->size > 0;
}

static EVP_PKEY *key_of(const struct file *file) {
    const unsigned char *at = file->octets;
    X509 *found = d2i_X509(NULL, &at, (long)file->size);
    EVP_PKEY *key = X509_get_pubkey(found);
    X509_free(found);
    return key;
}

/* The files, the blocks of the anchor, and a moment in the period of the list. */
static bool begins(const char *folder) {
    static const struct rpki_ip_block all[] = {
        {{0}, {255, 255, 255, 255}, RPKI_IPV4, false},
        {{0}, {255, 255, 255, 255, 255, 255, 255, 255, 255, 255, 255, 255, 255, 255, 255, 255}, RPKI_IPV6, false},
    };
    struct rpki_crl_parts parts = {0};
    if (!reads_file(folder, "ta/ta.cer", &anchor) || !reads_file(folder, "ta/ca.cer", &authority) ||
        !reads_file(folder, "ca/ca.crl", &list) || !reads_file(folder, "ca/ca.mft", &manifest) ||
        !reads_file(folder, "ca/roa.roa", &origin) || rpki_crl(OF(list), &parts) != RPKI_OK) {
        return false;
    }
    moment = parts.this_update;
    key_of_anchor = key_of(&anchor);
    key_of_authority = key_of(&authority);
    return rpki_ip_settle(OF(anchor), all, 2, blocks, MOST_BLOCKS, &block_count) == RPKI_OK;
}

/* Makes so many calls of the row of this name. */
static int make_calls(const char *name, size_t count) {
    size_t call;
    for (call = 0; call < CALLS && strcmp(calls[call].name, name) != 0; call++) continue;
    if (call == CALLS) return 2;
    for (; count > 0; count--) {
        if (!calls[call].call()) return 1;
    }
    return 0;
}

int main(int count, char **words) {
    double least[CALLS];
    size_t call;
    if ((count != 2 && count != 4) || !begins(words[1])) return 2;
    if (count == 4) return make_calls(words[2], strtoul(words[3], NULL, 10));
    if (!time_each(calls, CALLS, REPEATS, least)) return 1;
    for (call = 0; call < CALLS / 2; call++) {
        printf("%-24s%12.0f ns%12.2f of libcrypto\n", calls[call].name, least[call],
               least[call] / least[call + CALLS / 2]);
    }
    return 0;
}
