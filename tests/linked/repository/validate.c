/*
 * Validates the objects of one authority of the RPKI, with the library for all that is read, and libcrypto for digests
 * and signatures alone.
 *
 * usage: validate MOMENT TRUST-ANCHOR AUTHORITY LIST FILE...
 *
 * MOMENT is written as 20260101000000Z. TRUST-ANCHOR and AUTHORITY are certificates, the second issued by the first
 * (or the same file twice), LIST is the revocation list of the authority, and each FILE a signed object of it. Prints a
 * line a file: its name, and then `revoked`, what is wrong with it, or the type of the content, its digest, the serial
 * number and the key identifier of the signer's certificate, and when it was signed. After that is a line for each
 * file of a manifest, prefix that an AS may announce, or provider of a customer. Of the first file each octet is
 * changed, one at a time: no such object may be valid. Ends with 1 where a file is not valid.
 */
#include <arpa/inet.h>
#include <openssl/evp.h>
#include <openssl/sha.h>
#include <openssl/x509.h>
#include <stdio.h>
#include <stdlib.h>
#include <string.h>

#include "rpki.h"

/* A certificate that is valid: its parts, its extensions, and its key. */
struct holder {
    struct rpki_span all;
    struct rpki_certificate_parts parts;
    struct rpki_known_extensions known;
    EVP_PKEY *key;
};

static bool are_same(struct rpki_span one, struct rpki_span other) {
    return one.size == other.size && memcmp(one.data, other.data, one.size) == 0;
}

/* The octets of a file; the program ends where it can't be read. */
static struct rpki_span read_file(const char *name) {
    FILE *file = fopen(name, "rb");
    uint8_t *octets = malloc(1 << 24);
    struct rpki_span found = {octets, 0};
    if (file == NULL || octets == NULL) {
        fprintf(stderr, "%s: cannot be read\n", name);
        exit(2);
    }
    found.size = fread(octets, 1, 1 << 24, file);
    fclose(file);
    return found;
}

/* Whether the key has signed the first octets, and after them the others, by RSA with SHA-256. */
static bool has_signed(EVP_PKEY *key, struct rpki_span first, struct rpki_span others, struct rpki_span signature) {
    EVP_MD_CTX *context = EVP_MD_CTX_new();
    bool answer = EVP_DigestVerifyInit(context, NULL, EVP_sha256(), NULL, key) == 1 &&
                  EVP_DigestVerifyUpdate(context, first.data, first.size) == 1 &&
                  EVP_DigestVerifyUpdate(context, others.data, others.size) == 1 &&
                  EVP_DigestVerifyFinal(context, signature.data, signature.size) == 1;
    EVP_MD_CTX_free(context);
    return answer;
}

/* What is wrong with a certificate of this profile, or NULL; its parts and its key are then known. */
static const char *read_holder(struct rpki_span all, uint8_t profile, struct holder *out) {
    struct rpki_span key;
    uint8_t identifier[20];
    out->all = all;
    if (rpki_certificate_of_profile(all.data, all.size, profile, true, &out->parts, &out->known) != RPKI_OK) {
        return "no certificate of the profile";
    }
    key = out->parts.public_key;
    if (rpki_key_identifier(key.data, key.size, identifier) != RPKI_OK ||
        memcmp(identifier, out->known.subject_key, 20) != 0) {
        return "not the identifier of the key";
    }
    out->key = d2i_PUBKEY(NULL, &key.data, (long)key.size);
    return out->key == NULL ? "no key" : NULL;
}

/* Whether the resources of the subject are within those of the issuer. */
static bool are_within(const struct rpki_known_extensions *of_issuer, const struct rpki_known_extensions *of_subject) {
    struct rpki_span outer = of_issuer->ip_resources.octets, inner = of_subject->ip_resources.octets;
    bool ip = !of_subject->ip_resources.is_there, as = !of_subject->as_resources.is_there;
    if (!ip && rpki_ip_blocks_encompass(outer.data, outer.size, inner.data, inner.size, &ip) != RPKI_OK) {
        return false;
    }
    outer = of_issuer->as_resources.octets;
    inner = of_subject->as_resources.octets;
    if (!as && rpki_as_blocks_encompass(outer.data, outer.size, inner.data, inner.size, &as) != RPKI_OK) {
        return false;
    }
    return ip && as;
}

/* What is wrong with a certificate as one that the issuer has issued, or NULL. */
static const char *check_issued(const struct holder *subject, const struct holder *issuer,
                                const struct rpki_moment *moment) {
    const struct rpki_span none = {NULL, 0};
    if (rpki_validity_at(&subject->parts.validity, moment) != RPKI_OK) {
        return "not valid at the moment";
    }
    if (subject != issuer) {
        rpki_status status =
            rpki_certificate_issued_by(subject->all.data, subject->all.size, issuer->all.data, issuer->all.size);
        if (status != RPKI_OK) return status == RPKI_OTHER_ISSUER ? "another issuer" : "another key of the issuer";
    }
    if (!has_signed(issuer->key, subject->parts.data, none, subject->parts.signature)) {
        return "not signed by the issuer";
    }
    if (subject != issuer && !are_within(&issuer->known, &subject->known)) {
        return "more resources than the issuer has";
    }
    return NULL;
}

/* What is wrong with a revocation list of the authority, or NULL. */
static const char *check_list(struct rpki_span list, const struct holder *authority, const struct rpki_moment *moment,
                              struct rpki_crl_parts *out) {
    struct rpki_period period;
    const struct rpki_span none = {NULL, 0};
    if (rpki_crl(list.data, list.size, out) != RPKI_OK) {
        return "no revocation list";
    }
    period.not_before = out->this_update;
    period.not_after = out->next_update;
    if (rpki_validity_at(&period, moment) != RPKI_OK) {
        return "stale";
    }
    if (!are_same(out->issuer, authority->parts.subject) ||
        memcmp(out->authority_key_identifier, authority->known.subject_key, 20) != 0) {
        return "of another authority";
    }
    return has_signed(authority->key, out->data, none, out->signature) ? NULL : "not signed by the authority";
}

/* Whether no two files of a manifest have the same name (RFC 9286 4.2.1). */
static bool have_own_names(struct rpki_span content, size_t count) {
    struct rpki_span *room = calloc(count + 1, sizeof *room);
    bool differ = false;
    rpki_status status = rpki_manifest_names(content.data, content.size, room, count, &differ);
    free(room);
    return status == RPKI_OK && differ;
}

/* What is wrong with an object of the authority, or NULL (RFC 6488 3). */
static const char *check_object(struct rpki_span object, const struct holder *authority, struct rpki_span revoked,
                                const struct rpki_moment *moment, struct rpki_signed_object_parts *out,
                                struct holder *signer) {
    static const uint8_t set[] = {0x31};
    const struct rpki_span front = {set, 1};
    struct rpki_span attributes;
    uint8_t digest[32];
    bool is_revoked;
    const char *wrong;
    if (rpki_signed_object(object.data, object.size, false, out) != RPKI_OK) {
        return "no signed object";
    }
    if (!out->is_type_signed) {
        return "another type is signed";
    }
    SHA256(out->content.data, out->content.size, digest);
    if (memcmp(digest, out->message_digest, 32) != 0) {
        return "another content is signed";
    }
    wrong = read_holder(out->certificate, RPKI_CERTIFICATE_EE, signer);
    if (wrong != NULL) {
        return wrong;
    }
    if (memcmp(out->signer_identifier, signer->known.subject_key, 20) != 0) {
        return "another signer";
    }
    attributes = out->signed_attributes;
    attributes.data++;
    attributes.size--;
    if (!has_signed(signer->key, front, attributes, out->signature)) {
        return "not signed by the signer";
    }
    wrong = check_issued(signer, authority, moment);
    if (wrong != NULL) {
        return wrong;
    }
    if (rpki_crl_contains(revoked.data, revoked.size, signer->parts.serial_number, &is_revoked) != RPKI_OK) {
        return "no revocation list";
    }
    return is_revoked ? "revoked" : NULL;
}

static void print_hexadecimal(const char *word, struct rpki_span octets) {
    printf(" %s ", word);
    for (size_t i = 0; i < octets.size; i++) {
        printf("%02x", octets.data[i]);
    }
}

static void print_files(struct rpki_span content) {
    struct rpki_manifest_parts parts = {0};
    struct rpki_manifest_file_parts file = {0};
    if (rpki_manifest(content.data, content.size, &parts) != RPKI_OK) {
        return;
    }
    if (!have_own_names(content, parts.count)) {
        printf("  a name stands twice\n");
        return;
    }
    while (parts.files.size > 0) {
        const struct rpki_span digest = {file.digest, 32};
        if (rpki_manifest_file(&parts.files, &file) != RPKI_OK) {
            return;
        }
        printf("  file %.*s", (int)file.name.size, (const char *)file.name.data);
        print_hexadecimal("digest", digest);
        printf("\n");
    }
}

static void print_prefixes(struct rpki_span rest, uint8_t family, uint32_t as_id) {
    struct rpki_roa_address_parts prefix;
    char text[INET6_ADDRSTRLEN];
    while (rest.size > 0) {
        if (rpki_roa_address(&rest, family, &prefix) != RPKI_OK) {
            return;
        }
        inet_ntop(family == RPKI_IPV4 ? AF_INET : AF_INET6, prefix.address, text, sizeof text);
        printf("  %s/%d-%d => AS%lu\n", text, prefix.length, prefix.max_length, (unsigned long)as_id);
    }
}

static void print_origins(struct rpki_span content) {
    struct rpki_roa_parts parts = {0};
    if (rpki_roa(content.data, content.size, true, &parts) == RPKI_OK) {
        print_prefixes(parts.v4, RPKI_IPV4, parts.as_id);
        print_prefixes(parts.v6, RPKI_IPV6, parts.as_id);
    }
}

static void print_providers(struct rpki_span content) {
    struct rpki_aspa_parts parts = {0};
    uint32_t provider;
    if (rpki_aspa(content.data, content.size, &parts) != RPKI_OK) {
        return;
    }
    while (parts.providers.size > 0) {
        if (rpki_aspa_provider(&parts.providers, &provider) != RPKI_OK) {
            return;
        }
        printf("  customer AS%lu provider AS%lu\n", (unsigned long)parts.customer, (unsigned long)provider);
    }
}

static void print_object(const char *name, const struct rpki_signed_object_parts *parts, const struct holder *signer) {
    const struct rpki_span digest = {parts->message_digest, 32}, serial = {signer->parts.serial_number, 20};
    const struct rpki_span key = {parts->signer_identifier, 20};
    printf("%s valid", name);
    print_hexadecimal("type", parts->content_type);
    print_hexadecimal("digest", digest);
    print_hexadecimal("serial", serial);
    print_hexadecimal("key", key);
    printf(" signed %lld\n", parts->has_signing_time ? (long long)parts->signing_time.seconds : -1LL);
    print_files(parts->content);
    print_origins(parts->content);
    print_providers(parts->content);
}

/* Whether an object with any one octet changed is valid still: none may be. */
static bool withstands(struct rpki_span object, const struct holder *authority, struct rpki_span revoked,
                       const struct rpki_moment *moment) {
    uint8_t *changed = malloc(object.size);
    struct rpki_span other = {changed, object.size};
    size_t valid = 0;
    memcpy(changed, object.data, object.size);
    for (size_t i = 0; i < object.size; i++) {
        struct rpki_signed_object_parts parts = {0};
        struct holder signer = {0};
        changed[i] ^= 1;
        if (check_object(other, authority, revoked, moment, &parts, &signer) == NULL) {
            printf("valid with octet %zu changed\n", i);
            valid++;
        }
        EVP_PKEY_free(signer.key);
        changed[i] ^= 1;
    }
    free(changed);
    printf("%zu octets changed, one at a time: %zu of these objects are valid\n", object.size, valid);
    return valid == 0;
}

int main(int count, char **words) {
    struct holder anchor = {0}, authority = {0};
    struct rpki_moment moment;
    struct rpki_crl_parts list = {0};
    uint8_t time[17] = {0x18, 15};
    struct rpki_span revoked;
    const char *wrong;
    int status = 0;
    if (count < 6 || strlen(words[1]) != 15) {
        fprintf(stderr, "usage: validate MOMENT TRUST-ANCHOR AUTHORITY LIST FILE...\n");
        return 2;
    }
    memcpy(time + 2, words[1], 15);
    wrong = rpki_time(time, 17, &moment) == RPKI_OK ? NULL : "no moment";
    if (wrong == NULL) wrong = read_holder(read_file(words[2]), RPKI_CERTIFICATE_TA, &anchor);
    if (wrong == NULL) wrong = check_issued(&anchor, &anchor, &moment);
    if (wrong == NULL && strcmp(words[2], words[3]) == 0) {
        authority = anchor;
    } else if (wrong == NULL) {
        wrong = read_holder(read_file(words[3]), RPKI_CERTIFICATE_CA, &authority);
        if (wrong == NULL) wrong = check_issued(&authority, &anchor, &moment);
    }
    if (wrong == NULL) wrong = check_list(read_file(words[4]), &authority, &moment, &list);
    if (wrong != NULL) {
        printf("%s\n", wrong);
        return 1;
    }
    revoked = list.revoked_certs;
    for (int i = 5; i < count; i++) {
        struct rpki_span object = read_file(words[i]);
        struct rpki_signed_object_parts parts = {0};
        struct holder signer = {0};
        wrong = check_object(object, &authority, revoked, &moment, &parts, &signer);
        if (wrong != NULL) {
            printf("%s %s\n", words[i], wrong);
            status = 1;
        } else {
            print_object(words[i], &parts, &signer);
            if (i == 5 && !withstands(object, &authority, revoked, &moment)) status = 1;
        }
        EVP_PKEY_free(signer.key);
        free((void *)object.data);
    }
    return status;
}
