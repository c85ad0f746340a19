/*
 * A revocation list and a signed object in one pass, by hand and unproved, with all the checks of rpki_crl and
 * rpki_signed_object but those of the object's certificate: what the times of these calls are compared with.
 */
#include "plain_parts.h"

static const uint8_t ALGORITHM[] = {0x06, 0x09, 0x2A, 0x86, 0x48, 0x86, 0xF7, 0x0D, 0x01, 0x01, 0x0B};
static const uint8_t RSA[] = {0x06, 0x09, 0x2A, 0x86, 0x48, 0x86, 0xF7, 0x0D, 0x01, 0x01, 0x01};
static const uint8_t DIGEST[] = {0x06, 0x09, 0x60, 0x86, 0x48, 0x01, 0x65, 0x03, 0x04, 0x02, 0x01};

/* Whether the part begins with these octets; they are taken then. */
static bool skip(struct part *in, const uint8_t *octets, size_t size) {
    if (size_of(*in) < size || memcmp(in->at, octets, size) != 0) return false;
    in->at += size;
    return true;
}

static bool take_time(struct part *in, struct rpki_moment *out) {
    const uint8_t *start = in->at;
    struct part time;
    return in->at < in->past && take(in, *start, &time) && plain_time(start, (size_t)(in->at - start), out);
}

/* ---- Revocation lists ---- */

static bool are_entries(struct part list) {
    struct rpki_moment moment;
    uint8_t serial[20];
    while (list.at < list.past) {
        struct part entry, number;
        const uint8_t *start;
        if (!take(&list, 0x30, &entry)) return false;
        start = entry.at;
        if (!take(&entry, 0x02, &number) || !plain_serial(start, (size_t)(entry.at - start), serial)) return false;
        if (!take_time(&entry, &moment) || entry.at != entry.past) return false;
    }
    return true;
}

/* An extension that isn't critical, by the last octet of its identifier under id-ce. */
static bool take_extension(struct part *list, uint8_t *which, struct part *contents) {
    struct part one, id, flag;
    if (!take(list, 0x30, &one) || !take(&one, 0x06, &id) || size_of(id) != 3) return false;
    if (id.at[0] != 0x55 || id.at[1] != 0x1D) return false;
    *which = id.at[2];
    if (one.at < one.past && *one.at == 0x01) {
        if (!take(&one, 0x01, &flag) || size_of(flag) != 1 || *flag.at != 0) return false;
    }
    return only(one, 0x04, contents);
}

static bool read_extensions(struct part list, struct rpki_crl_parts *out) {
    static const uint8_t identifier[] = {0x30, 0x16, 0x80, 0x14};
    bool authority = false, number = false;
    while (list.at < list.past) {
        struct part contents;
        uint8_t which;
        if (!take_extension(&list, &which, &contents)) return false;
        if (which == 35 && !authority) {
            if (!skip(&contents, identifier, 4) || size_of(contents) != 20) return false;
            memcpy(out->authority_key_identifier, contents.at, 20);
            authority = true;
        } else if (which == 20 && !number) {
            if (!plain_serial(contents.at, size_of(contents), out->crl_number)) return false;
            number = true;
        } else {
            return false;
        }
    }
    return authority && number;
}

bool plain_list(const uint8_t *octets, size_t size, struct rpki_crl_parts *out) {
    static const uint8_t version[] = {0x02, 0x01, 0x01};
    struct part all = {octets, octets + size}, outer, fields, bits, list;
    const uint8_t *start;
    bool has_parameters;
    if (!only(all, 0x30, &outer)) return false;
    start = outer.at;
    if (!take(&outer, 0x30, &fields)) return false;
    out->data = span_of(start, outer.at);
    start = outer.at;
    if (!take_algorithm(&outer, ALGORITHM, &out->has_parameters)) return false;
    out->algorithm = span_of(start, outer.at);
    if (!only(outer, 0x03, &bits) || bits.at == bits.past || *bits.at != 0) return false;
    out->signature = span_of(bits.at + 1, bits.past);
    if (!skip(&fields, version, 3) || !take_algorithm(&fields, ALGORITHM, &has_parameters)) return false;
    start = fields.at;
    if (has_parameters != out->has_parameters) return false;
    if (!take(&fields, 0x30, &list) || !plain_any_name(start, (size_t)(fields.at - start))) return false;
    out->issuer = span_of(start, fields.at);
    if (!take_time(&fields, &out->this_update) || !take_time(&fields, &out->next_update)) return false;
    out->revoked_certs = span_of(fields.at, fields.at);
    if (fields.at < fields.past && *fields.at == 0x30) {
        if (!take(&fields, 0x30, &list) || !are_entries(list)) return false;
        out->revoked_certs = span_of(list.at, list.past);
    }
    return only(fields, 0xA0, &outer) && only(outer, 0x30, &list) && read_extensions(list, out);
}

/* ---- Signed objects ---- */

/* Seconds of 64 bits (RFC 6019 2). */
static bool is_seconds(struct part set, uint64_t *out) {
    struct part number;
    if (!only(set, 0x02, &number) || number.at == number.past || *number.at >= 0x80) return false;
    if (size_of(number) > 1 && *number.at == 0 && *++number.at < 0x80) return false;
    if (size_of(number) > 8) return false;
    for (*out = 0; number.at < number.past; number.at++) *out = *out << 8 | *number.at;
    return true;
}

enum { CONTENT_TYPE = 1, MESSAGE_DIGEST = 2, SIGNING_TIME = 4, BINARY_TIME = 8 };

static unsigned attribute_of(struct part id) {
    static const uint8_t pkcs9[] = {0x2A, 0x86, 0x48, 0x86, 0xF7, 0x0D, 0x01, 0x09, 0x10, 0x02, 0x2E};
    if (is(id, pkcs9, sizeof pkcs9)) return BINARY_TIME;
    if (size_of(id) != 9 || memcmp(id.at, pkcs9, 8) != 0 || id.at[8] < 3 || id.at[8] > 5) return 0;
    return CONTENT_TYPE << (id.at[8] - 3);
}

/* The attributes of the four types; each has one value. */
static bool read_attributes(struct part list, struct part type, struct rpki_signed_object_parts *out) {
    unsigned seen = 0;
    while (list.at < list.past) {
        struct part one, id, set, value;
        unsigned which;
        if (!take(&list, 0x30, &one) || !take(&one, 0x06, &id) || !only(one, 0x31, &set)) return false;
        which = attribute_of(id);
        if (which == 0 || (seen & which)) return false;
        seen |= which;
        if (which == CONTENT_TYPE) {
            if (!only(set, 0x06, &value) || !is_identifier(value)) return false;
            out->is_type_signed = is(value, type.at, size_of(type));
        } else if (which == MESSAGE_DIGEST) {
            if (!only(set, 0x04, &value) || size_of(value) != 32) return false;
            memcpy(out->message_digest, value.at, 32);
        } else if (which == BINARY_TIME) {
            if (!is_seconds(set, &out->binary_signing_time)) return false;
        } else if (!plain_time(set.at, size_of(set), &out->signing_time)) {
            return false;
        }
    }
    out->has_signing_time = seen & SIGNING_TIME;
    out->has_binary_signing_time = seen & BINARY_TIME;
    return (seen & CONTENT_TYPE) && (seen & MESSAGE_DIGEST);
}

bool plain_object(const uint8_t *octets, size_t size, struct rpki_signed_object_parts *out) {
    static const uint8_t type[] = {0x06, 0x09, 0x2A, 0x86, 0x48, 0x86, 0xF7, 0x0D, 0x01, 0x07, 0x02};
    static const uint8_t three[] = {0x02, 0x01, 0x03};
    struct part all = {octets, octets + size}, outer, data, set, content, id, wrapped, found, signers, signer,
                attributes;
    const uint8_t *start;
    bool has_null;
    if (!only(all, 0x30, &outer) || !skip(&outer, type, sizeof type) || !only(outer, 0xA0, &data)) return false;
    if (!only(data, 0x30, &data) || !skip(&data, three, 3) || !take(&data, 0x31, &set)) return false;
    if (!take_algorithm(&set, DIGEST, &has_null) || set.at != set.past) return false;
    if (!take(&data, 0x30, &content) || !take(&content, 0x06, &id) || !is_identifier(id)) return false;
    if (!only(content, 0xA0, &wrapped) || !only(wrapped, 0x04, &found)) return false;
    out->content_type = span_of(id.at, id.past);
    out->content = span_of(found.at, found.past);
    if (!take(&data, 0xA0, &found) || size_of(found) == 0) return false;
    out->certificate = span_of(found.at, found.past);
    if (!only(found, 0x30, &found) || !only(data, 0x31, &signers) || !only(signers, 0x30, &signer)) return false;
    if (!skip(&signer, three, 3) || !take(&signer, 0x80, &found) || size_of(found) != 20) return false;
    memcpy(out->signer_identifier, found.at, 20);
    if (!take_algorithm(&signer, DIGEST, &has_null)) return false;
    start = signer.at;
    if (!take(&signer, 0xA0, &attributes)) return false;
    out->signed_attributes = span_of(start, signer.at);
    if (!read_attributes(attributes, id, out)) return false;
    if (!take_algorithm(&signer, RSA, &out->has_parameters) &&
        !take_algorithm(&signer, ALGORITHM, &out->has_parameters)) {
        return false;
    }
    if (!only(signer, 0x04, &found)) return false;
    out->signature = span_of(found.at, found.past);
    return true;
}
