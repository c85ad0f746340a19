/*
 * What signed objects contain in one pass, by hand and unproved, with all the checks of rpki_manifest, rpki_roa and
 * rpki_aspa and of the calls that read an entry: what the times of these calls are compared with.
 */
#include "plain_parts.h"

/* An INTEGER below 2^32, whose header has two octets always. */
static inline bool take_number(struct part *in, uint32_t *out) {
    const uint8_t *at = in->at;
    size_t left = size_of(*in), size;
    if (left < 3 || at[0] != 0x02) return false;
    size = at[1];
    if (size - 1 > 4 || size > left - 2) return false;
    at += 2;
    if (*at == 0 ? size > 1 && at[1] < 0x80 : *at >= 0x80 || size == 5) return false;
    in->at = at + size;
    if (left >= 10) {
        *out = (uint32_t)(number_at(at) >> (64 - 8 * size));
    } else {
        for (*out = 0; at < in->at; at++) *out = *out << 8 | *at;
    }
    return true;
}

/* ---- Manifests ---- */

static inline bool is_name(struct part name) {
    const uint8_t *end = name.past - 4;
    if (size_of(name) < 5 || *end != '.') return false;
    if (!(plain_classes[end[1]] & plain_classes[end[2]] & plain_classes[end[3]] & LOWER)) return false;
    return all_of((struct part){name.at, end}, OF_FILE);
}

/* A file: a short one, whose headers have two octets each, at once. */
static inline bool take_file(struct part *in, struct part *name, const uint8_t **digest) {
    struct part file, bits;
    const uint8_t *at = in->at;
    size_t left = size_of(*in);
    if (left >= 44 && at[0] == 0x30 && at[1] < 0x80 && at[2] == 0x16 && at[3] + 37u == at[1] && left - 2 >= at[1]) {
        *name = (struct part){at + 4, at + 4 + at[3]};
        *digest = name->past + 3;
        in->at = *digest + 32;
        return name->past[0] == 0x03 && name->past[1] == 33 && name->past[2] == 0 && is_name(*name);
    }
    if (!take(in, 0x30, &file) || !take(&file, 0x16, name) || !is_name(*name) || !only(file, 0x03, &bits)) return false;
    *digest = bits.at + 1;
    return size_of(bits) == 33 && *bits.at == 0;
}

bool plain_file(struct rpki_span *rest, struct rpki_manifest_file_parts *out) {
    struct part all = {rest->data, rest->data + rest->size}, name;
    const uint8_t *digest;
    if (!take_file(&all, &name, &digest)) return false;
    out->name = span_of(name.at, name.past);
    memcpy(out->digest, digest, 32);
    *rest = span_of(all.at, all.past);
    return true;
}

static bool take_generalized(struct part *in, struct rpki_moment *out) {
    const uint8_t *start = in->at;
    struct part time;
    return take(in, 0x18, &time) && plain_time(start, (size_t)(in->at - start), out);
}

bool plain_manifest(const uint8_t *octets, size_t size, struct rpki_manifest_parts *out) {
    static const uint8_t digest[] = {0x60, 0x86, 0x48, 0x01, 0x65, 0x03, 0x04, 0x02, 0x01};
    struct part all = {octets, octets + size}, fields, number, id, list, name;
    const uint8_t *start, *found;
    size_t count;
    if (!only(all, 0x30, &fields)) return false;
    start = fields.at;
    if (!take(&fields, 0x02, &number) || !plain_serial(start, (size_t)(fields.at - start), out->manifest_number)) {
        return false;
    }
    if (!take_generalized(&fields, &out->this_update) || !take_generalized(&fields, &out->next_update)) return false;
    if (!take(&fields, 0x06, &id) || !is(id, digest, sizeof digest) || !only(fields, 0x30, &list)) return false;
    out->files = span_of(list.at, list.past);
    for (count = 0; list.at < list.past; count++) {
        if (!take_file(&list, &name, &found)) return false;
    }
    out->count = count;
    return out->this_update.seconds < out->next_update.seconds;
}

/* ---- Route origins ---- */

/* A prefix, all of whose headers have two octets always. */
struct prefix {
    const uint8_t *octets;
    size_t size; /* of the octets */
    unsigned length, most;
    bool has_most;
};

static inline bool take_prefix(struct part *in, unsigned bits, struct prefix *out) {
    const uint8_t *at = in->at;
    size_t left = size_of(*in), size, more;
    unsigned unused;
    if (left < 5 || at[0] != 0x30 || at[1] > left - 2 || at[2] != 0x03) return false;
    size = at[3];
    if (size - 1 > 16 || size + 2 > at[1]) return false;
    more = at[1] - size - 2;
    unused = at[4];
    out->octets = at + 5;
    out->size = size - 1;
    /* Where there are no octets the last one is the number of unused bits. */
    if (unused > 0 && (unused > 7 || size == 1 || (at[3 + size] & ((1u << unused) - 1)) != 0)) return false;
    out->length = out->most = (unsigned)(size - 1) * 8 - unused;
    if (out->length > bits) return false;
    at += 4 + size;
    in->at = at + more;
    out->has_most = more > 0;
    if (more == 0) return true;
    if (more < 3 || at[0] != 0x02 || at[1] != more - 2) return false;
    /* Up to 127 in one octet, 128 in two. */
    out->most = at[2];
    if (more == 4 && at[2] == 0) out->most = at[3] == 0x80 ? 128 : 0;
    return (more == 3 ? out->most < 128 : more == 4 && out->most == 128 && at[2] == 0) && out->most >= out->length &&
           out->most <= bits;
}

bool plain_address(struct rpki_span *rest, uint8_t family, struct rpki_roa_address_parts *out) {
    struct part all = {rest->data, rest->data + rest->size};
    struct prefix prefix;
    if (!take_prefix(&all, family == RPKI_IPV4 ? 32 : 128, &prefix)) return false;
    memset(out->address, 0, sizeof out->address);
    memcpy(out->address, prefix.octets, prefix.size);
    out->length = (uint8_t)prefix.length;
    out->max_length = (uint8_t)prefix.most;
    out->has_max_length = prefix.has_most;
    *rest = span_of(all.at, all.past);
    return true;
}

static inline bool are_prefixes(struct part list, unsigned bits, struct rpki_span *out, size_t *count) {
    struct prefix prefix;
    size_t found;
    *out = span_of(list.at, list.past);
    if (list.at == list.past) return false;
    for (found = 0; list.at < list.past; found++) {
        if (!take_prefix(&list, bits, &prefix)) return false;
    }
    *count = found;
    return true;
}

bool plain_roa(const uint8_t *octets, size_t size, struct rpki_roa_parts *out) {
    struct part all = {octets, octets + size}, fields, blocks, block, family, list;
    if (!only(all, 0x30, &fields) || !take_number(&fields, &out->as_id) || !only(fields, 0x30, &blocks)) return false;
    out->v4 = out->v6 = span_of(blocks.past, blocks.past);
    out->v4_count = out->v6_count = 0;
    if (blocks.at == blocks.past) return false;
    while (blocks.at < blocks.past) {
        if (!take(&blocks, 0x30, &block) || !take(&block, 0x04, &family) || !only(block, 0x30, &list)) return false;
        if (size_of(family) != 2 || family.at[0] != 0) return false;
        if (family.at[1] == 1 && out->v4_count == 0) {
            if (!are_prefixes(list, 32, &out->v4, &out->v4_count)) return false;
        } else if (family.at[1] == 2 && out->v6_count == 0) {
            if (!are_prefixes(list, 128, &out->v6, &out->v6_count)) return false;
        } else {
            return false;
        }
    }
    return true;
}

/* ---- Providers ---- */

bool plain_provider(struct rpki_span *rest, uint32_t *out) {
    struct part all = {rest->data, rest->data + rest->size};
    if (!take_number(&all, out)) return false;
    *rest = span_of(all.at, all.past);
    return true;
}

bool plain_aspa(const uint8_t *octets, size_t size, struct rpki_aspa_parts *out) {
    static const uint8_t one[] = {0x02, 0x01, 0x01};
    struct part all = {octets, octets + size}, fields, version, list;
    uint32_t number, before, customer;
    size_t count;
    if (!only(all, 0x30, &fields) || !take(&fields, 0xA0, &version) || !is(version, one, 3)) return false;
    if (!take_number(&fields, &customer) || !only(fields, 0x30, &list)) return false;
    out->customer = customer;
    out->providers = span_of(list.at, list.past);
    if (!take_number(&list, &before) || before == customer) return false;
    for (count = 1; list.at < list.past; count++, before = number) {
        if (!take_number(&list, &number) || number == customer || number <= before) return false;
    }
    out->count = count;
    return true;
}
