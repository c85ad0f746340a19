/*
 * A certificate in one pass, by hand and unproved, with all the checks of rpki_certificate_of_profile for the profile
 * of certification authorities, strict: what that call's time is compared with. One word of whether all of them hold.
 */
#include "plain_parts.h"

enum { KNOWN = 13 };

/* The known extensions, in the order of struct rpki_known_extensions. */
enum kind {
    CONSTRAINTS,
    SUBJECT,
    AUTHORITY,
    USAGE,
    PURPOSES,
    POINTS,
    ISSUER,
    ACCESS,
    POLICY,
    IP,
    IP_V2,
    AS,
    AS_V2,
    OTHER
};

struct extensions {
    struct part found[KNOWN];
    bool is_there[KNOWN], critical[KNOWN];
};

/* ---- Extensions ---- */

static inline enum kind kind_of(struct part id) {
    static const uint8_t key[] = {0x2B, 0x06, 0x01, 0x05, 0x05, 0x07, 0x01};
    /* By the last octet of an identifier under id-ce, and under id-pe. */
    static const uint8_t standard[32] = {
        [14] = SUBJECT + 1, [15] = USAGE + 1, [19] = CONSTRAINTS + 1, [31] = POINTS + 1};
    static const uint8_t private[32] = {
        [1] = ISSUER + 1, [7] = IP + 1, [8] = AS + 1, [11] = ACCESS + 1, [28] = IP_V2 + 1, [29] = AS_V2 + 1};
    if (size_of(id) == 3 && id.at[0] == 0x55 && id.at[1] == 0x1D) {
        if (id.at[2] == 32) return POLICY;
        if (id.at[2] == 35) return AUTHORITY;
        if (id.at[2] == 37) return PURPOSES;
        return id.at[2] < 32 && standard[id.at[2]] ? standard[id.at[2]] - 1 : OTHER;
    }
    if (size_of(id) == 8 && memcmp(id.at, key, sizeof key) == 0) {
        return id.at[7] < 32 && private[id.at[7]] ? private[id.at[7]] - 1 : OTHER;
    }
    return OTHER;
}

static bool read_extensions(struct part list, struct extensions *out) {
    struct part others[64];
    size_t count = 0, unknown = 0, place;
    memset(out->is_there, 0, sizeof out->is_there);
    memset(out->critical, 0, sizeof out->critical);
    if (list.at == list.past) return false;
    for (; list.at < list.past; count++) {
        struct part one, id, flag, contents;
        bool critical = false;
        enum kind kind;
        if (count == 64 || !take(&list, 0x30, &one) || !take(&one, 0x06, &id)) return false;
        if (one.at < one.past && *one.at == 0x01) {
            if (!take(&one, 0x01, &flag) || size_of(flag) != 1 || (*flag.at != 0 && *flag.at != 0xFF)) return false;
            critical = *flag.at != 0;
        }
        if (!only(one, 0x04, &contents)) return false;
        kind = kind_of(id);
        if (kind == OTHER) {
            if (critical || !is_identifier(id)) return false;
            for (place = 0; place < unknown; place++) {
                if (is(id, others[place].at, size_of(others[place]))) return false;
            }
            others[unknown++] = id;
        } else {
            if (out->is_there[kind]) return false;
            out->is_there[kind] = true;
            out->critical[kind] = critical;
            out->found[kind] = contents;
        }
    }
    return true;
}

/* ---- What they say ---- */

static bool identifier(const struct extensions *all, enum kind kind, const uint8_t start[], size_t size,
                       uint8_t out[20]) {
    const struct part *found = all->found + kind;
    if (!all->is_there[kind] || all->critical[kind] || size_of(*found) != size + 20) return false;
    if (memcmp(found->at, start, size) != 0) return false;
    memcpy(out, found->at + size, 20);
    return true;
}

/* 1 and 2 as in struct rpki_known_extensions, 0 where it is malformed. */
static uint8_t policy_of(struct part contents) {
    static const uint8_t policy[] = {0x2B, 0x06, 0x01, 0x05, 0x05, 0x07, 0x0E};
    static const uint8_t practice[] = {0x2B, 0x06, 0x01, 0x05, 0x05, 0x07, 0x02, 0x01};
    struct part list, one, id, qualifiers, qualifier, text;
    uint8_t number;
    if (!only(contents, 0x30, &list) || !only(list, 0x30, &one) || !take(&one, 0x06, &id)) return 0;
    if (size_of(id) != 8 || memcmp(id.at, policy, sizeof policy) != 0 || id.at[7] < 2 || id.at[7] > 3) return 0;
    number = id.at[7] == 2 ? 1 : 2;
    if (one.at == one.past) return number;
    if (!only(one, 0x30, &qualifiers) || !only(qualifiers, 0x30, &qualifier) || !take(&qualifier, 0x06, &id)) return 0;
    if (!is(id, practice, sizeof practice) || !only(qualifier, 0x16, &text) || !all_of(text, ASCII)) return 0;
    return number;
}

/* ---- Where something is ---- */

/* Values, with all that is nested in them, or none. */
static bool are_values(struct part in) {
    size_t taken;
    for (; in.at < in.past; in.at += taken) {
        if (plain_walk(in.at, size_of(in), &taken) == 0) return false;
    }
    return true;
}

/* A general name that is no URI (RFC 5280 4.2.1.6), by its identifier octet and its contents. */
static bool is_other_name(uint8_t tag, struct part name) {
    switch (tag) {
        case 0x81:
        case 0x82: return all_of(name, ASCII);
        case 0x87: return size_of(name) == 4 || size_of(name) == 16;
        case 0x88: return is_identifier(name);
        case 0xA0:
        case 0xA3:
        case 0xA5: return are_values(name);
        case 0xA4: return plain_any_name(name.at, size_of(name));
        default: return false;
    }
}

/* The places that access descriptions tell: of each method the first rsync URI, where there is one. */
struct places {
    struct part issuer, repository, manifest;
    struct rpki_rsync_parts of_repository;
    bool by_https; /* whether each description of notifications has an https URI */
};

/* What a description with this text under the tag of URIs adds to these, by the last octet of its method's identifier;
 * whether the text is one of ASCII, which is looked at where it isn't known to be a URI. */
static bool add_place(struct places *places, uint8_t method, struct part text) {
    struct rpki_rsync_parts other, *parts = &other;
    struct part *place;
    switch (method) {
        case 2: place = &places->issuer; break;
        case 5:
            place = &places->repository;
            parts = &places->of_repository;
            break;
        case 10: place = &places->manifest; break;
        case 13:
            if (plain_https(text.at, size_of(text))) return true;
            places->by_https = false;
            return all_of(text, ASCII);
        default: return all_of(text, ASCII);
    }
    if (place->at || !plain_rsync(text.at, size_of(text), parts)) return all_of(text, ASCII);
    *place = text;
    return true;
}

static bool read_access(struct part contents, struct places *places) {
    static const uint8_t methods[] = {0x2B, 0x06, 0x01, 0x05, 0x05, 0x07, 0x30};
    struct part list, description, id, name;
    memset(places, 0, sizeof *places);
    places->by_https = true;
    if (!only(contents, 0x30, &list) || list.at == list.past) return false;
    while (list.at < list.past) {
        uint8_t method = 0, tag;
        if (!take(&list, 0x30, &description) || !take(&description, 0x06, &id)) return false;
        if (size_of(id) == 8 && memcmp(id.at, methods, sizeof methods) == 0) method = id.at[7];
        if ((method == 0 || method >= 0x80) && !is_identifier(id)) return false;
        if (description.at == description.past) return false;
        tag = *description.at;
        if (!only(description, tag, &name)) return false;
        if (tag == 0x86) {
            if (!add_place(places, method, name)) return false;
        } else {
            if (!is_other_name(tag, name)) return false;
            if (method == 13) places->by_https = false;
        }
    }
    return true;
}

/* Whether the manifest is below the repository: the same module of a host whose letters may differ in case, and the
 * path of the one goes on where that of the other ends. */
static bool is_below(const struct places *places) {
    const uint8_t *base = places->repository.at + 8, *text = places->manifest.at + 8;
    const uint8_t *path = base + places->of_repository.authority.length, *past = places->repository.past;
    size_t size;
    if (past[-1] == '/') past--;
    size = (size_t)(past - path);
    if (size_of(places->manifest) < (size_t)(past - places->repository.at) + 2) return false;
    for (; base < path; base++, text++) {
        bool is_letter = (uint8_t)((*base | 0x20) - 'a') < 26;
        if (*base != *text && !(is_letter && (*base ^ *text) == 0x20)) return false;
    }
    return memcmp(path, text, size) == 0 && text[size] == '/';
}

static bool has_point(struct part contents) {
    struct rpki_rsync_parts parts;
    struct part points, point, outer, names, name;
    bool found = false;
    if (!only(contents, 0x30, &points) || !only(points, 0x30, &point) || !only(point, 0xA0, &outer)) return false;
    if (!only(outer, 0xA0, &names) || names.at == names.past) return false;
    while (names.at < names.past) {
        if (!take(&names, 0x86, &name)) return false;
        if (!found && plain_rsync(name.at, size_of(name), &parts)) {
            found = true;
        } else if (!all_of(name, ASCII)) {
            return false;
        }
    }
    return found;
}

/* ---- Resources ---- */

/* An address of 128 bits; one of IPv4 is the first 32 of them, and those after it are as in the block's other bits: 0
 * in the lowest, 1 in the highest. */
struct address {
    uint64_t high, low;
};

/* The lowest address that begins with these bits, and the highest. */
static inline bool addresses_of(struct part bits, size_t most, struct address *lowest, struct address *highest) {
    uint8_t octets[16] = {0};
    size_t size = size_of(bits), length, place;
    uint8_t unused;
    if (size - 1 > most) return false;
    unused = *bits.at;
    if (unused != 0) {
        if (unused > 7 || size == 1 || (bits.past[-1] & ((1u << unused) - 1)) != 0) return false;
    }
    for (place = 1; place < size; place++) octets[place - 1] = bits.at[place];
    length = (size - 1) * 8 - unused;
    *lowest = (struct address){number_at(octets), number_at(octets + 8)};
    if (length < 64) {
        *highest = (struct address){lowest->high | UINT64_MAX >> length, UINT64_MAX};
    } else {
        *highest =
            (struct address){lowest->high, length < 128 ? lowest->low | UINT64_MAX >> (length - 64) : lowest->low};
    }
    return true;
}

static inline bool is_less(struct address one, struct address other) {
    return one.high != other.high ? one.high < other.high : one.low < other.low;
}

/* The address after it; 0 after the last one. */
static inline struct address after(struct address it) {
    it.high += ++it.low == 0;
    return it;
}

/* Whether all addresses between these two, and no others, begin with the same bits. */
static inline bool is_prefix(struct address low, struct address high) {
    struct address differ = {low.high ^ high.high, low.low ^ high.low}, next = after(differ);
    return (differ.high & next.high) == 0 && (differ.low & next.low) == 0 && (low.high & differ.high) == 0 &&
           (low.low & differ.low) == 0;
}

/* Whether the end of a range is cut as far as it may be (RFC 3779 2.2.3.9): its last bit is this one, or there is none.
 */
static inline bool is_cut(struct part bits, unsigned last) {
    return size_of(bits) == 1 || (bits.past[-1] >> *bits.at & 1) == last;
}

static bool is_family(struct part choice, size_t most) {
    struct part list, one, from, to;
    struct address low, high, other, last = {0, 0};
    bool first = true;
    if (only(choice, 0x05, &list)) return list.at == list.past;
    if (!only(choice, 0x30, &list) || list.at == list.past) return false;
    for (; list.at < list.past; first = false, last = high) {
        if (*list.at == 0x03) {
            if (!take(&list, 0x03, &one) || !addresses_of(one, most, &low, &high)) return false;
        } else {
            if (!take(&list, 0x30, &one) || !take(&one, 0x03, &from) || !only(one, 0x03, &to)) return false;
            if (!addresses_of(from, most, &low, &other) || !addresses_of(to, most, &other, &high)) return false;
            if (!is_cut(from, 1) || !is_cut(to, 0) || is_less(high, low) || is_prefix(low, high)) return false;
        }
        /* There is an address between two blocks, which are in order. */
        if (!first && (!is_less(last, low) || !is_less(after(last), low))) return false;
    }
    return true;
}

static bool are_addresses(struct part contents) {
    static const uint8_t four[] = {0, 1}, six[] = {0, 2};
    struct part list, family, name;
    unsigned seen = 0;
    if (!only(contents, 0x30, &list) || list.at == list.past) return false;
    while (list.at < list.past) {
        if (!take(&list, 0x30, &family) || !take(&family, 0x04, &name)) return false;
        if (is(name, four, 2) && seen == 0) {
            seen = 1;
        } else if (is(name, six, 2) && seen < 2) {
            seen = 2;
        } else {
            return false;
        }
        if (!is_family(family, seen == 1 ? 4 : 16)) return false;
    }
    return true;
}

static bool number_of(struct part digits, uint64_t *out) {
    size_t size = size_of(digits);
    if (size == 0 || size > 5 || *digits.at >= 0x80) return false;
    if (size > 1 && *digits.at == 0 && digits.at[1] < 0x80) return false;
    for (*out = 0; digits.at < digits.past; digits.at++) *out = *out << 8 | *digits.at;
    return *out <= UINT32_MAX;
}

static bool are_numbers(struct part contents) {
    struct part outer, choice, list, one, digits;
    uint64_t low, high, last = 0;
    bool first = true;
    if (!only(contents, 0x30, &outer) || !only(outer, 0xA0, &choice)) return false;
    if (only(choice, 0x05, &list)) return list.at == list.past;
    if (!only(choice, 0x30, &list) || list.at == list.past) return false;
    for (; list.at < list.past; first = false) {
        if (*list.at == 0x02) {
            if (!take(&list, 0x02, &digits) || !number_of(digits, &low)) return false;
            high = low;
        } else {
            if (!take(&list, 0x30, &one) || !take(&one, 0x02, &digits) || !number_of(digits, &low)) return false;
            if (!only(one, 0x02, &digits) || !number_of(digits, &high) || low >= high) return false;
        }
        if (!first && low <= last + 1) return false;
        last = high;
    }
    return true;
}

/* ---- The profile ---- */

static bool is_authority(const struct extensions *all, uint8_t policy) {
    static const uint8_t constraints[] = {0x30, 0x03, 0x01, 0x01, 0xFF}, usage[] = {0x03, 0x02, 0x01, 0x06};
    struct places places;
    enum kind kind;
    bool has_resources = false;
    if (!all->is_there[CONSTRAINTS] || !all->critical[CONSTRAINTS] || !is(all->found[CONSTRAINTS], constraints, 5)) {
        return false;
    }
    if (!all->is_there[USAGE] || !all->critical[USAGE] || !is(all->found[USAGE], usage, 4)) return false;
    if (all->is_there[PURPOSES] || !all->is_there[POINTS] || !all->is_there[ISSUER] || !all->is_there[ACCESS])
        return false;
    if (all->critical[POINTS] || all->critical[ISSUER] || all->critical[ACCESS]) return false;
    if (policy == 1 ? all->is_there[IP_V2] || all->is_there[AS_V2] : all->is_there[IP] || all->is_there[AS])
        return false;
    for (kind = IP; kind <= AS_V2; kind++) {
        if (!all->is_there[kind]) continue;
        if (!all->critical[kind]) return false;
        if (!(kind < AS ? are_addresses(all->found[kind]) : are_numbers(all->found[kind]))) return false;
        has_resources = true;
    }
    if (!has_resources || !read_access(all->found[ACCESS], &places)) return false;
    if (!places.repository.at || !places.manifest.at || !places.by_https || !is_below(&places)) return false;
    return read_access(all->found[ISSUER], &places) && places.issuer.at && has_point(all->found[POINTS]);
}

/* ---- The whole ---- */

/* RSA with SHA-256. */
static const uint8_t ALGORITHM[] = {0x06, 0x09, 0x2A, 0x86, 0x48, 0x86, 0xF7, 0x0D, 0x01, 0x01, 0x0B};

/* The fields of what is signed before its key, but for the version; has_parameters is that of the algorithm there. */
static bool take_first(struct part *fields, struct rpki_certificate_parts *parts, bool *has_parameters) {
    static const uint8_t zeros[20];
    struct part period, inside;
    const uint8_t *start = fields->at;
    if (!take(fields, 0x02, &inside)) return false;
    if (!plain_serial(start, (size_t)(fields->at - start), parts->serial_number)) return false;
    if (memcmp(parts->serial_number, zeros, 20) == 0 || !take_algorithm(fields, ALGORITHM, has_parameters))
        return false;
    start = fields->at;
    if (!take(fields, 0x30, &inside) || !plain_sized_name(start, (size_t)(fields->at - start))) return false;
    parts->issuer = span_of(start, fields->at);
    if (!take(fields, 0x30, &period) || period.at == period.past) return false;
    start = period.at;
    if (!take(&period, *start, &inside)) return false;
    if (!plain_time(start, (size_t)(period.at - start), &parts->validity.not_before)) return false;
    if (!plain_time(period.at, size_of(period), &parts->validity.not_after)) return false;
    if (parts->validity.not_before.seconds > parts->validity.not_after.seconds) return false;
    start = fields->at;
    if (!take(fields, 0x30, &inside) || !plain_sized_name(start, (size_t)(fields->at - start))) return false;
    parts->subject = span_of(start, fields->at);
    return true;
}

/* A key by RSA, of 2,048 bits and the exponent 65537. */
static bool take_key(struct part *fields, struct rpki_certificate_parts *parts) {
    static const uint8_t exponent[] = {0x01, 0x00, 0x01};
    const uint8_t *start = fields->at;
    struct part bits, numbers, number;
    struct rpki_key_parts key;
    if (!take(fields, 0x30, &bits) || !plain_key(start, (size_t)(fields->at - start), &key)) return false;
    parts->public_key = span_of(start, fields->at);
    parts->key_format = key.format;
    parts->key_unused = key.unused;
    if (key.format != RPKI_RSA || key.unused != 0) return false;
    bits = (struct part){key.bits.data, key.bits.data + key.bits.size};
    if (!only(bits, 0x30, &numbers) || !take(&numbers, 0x02, &number)) return false;
    if (size_of(number) != 257 || number.at[0] != 0 || number.at[1] < 0x80) return false;
    return only(numbers, 0x02, &number) && is(number, exponent, 3);
}

bool plain_certificate(const uint8_t *octets, size_t size, struct rpki_certificate_parts *parts,
                       struct rpki_known_extensions *known) {
    static const uint8_t version[] = {0xA0, 0x03, 0x02, 0x01, 0x02};
    static const uint8_t subject[] = {0x04, 0x14}, authority[] = {0x30, 0x16, 0x80, 0x14};
    struct part outer, fields, bits, list;
    struct rpki_known_extension *each = &known->basic_constraints;
    struct extensions extensions;
    const uint8_t *start;
    bool has_parameters;
    size_t place;
    if (!only((struct part){octets, octets + size}, 0x30, &outer)) return false;
    start = outer.at;
    if (!take(&outer, 0x30, &fields)) return false;
    parts->data = span_of(start, outer.at);
    start = outer.at;
    if (!take_algorithm(&outer, ALGORITHM, &parts->has_parameters)) return false;
    parts->algorithm = span_of(start, outer.at);
    if (!only(outer, 0x03, &bits) || bits.at == bits.past || *bits.at != 0) return false;
    parts->signature = span_of(bits.at + 1, bits.past);
    if (size_of(fields) < 5 || memcmp(fields.at, version, 5) != 0) return false;
    fields.at += 5;
    if (!take_first(&fields, parts, &has_parameters) || has_parameters != parts->has_parameters) return false;
    if (!take_key(&fields, parts)) return false;
    if (!only(fields, 0xA3, &outer) || !only(outer, 0x30, &list) || !read_extensions(list, &extensions)) return false;
    parts->extensions = span_of(list.at, list.past);
    if (!identifier(&extensions, SUBJECT, subject, 2, known->subject_key)) return false;
    if (!identifier(&extensions, AUTHORITY, authority, 4, known->authority_key)) return false;
    if (!extensions.is_there[POLICY] || !extensions.critical[POLICY]) return false;
    known->policy = policy_of(extensions.found[POLICY]);
    known->is_ca = true;
    known->usage = 1;
    for (place = 0; place < KNOWN; place++) {
        each[place] = (struct rpki_known_extension){{NULL, 0}, extensions.is_there[place], extensions.critical[place]};
        if (extensions.is_there[place]) {
            each[place].octets = span_of(extensions.found[place].at, extensions.found[place].past);
        }
    }
    return known->policy != 0 && is_authority(&extensions, known->policy);
}
