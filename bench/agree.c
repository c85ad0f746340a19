/*
 * Holds the calls of the library and plain C to the same answers: on values as they are and with one change each (an
 * octet, a length, a part left out, doubled or cut), whether they are read, and all that is handed out then. Prints the
 * octets that they differ on. The changes are the same at each run.
 *
 * usage: agree KIND FILE COUNT   (KIND is one of those at the end, FILE of values as bench/certificates.py writes them)
 */
#include <stdio.h>
#include <stdlib.h>
#include <string.h>

#include "plain.h"

enum { MOST_OCTETS = 1 << 24, MOST_SIZE = 1 << 16, MOST_VALUES = 4096, MOST_SHOWN = 10 };

static void stop(const char *why) {
    fprintf(stderr, "agree: %s\n", why);
    exit(1);
}

/* ---- Numbers of a fixed seed ---- */

static uint64_t state = 1;

/* One below `limit`, by the generator of Knuth's MMIX. */
static size_t draw(size_t limit) {
    state = state * 6364136223846793005u + 1442695040888963407u;
    return (size_t)(state >> 33) % limit;
}

/* ---- What a reader answers: whether it reads the octets, and a digest of all that it hands out ---- */

struct answer {
    const uint8_t *octets;
    uint64_t digest;
    bool is_read;
};

static void say(struct answer *answer, uint64_t number) {
    answer->digest = (answer->digest ^ number) * 0x100000001B3u;
    answer->digest ^= answer->digest >> 29;
}

/* Of an empty part the place is nothing that is promised. */
static void say_span(struct answer *answer, struct rpki_span span) {
    say(answer, span.size);
    if (span.size > 0) say(answer, (uint64_t)(span.data - answer->octets));
}

static void say_place(struct answer *answer, struct rpki_place place) {
    say(answer, place.start);
    say(answer, place.length);
}

static void say_octets(struct answer *answer, const uint8_t *octets, size_t size) {
    for (; size > 0; size--) say(answer, *octets++);
}

static void say_moment(struct answer *answer, const struct rpki_moment *moment) {
    say(answer, (uint64_t)moment->seconds);
    say(answer, (uint64_t)moment->year);
    say(answer, moment->month);
    say(answer, moment->day);
    say(answer, moment->hour);
    say(answer, moment->minute);
    say(answer, moment->second);
}

/* ---- The kinds of values ---- */

static void say_certificate(struct answer *answer, const struct rpki_certificate_parts *parts,
                            const struct rpki_known_extensions *known) {
    const struct rpki_known_extension *each = &known->basic_constraints;
    const struct rpki_span spans[] = {parts->data,    parts->algorithm,  parts->signature, parts->issuer,
                                      parts->subject, parts->public_key, parts->extensions};
    size_t at;
    for (at = 0; at < sizeof spans / sizeof *spans; at++) say_span(answer, spans[at]);
    say_moment(answer, &parts->validity.not_before);
    say_moment(answer, &parts->validity.not_after);
    say_octets(answer, parts->serial_number, 20);
    say(answer, parts->key_format);
    say(answer, parts->key_unused);
    say(answer, parts->has_parameters);
    for (at = 0; at <= RPKI_EXTENSION_AS_RESOURCES_V2; at++) {
        say_span(answer, each[at].octets);
        say(answer, each[at].is_there);
        say(answer, each[at].critical);
    }
    say_octets(answer, known->subject_key, 20);
    say_octets(answer, known->authority_key, 20);
    say(answer, known->is_ca);
    say(answer, known->usage);
    say(answer, known->policy);
}

static void certificate(struct answer *answer, size_t size, bool plainly) {
    struct rpki_certificate_parts parts = {0};
    struct rpki_known_extensions known = {0};
    answer->is_read = plainly ? plain_certificate(answer->octets, size, &parts, &known)
                              : rpki_certificate_of_profile(answer->octets, size, RPKI_CERTIFICATE_CA, true, &parts,
                                                            &known) == RPKI_OK;
    if (answer->is_read) say_certificate(answer, &parts, &known);
}

static void list(struct answer *answer, size_t size, bool plainly) {
    struct rpki_crl_parts parts = {0};
    answer->is_read =
        plainly ? plain_list(answer->octets, size, &parts) : rpki_crl(answer->octets, size, &parts) == RPKI_OK;
    if (!answer->is_read) return;
    say_span(answer, parts.data);
    say_span(answer, parts.algorithm);
    say_span(answer, parts.signature);
    say_span(answer, parts.issuer);
    say_span(answer, parts.revoked_certs);
    say_moment(answer, &parts.this_update);
    say_moment(answer, &parts.next_update);
    say_octets(answer, parts.crl_number, 20);
    say_octets(answer, parts.authority_key_identifier, 20);
    say(answer, parts.has_parameters);
}

/* The certificate of an object is no part of plain_object: rpki_certificate reads it for both. */
static void object(struct answer *answer, size_t size, bool plainly) {
    struct rpki_signed_object_parts parts = {0};
    struct rpki_certificate_parts inside = {0};
    if (plainly) {
        answer->is_read = plain_object(answer->octets, size, &parts) &&
                          rpki_certificate(parts.certificate.data, parts.certificate.size, &inside) == RPKI_OK;
    } else {
        answer->is_read = rpki_signed_object(answer->octets, size, false, &parts) == RPKI_OK;
    }
    if (!answer->is_read) return;
    say_span(answer, parts.content_type);
    say_span(answer, parts.content);
    say_span(answer, parts.certificate);
    say_span(answer, parts.signed_attributes);
    say_span(answer, parts.signature);
    say_moment(answer, &parts.signing_time);
    say(answer, parts.binary_signing_time);
    say_octets(answer, parts.message_digest, 32);
    say_octets(answer, parts.signer_identifier, 20);
    say(answer, parts.is_type_signed);
    say(answer, parts.has_signing_time);
    say(answer, parts.has_binary_signing_time);
    say(answer, parts.has_parameters);
}

static void manifest(struct answer *answer, size_t size, bool plainly) {
    struct rpki_manifest_parts parts = {0};
    struct rpki_manifest_file_parts file = {0};
    struct rpki_span rest;
    answer->is_read =
        plainly ? plain_manifest(answer->octets, size, &parts) : rpki_manifest(answer->octets, size, &parts) == RPKI_OK;
    if (!answer->is_read) return;
    say_span(answer, parts.files);
    say(answer, parts.count);
    say_moment(answer, &parts.this_update);
    say_moment(answer, &parts.next_update);
    say_octets(answer, parts.manifest_number, 20);
    for (rest = parts.files; rest.size > 0;) {
        if (!(plainly ? plain_file(&rest, &file) : rpki_manifest_file(&rest, &file) == RPKI_OK)) stop("no file");
        say_span(answer, file.name);
        say_octets(answer, file.digest, 32);
    }
}

static void say_prefixes(struct answer *answer, struct rpki_span rest, uint8_t family, bool plainly) {
    struct rpki_roa_address_parts prefix = {0};
    say_span(answer, rest);
    while (rest.size > 0) {
        bool is_read =
            plainly ? plain_address(&rest, family, &prefix) : rpki_roa_address(&rest, family, &prefix) == RPKI_OK;
        if (!is_read) stop("no prefix");
        say_octets(answer, prefix.address, 16);
        say(answer, prefix.length);
        say(answer, prefix.max_length);
        say(answer, prefix.has_max_length);
    }
}

static void origin(struct answer *answer, size_t size, bool plainly) {
    struct rpki_roa_parts parts = {0};
    answer->is_read =
        plainly ? plain_roa(answer->octets, size, &parts) : rpki_roa(answer->octets, size, false, &parts) == RPKI_OK;
    if (!answer->is_read) return;
    say(answer, parts.as_id);
    say(answer, parts.v4_count);
    say(answer, parts.v6_count);
    say_prefixes(answer, parts.v4, RPKI_IPV4, plainly);
    say_prefixes(answer, parts.v6, RPKI_IPV6, plainly);
}

static void providers(struct answer *answer, size_t size, bool plainly) {
    struct rpki_aspa_parts parts = {0};
    struct rpki_span rest;
    uint32_t provider;
    answer->is_read =
        plainly ? plain_aspa(answer->octets, size, &parts) : rpki_aspa(answer->octets, size, &parts) == RPKI_OK;
    if (!answer->is_read) return;
    say_span(answer, parts.providers);
    say(answer, parts.count);
    say(answer, parts.customer);
    for (rest = parts.providers; rest.size > 0;) {
        if (!(plainly ? plain_provider(&rest, &provider) : rpki_aspa_provider(&rest, &provider) == RPKI_OK)) {
            stop("no provider");
        }
        say(answer, provider);
    }
}

static void uri(struct answer *answer, size_t size, bool plainly) {
    struct rpki_rsync_parts parts = {0};
    answer->is_read =
        plainly ? plain_rsync(answer->octets, size, &parts) : rpki_rsync_parse(answer->octets, size, &parts) == RPKI_OK;
    if (!answer->is_read) return;
    say_place(answer, parts.authority);
    say_place(answer, parts.module_name);
    say_place(answer, parts.path);
}

static const struct {
    const char *name;
    void (*read)(struct answer *answer, size_t size, bool plainly);
} kinds[] = {{"certificates", certificate}, {"lists", list},          {"objects", object}, {"manifests", manifest},
             {"origins", origin},           {"providers", providers}, {"uris", uri}};

/* ---- Octets that are changed ---- */

struct text {
    size_t size;
    uint8_t octets[MOST_SIZE + 16];
};

/* A value: where its header begins, its contents begin, and where it ends. */
struct value {
    size_t start, contents, end;
};

static struct value values[MOST_VALUES];
static size_t count;

/* Puts other octets in place of a part. */
static void replace(struct text *text, size_t from, size_t to, const uint8_t *octets, size_t size) {
    if (text->size - (to - from) + size > MOST_SIZE) return;
    memmove(text->octets + from + size, text->octets + to, text->size - to);
    if (size > 0) memmove(text->octets + from, octets, size);
    text->size += size - (to - from);
}

/* Lists the values of a part, and those nested in them, in what an OCTET STRING or a BIT STRING contains too; false,
 * and none of them, where these octets are no values. */
static bool find(const struct text *text, size_t at, size_t past, unsigned levels) {
    size_t before = count;
    while (at < past) {
        struct rpki_header_parts header;
        struct value found = {at, 0, 0};
        uint8_t first = text->octets[at];
        if (count == MOST_VALUES || rpki_header(text->octets + at, past - at, &header) != RPKI_OK) break;
        found.contents = at + header.size;
        if (header.length > past - found.contents) break;
        at = found.end = found.contents + header.length;
        values[count++] = found;
        if (levels == 0 || header.length < 2) continue;
        if (header.constructed && !find(text, found.contents, found.end, levels - 1)) break;
        if (first == 0x04) find(text, found.contents, found.end, levels - 1);
        if (first == 0x03) find(text, found.contents + 1, found.end, levels - 1);
    }
    if (at != past) count = before;
    return at == past;
}

/* Writes the lengths of the values around a part that has grown by so many octets, the innermost first. */
static void mend(struct text *text, size_t number, struct value changed, size_t grown) {
    while (number-- > 0) {
        const struct value *around = values + number;
        uint8_t length[5];
        size_t contents, rest, size = 0, old = around->contents - around->start - 1;
        if (around->contents > changed.start || around->end < changed.end) continue;
        contents = around->end - around->contents + grown;
        for (rest = contents; contents > 127 && rest > 0; rest >>= 8) size++;
        length[0] = (uint8_t)(size > 0 ? 0x80 + size : contents);
        for (rest = size; rest > 0; rest--) length[rest] = (uint8_t)(contents >> 8 * (size - rest));
        replace(text, around->start + 1, around->contents, length, 1 + size);
        grown += 1 + size - old;
    }
}

/* An octet, or one of those that are read apart. */
static uint8_t octet(uint8_t before) {
    static const uint8_t apart[] = {0x00, 0x01, 0x7F, 0x80, 0x81, 0x82, 0xFF, 0x05, 0x30, 0x31,
                                    0x0C, 0x13, 0x16, 0xA0, 0xA4, 0x86, '/',  '.',  ':',  ' '};
    switch (draw(4)) {
        case 0: return (uint8_t)draw(256);
        case 1: return apart[draw(sizeof apart)];
        default: return before ^ (uint8_t)(1u << draw(8));
    }
}

static void change_octet(struct text *text, size_t at) { text->octets[at] = octet(text->octets[at]); }

/* Changes one of a text that has no values, puts another before it, or leaves it out. */
static void change_character(struct text *text, size_t at) {
    uint8_t added = octet(text->octets[at]);
    size_t way = draw(4);
    replace(text, at, at + (way != 1), &added, way != 2);
}

/* Changes a value, and the lengths around it: leaves it out, doubles it, or changes how many octets it has. */
static void change_value(struct text *text, size_t number) {
    const struct value value = values[number];
    size_t size = text->size;
    uint8_t added = octet(0);
    struct value changed = value;
    switch (draw(4)) {
        case 0: replace(text, value.start, value.end, NULL, 0); break;
        case 1: replace(text, value.start, value.start, text->octets + value.start, value.end - value.start); break;
        case 2:
            changed.start = changed.end = value.contents + draw(value.end - value.contents + 1);
            replace(text, changed.start, changed.start, &added, 1);
            number++;
            break;
        default:
            if (value.contents == value.end) return;
            changed.start = value.contents + draw(value.end - value.contents);
            changed.end = changed.start + 1;
            replace(text, changed.start, changed.end, NULL, 0);
            number++;
    }
    mend(text, number, changed, text->size - size);
}

static void change(struct text *text) {
    size_t number;
    if (count == 0) {
        change_character(text, draw(text->size));
        return;
    }
    /* The contents of short values at least as often as those of keys and signatures. */
    number = draw(count);
    switch (draw(5)) {
        case 0: change_octet(text, draw(text->size)); break;
        case 1: change_octet(text, values[number].start); break;
        case 2: change_octet(text, values[number].start + 1); break;
        case 3: change_octet(text, values[number].start + draw(values[number].end - values[number].start)); break;
        default: change_value(text, number);
    }
}

/* ---- The run ---- */

/* The answer on a copy that ends where its block does, so that a tool sees what is read behind it. */
static struct answer answered(size_t kind, const struct text *text, bool plainly) {
    struct answer answer = {NULL, 0, false};
    uint8_t *octets = malloc(text->size ? text->size : 1);
    if (!octets) stop("no memory");
    memcpy(octets, text->octets, text->size);
    answer.octets = octets;
    kinds[kind].read(&answer, text->size, plainly);
    free(octets);
    return answer;
}

/* Whether both answer the same; else prints the octets. */
static bool agree(size_t kind, const struct text *text, size_t *read) {
    const struct answer one = answered(kind, text, false), other = answered(kind, text, true);
    size_t at;
    *read += one.is_read;
    if (one.is_read == other.is_read && one.digest == other.digest) return true;
    fprintf(stderr, "%s: the library %s, plain C %s%s: ", kinds[kind].name, one.is_read ? "reads" : "rejects",
            other.is_read ? "reads" : "rejects", one.is_read && other.is_read ? " and says another thing" : "");
    for (at = 0; at < text->size; at++) fprintf(stderr, "%02X", text->octets[at]);
    fputc('\n', stderr);
    return false;
}

static size_t kind_of(const char *name) {
    size_t kind;
    for (kind = 0; kind < sizeof kinds / sizeof *kinds; kind++) {
        if (strcmp(kinds[kind].name, name) == 0) return kind;
    }
    stop("no such kind");
    return 0;
}

int main(int words, char **word) {
    static uint8_t samples[MOST_OCTETS];
    static struct text text;
    size_t kind, most, size, at = 0, made, read = 0, differ = 0;
    FILE *file = words == 4 ? fopen(word[2], "rb") : NULL;
    if (!file) stop("usage: agree KIND FILE COUNT");
    kind = kind_of(word[1]);
    most = strtoul(word[3], NULL, 10);
    size = fread(samples, 1, sizeof samples, file);
    fclose(file);
    if (size < 4) stop("no values");
    /* In turn, each first as it is. */
    for (made = 0; made < most && differ < MOST_SHOWN; made++) {
        static size_t round = 0;
        if (at == size) at = 0, round++;
        text.size = samples[at] | (size_t)samples[at + 1] << 8 | (size_t)samples[at + 2] << 16;
        if (text.size > MOST_SIZE) stop("too large");
        memcpy(text.octets, samples + at + 4, text.size);
        at += 4 + text.size;
        count = 0;
        if (round > 0 && text.size > 0) {
            find(&text, 0, text.size, 24);
            change(&text);
        }
        differ += !agree(kind, &text, &read);
    }
    printf("%s: %zu passed, %zu failed; %zu are read\n", word[1], made - differ, differ, read);
    return differ > 0 || read == 0 || read == made;
}
