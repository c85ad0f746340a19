/*
 * Reads manifests, route origin attestations, attestations of providers, checklists and trust anchor keys with
 * rpki_manifest, rpki_roa, rpki_aspa, rpki_checklist and rpki_tak, and their entries with rpki_manifest_file,
 * rpki_roa_address, rpki_aspa_provider and rpki_checklist_file, asks rpki_manifest_names whether names differ, and
 * compares statuses and what is found with those of rows that rows.py writes, and what rpki_manifest_error and its like
 * write. What a call refuses leaves `out` as it was. No call allocates, or takes more of the stack than rpki.h says.
 *
 * usage: contents ROWS
 */
#include "../judging.h"
#include "../memory.h"
#include "../octets.h"
#include "../spans.h"
#include "../stack.h"

#include <stdio.h>
#include <stdlib.h>
#include <string.h>

#include "rpki.h"

enum { MOST_TOLD = 1 << 18 };

/* The words of what was found. */
struct told {
    char text[MOST_TOLD];
    size_t size;
};

static bool clean;

static void begin(void *out, size_t size) {
    memset(out, FILL, size);
    count_allocations(0);
}

/* What follows each call: whether it kept `out`, and allocated nothing. */
static rpki_status end(rpki_status status, const void *out, size_t size) {
    clean = took_none() && clean;
    clean = clean && (status == RPKI_OK || untouched(out, size));
    return status;
}

static void tell(struct told *told, unsigned long long number) {
    told->size += (size_t)sprintf(told->text + told->size, " %llu", number);
}

static void tell_signed(struct told *told, long long number) {
    told->size += (size_t)sprintf(told->text + told->size, " %lld", number);
}

static void tell_digits(struct told *told, const uint8_t *octets, size_t size) {
    told->text[told->size++] = ' ';
    told->size = (size_t)(tell_octets(told->text + told->size, octets, size) - told->text);
}

static void tell_part(struct told *told, const uint8_t *octets, size_t size, struct rpki_span part) {
    told->size = (size_t)(tell_span(told->text + told->size, octets, size, part) - told->text);
}

/* ---- Entries: the one at the front, and how many octets it has ---- */

typedef rpki_status take(struct rpki_span *rest, struct told *told);

/* Whether the span is what follows the front of the one before, or all of it where nothing was taken; how many octets
 * that front has. */
static size_t taken(struct rpki_span before, struct rpki_span after, rpki_status status) {
    size_t size = before.size - after.size;
    clean = clean && after.size <= before.size && (status == RPKI_OK ? size > 0 : size == 0);
    clean = clean && (after.size == 0 || after.data == before.data + size);
    return size;
}

static rpki_status take_file(struct rpki_span *rest, struct told *told) {
    struct rpki_manifest_file_parts out;
    struct rpki_span before = *rest;
    rpki_status status;
    size_t size;
    begin(&out, sizeof out);
    status = end(rpki_manifest_file(rest, &out), &out, sizeof out);
    size = taken(before, *rest, status);
    if (status != RPKI_OK) return status;
    tell_part(told, before.data, size, out.name);
    tell(told, size);
    tell_digits(told, out.digest, sizeof out.digest);
    return status;
}

static rpki_status take_address(struct rpki_span *rest, uint8_t family, struct told *told) {
    struct rpki_roa_address_parts out;
    struct rpki_span before = *rest;
    rpki_status status;
    size_t size;
    begin(&out, sizeof out);
    status = end(rpki_roa_address(rest, family, &out), &out, sizeof out);
    size = taken(before, *rest, status);
    if (status != RPKI_OK) return status;
    tell_digits(told, out.address, sizeof out.address);
    tell(told, out.length);
    tell(told, out.max_length);
    tell(told, out.has_max_length);
    tell(told, size);
    return status;
}

static rpki_status take_address_4(struct rpki_span *rest, struct told *told) {
    return take_address(rest, RPKI_IPV4, told);
}

static rpki_status take_address_6(struct rpki_span *rest, struct told *told) {
    return take_address(rest, RPKI_IPV6, told);
}

static rpki_status take_provider(struct rpki_span *rest, struct told *told) {
    struct rpki_span before = *rest;
    uint32_t out;
    rpki_status status;
    size_t size;
    begin(&out, sizeof out);
    status = end(rpki_aspa_provider(rest, &out), &out, sizeof out);
    size = taken(before, *rest, status);
    if (status != RPKI_OK) return status;
    tell(told, out);
    tell(told, size);
    return status;
}

static rpki_status take_listed(struct rpki_span *rest, struct told *told) {
    struct rpki_checklist_file_parts out;
    struct rpki_span before = *rest;
    rpki_status status;
    size_t size;
    begin(&out, sizeof out);
    status = end(rpki_checklist_file(rest, &out), &out, sizeof out);
    size = taken(before, *rest, status);
    if (status != RPKI_OK) return status;
    tell_part(told, before.data, size, out.name);
    tell(told, out.has_name);
    tell(told, size);
    tell_digits(told, out.digest, sizeof out.digest);
    return status;
}

/* The entries that are all of the span: as many as the content says. */
static bool entries(struct rpki_span rest, size_t count, take *call, struct told *told) {
    for (; count; count--) {
        if (call(&rest, told) != RPKI_OK) return false;
    }
    return rest.size == 0;
}

/* ---- Contents ---- */

static bool manifest(const struct octets *input, rpki_status *status, struct told *told) {
    struct rpki_manifest_parts out;
    begin(&out, sizeof out);
    *status = end(rpki_manifest(input->at, input->size, &out), &out, sizeof out);
    if (*status != RPKI_OK) return true;
    tell_part(told, input->at, input->size, out.files);
    tell(told, out.count);
    tell_signed(told, out.this_update.seconds);
    tell_signed(told, out.next_update.seconds);
    tell_digits(told, out.manifest_number, sizeof out.manifest_number);
    return entries(out.files, out.count, take_file, told);
}

static bool roa(const struct octets *input, bool strict, rpki_status *status, struct told *told) {
    struct rpki_roa_parts out;
    begin(&out, sizeof out);
    *status = end(rpki_roa(input->at, input->size, strict, &out), &out, sizeof out);
    if (*status != RPKI_OK) return true;
    tell(told, out.as_id);
    tell_part(told, input->at, input->size, out.v4);
    tell(told, out.v4_count);
    tell_part(told, input->at, input->size, out.v6);
    tell(told, out.v6_count);
    return entries(out.v4, out.v4_count, take_address_4, told) && entries(out.v6, out.v6_count, take_address_6, told);
}

static bool aspa(const struct octets *input, rpki_status *status, struct told *told) {
    struct rpki_aspa_parts out;
    begin(&out, sizeof out);
    *status = end(rpki_aspa(input->at, input->size, &out), &out, sizeof out);
    if (*status != RPKI_OK) return true;
    tell(told, out.customer);
    tell_part(told, input->at, input->size, out.providers);
    tell(told, out.count);
    return entries(out.providers, out.count, take_provider, told);
}

static bool checklist(const struct octets *input, rpki_status *status, struct told *told) {
    struct rpki_checklist_parts out;
    begin(&out, sizeof out);
    *status = end(rpki_checklist(input->at, input->size, &out), &out, sizeof out);
    if (*status != RPKI_OK) return true;
    tell_part(told, input->at, input->size, out.as_numbers);
    tell(told, out.has_as_numbers);
    tell_part(told, input->at, input->size, out.addresses);
    tell(told, out.has_addresses);
    tell_part(told, input->at, input->size, out.files);
    tell(told, out.count);
    return entries(out.files, out.count, take_listed, told);
}

/* Whether so many values of this tag are all of the span. */
static bool values(struct rpki_span rest, size_t count, uint8_t identifier) {
    struct rpki_span contents;
    for (; count; count--) {
        if (rpki_take(&rest, identifier, &contents) != RPKI_OK) return false;
    }
    return rest.size == 0;
}

static bool tell_key(struct told *told, const struct octets *input, const struct rpki_anchor_key_parts *key) {
    tell_part(told, input->at, input->size, key->comments);
    tell(told, key->comment_count);
    tell_part(told, input->at, input->size, key->uris);
    tell(told, key->uri_count);
    tell_part(told, input->at, input->size, key->key);
    return values(key->comments, key->comment_count, 0x0C) && values(key->uris, key->uri_count, 0x16);
}

/* A key that may be left out: of one that is, all is empty. */
static bool tell_key_if(struct told *told, const struct octets *input, const struct rpki_anchor_key_parts *key,
                        bool is_there) {
    tell(told, is_there);
    if (is_there) return tell_key(told, input, key);
    return !key->comments.size && !key->comment_count && !key->uris.size && !key->uri_count && !key->key.size;
}

static bool tak(const struct octets *input, rpki_status *status, struct told *told) {
    struct rpki_tak_parts out;
    bool well;
    begin(&out, sizeof out);
    *status = end(rpki_tak(input->at, input->size, &out), &out, sizeof out);
    if (*status != RPKI_OK) return true;
    well = tell_key(told, input, &out.current);
    well = tell_key_if(told, input, &out.predecessor, out.has_predecessor) && well;
    return tell_key_if(told, input, &out.successor, out.has_successor) && well;
}

/* ---- Names ---- */

/* The call with room for so many spans, in memory of exactly that size; whatever `out` is before. */
static rpki_status compare_names(const struct octets *input, size_t capacity, bool *differ) {
    struct rpki_span *room = capacity ? calloc(capacity, sizeof *room) : NULL;
    rpki_status status, again;
    bool one = false, other = true;
    if (capacity && !room) exit(2);
    count_allocations(0);
    status = rpki_manifest_names(input->at, input->size, room, capacity, &one);
    again = rpki_manifest_names(input->at, input->size, room, capacity, &other);
    clean = took_none() && clean;
    clean = clean && status == again && (status == RPKI_OK ? one == other : !one && other);
    free(room);
    *differ = one;
    return status;
}

/* The count is the least capacity that is enough; a greater one is enough too. */
static bool names(const struct octets *input, rpki_status *status, struct told *told) {
    size_t count = 0;
    bool differ, greater;
    while ((*status = compare_names(input, count, &differ)) == RPKI_TOO_SMALL) count++;
    if (*status != RPKI_OK) return compare_names(input, input->size, &greater) == *status;
    tell(told, count);
    tell(told, differ);
    return compare_names(input, count + 7, &greater) == RPKI_OK && greater == differ;
}

/* Other numbers name no family, whatever the octets are. */
static void other_families(unsigned line, const struct octets *input) {
    struct rpki_roa_address_parts out;
    struct rpki_span rest;
    unsigned family;
    bool well = true;
    for (family = 0; family < 256; family++) {
        if (family == RPKI_IPV4 || family == RPKI_IPV6) continue;
        rest.data = input->at;
        rest.size = input->size;
        begin(&out, sizeof out);
        well = end(rpki_roa_address(&rest, (uint8_t)family, &out), &out, sizeof out) == RPKI_CONTENT && well;
        well = well && rest.data == input->at && rest.size == input->size;
    }
    judge(line, "other families", well);
}

static bool call(const char *word, const struct octets *input, rpki_status *status, struct told *told) {
    struct rpki_span rest = {input->at, input->size};
    if (!strcmp(word, "manifest")) return manifest(input, status, told);
    if (!strcmp(word, "roa0")) return roa(input, false, status, told);
    if (!strcmp(word, "roa1")) return roa(input, true, status, told);
    if (!strcmp(word, "aspa")) return aspa(input, status, told);
    if (!strcmp(word, "checklist")) return checklist(input, status, told);
    if (!strcmp(word, "tak")) return tak(input, status, told);
    if (!strcmp(word, "names")) return names(input, status, told);
    if (!strcmp(word, "file")) *status = take_file(&rest, told);
    if (!strcmp(word, "address4")) *status = take_address_4(&rest, told);
    if (!strcmp(word, "address6")) *status = take_address_6(&rest, told);
    if (!strcmp(word, "provider")) *status = take_provider(&rest, told);
    if (!strcmp(word, "listed")) *status = take_listed(&rest, told);
    return true;
}

/* Asks what is wrong with the octets. Status 0 writes nothing. */
static bool is_wrong(const char *word, const struct octets *input, unsigned wanted, unsigned error) {
    rpki_status status, written;
    memset(&written, FILL, sizeof written);
    count_allocations(0);
    if (!strcmp(word, "manifest")) {
        status = rpki_manifest_error(input->at, input->size, &written);
    } else if (!strcmp(word, "aspa")) {
        status = rpki_aspa_error(input->at, input->size, &written);
    } else if (!strcmp(word, "checklist")) {
        status = rpki_checklist_error(input->at, input->size, &written);
    } else if (!strcmp(word, "tak")) {
        status = rpki_tak_error(input->at, input->size, &written);
    } else {
        status = rpki_roa_error(input->at, input->size, !strcmp(word, "roa1"), &written);
    }
    if (!took_none() || status != wanted) return false;
    if (status == RPKI_OK) return untouched(&written, sizeof written);
    if (written != error) printf("error %u, not %u\n", written, error);
    return written == error;
}

/* What a row asks, and what is found; and what is wrong, whether it is what is wanted. */
static struct {
    const char *word;
    struct octets input;
    rpki_status status;
    struct told told;
    unsigned wanted, error;
    bool well;
} asked;

static void make_calls(void) { asked.well = call(asked.word, &asked.input, &asked.status, &asked.told); }
static void ask_what_is_wrong(void) { asked.well = is_wrong(asked.word, &asked.input, asked.wanted, asked.error); }

/* A row is a word, octets, and the words of what is found, from the status on; or the status and the error. */
static void row(unsigned line, char *text) {
    char *digits = strchr(text, ' ') + 1, *words = strchr(digits, ' ');
    digits[-1] = 0;
    clean = true;
    asked.word = text;
    asked.input = octets_spelt(digits);
    asked.status = 255;
    asked.told.size = 0;
    asked.told.text[0] = 0;
    judge_stack(line, make_calls);
    judge(line, "the entries", asked.well);
    judge(line, "allocates, or writes what it refuses", clean);
    asked.wanted = (unsigned)strtoul(words, &words, 10);
    judge(line, "the status", asked.status == asked.wanted);
    if (strstr("manifest roa0 roa1 aspa checklist tak", text)) {
        asked.error = (unsigned)strtoul(words, NULL, 10);
        judge_stack(line, ask_what_is_wrong);
        judge(line, "the error", asked.well);
    }
    judge(line, "what is found", asked.status != RPKI_OK || is_told(asked.told.text, words));
    if (!strcmp(text, "address4")) other_families(line, &asked.input);
    free(asked.input.at);
}

int main(int count, char **words) { return judge_rows(count, words, row); }
