/*
 * Makes the calls on authorities of a path, of files that path.py makes, and compares statuses, blocks and what is
 * written with those of the table. What a call refuses leaves `out` as it was; the calls that take no memory ask for
 * none, and of the others each allocation is refused in turn, and no more is held than rpki.h promises.
 *
 * usage: authorities FOLDER
 */
#include "../judging.h"
#include "../memory.h"
#include "../octets.h"
#include "../stack.h"

#include <stdio.h>
#include <stdlib.h>
#include <string.h>

#include "rpki.h"

enum { MOST_BLOCKS = 128, MOST_OCTETS = 1 << 15 };
/* 2026-06-01, and years before and after. */
#define NOW 1780272000
#define BEFORE 1600000000
#define AFTER 2200000000

/* The calls. */
enum call { ANCHOR, LIST, UNDER, END, ORIGIN, PROVIDERS, MANIFEST };

/* The authorities that are asked, each with a manifest: the anchor with its list and without, the one below it
 * likewise, and with another list that it has issued; the one below with folders of other names, with its folder
 * elsewhere, and as deep as may be; and it with a moment that is none, with other octets as its list, and with a block
 * that is inherited. Without a manifest: a zeroed one; the one below with its list. */
enum by {
    TOP,
    BARE_TOP,
    OWN,
    BARE_OWN,
    RELISTED,
    HOMED,
    AWAY,
    ZEROED,
    DEEPEST,
    TIMELESS,
    GARBLED,
    INHERITED,
    LISTED,
    AUTHORITIES
};

/* A row: what is asked of whom, about which file, and the answer. `number` is a profile, whether reading is strict, how
 * much room there is, or of the anchor the moment. */
struct row {
    enum call call;
    enum by by;
    const char *file;
    long long number;
    rpki_status status;
};

static const struct row rows[] = {
    {ANCHOR, TOP, "ta.cer", NOW, RPKI_OK},
    {ANCHOR, TOP, "ta-numbers.cer", NOW, RPKI_OK},
    {ANCHOR, TOP, "none", NOW, RPKI_PART_CERTIFICATE},
    {ANCHOR, TOP, "ca.cer", NOW, RPKI_RULE_NO_REVOCATION_LIST},
    {ANCHOR, TOP, "ta-name.cer", NOW, RPKI_RULE_ISSUER},
    {ANCHOR, TOP, "ta-key.cer", NOW, RPKI_OTHER_KEY},
    {ANCHOR, OWN, "ta.cer", NOW, RPKI_OTHER_ANCHOR},
    {ANCHOR, TOP, "ta-old.cer", NOW, RPKI_TOO_OLD},
    {ANCHOR, TOP, "ta.cer", BEFORE, RPKI_TOO_NEW},
    {ANCHOR, TOP, "ta.cer", AFTER, RPKI_TOO_OLD},
    {ANCHOR, TOP, "ta.cer", -1, RPKI_CONTENT},
    {LIST, BARE_TOP, "ta.crl", 0, RPKI_OK},
    {LIST, BARE_OWN, "ca.crl", 0, RPKI_OK},
    {LIST, OWN, "ca.crl", 0, RPKI_OK},
    {LIST, OWN, "again.crl", 0, RPKI_OK},
    {LIST, BARE_OWN, "none", 0, RPKI_PART_CERTIFICATE},
    {LIST, ZEROED, "ca.crl", 0, RPKI_NO_ISSUER},
    {LIST, BARE_TOP, "ca.crl", 0, RPKI_OTHER_ISSUER},
    {LIST, BARE_OWN, "ca-old.crl", 0, RPKI_TOO_OLD},
    {LIST, TIMELESS, "ca.crl", 0, RPKI_CONTENT},
    {UNDER, TOP, "ca.cer", MOST_BLOCKS, RPKI_OK},
    {UNDER, TOP, "ca-both.cer", MOST_BLOCKS, RPKI_OK},
    {UNDER, TOP, "ca-trim.cer", MOST_BLOCKS, RPKI_OK},
    {UNDER, TOP, "ca-17.cer", MOST_BLOCKS, RPKI_OK},
    {UNDER, TOP, "ca-65.cer", 65, RPKI_OK},
    {UNDER, TOP, "ca-65.cer", 64, RPKI_TOO_SMALL},
    {UNDER, TOP, "ca-numbers.cer", 8, RPKI_OK},
    {UNDER, TOP, "ca-numbers.cer", 7, RPKI_TOO_SMALL},
    {UNDER, TOP, "none", MOST_BLOCKS, RPKI_PART_CERTIFICATE},
    {UNDER, TOP, "router.cer", MOST_BLOCKS, RPKI_RULE_RSA_KEY},
    {UNDER, TOP, "ca-name.cer", MOST_BLOCKS, RPKI_RULE_SUBJECT},
    {UNDER, ZEROED, "ca.cer", MOST_BLOCKS, RPKI_NO_MANIFEST},
    {UNDER, LISTED, "self.cer", MOST_BLOCKS, RPKI_NO_MANIFEST},
    {UNDER, LISTED, "none", MOST_BLOCKS, RPKI_NO_MANIFEST},
    {UNDER, TIMELESS, "self.cer", MOST_BLOCKS, RPKI_CONTENT},
    {UNDER, OWN, "ca.cer", MOST_BLOCKS, RPKI_OTHER_ISSUER},
    {UNDER, TOP, "ca-other.cer", MOST_BLOCKS, RPKI_OTHER_AUTHORITY},
    {UNDER, TOP, "ca-key.cer", MOST_BLOCKS, RPKI_OTHER_KEY},
    {UNDER, TOP, "ca-old.cer", MOST_BLOCKS, RPKI_TOO_OLD},
    {UNDER, BARE_TOP, "ca.cer", MOST_BLOCKS, RPKI_NO_LIST},
    {UNDER, GARBLED, "self.cer", MOST_BLOCKS, RPKI_TRUNCATED},
    {UNDER, TOP, "ca-gone.cer", MOST_BLOCKS, RPKI_REVOKED},
    {UNDER, DEEPEST, "self.cer", MOST_BLOCKS, RPKI_TOO_DEEP},
    {UNDER, OWN, "self.cer", MOST_BLOCKS, RPKI_ON_PATH},
    {UNDER, OWN, "up.cer", MOST_BLOCKS, RPKI_ON_PATH},
    {UNDER, TOP, "ca-wide.cer", MOST_BLOCKS, RPKI_OTHER_RESOURCES},
    {END, OWN, "router.cer", RPKI_CERTIFICATE_ROUTER, RPKI_OK},
    {END, OWN, "router-trim.cer", RPKI_CERTIFICATE_ROUTER, RPKI_OK},
    {END, OWN, "detached.cer", RPKI_CERTIFICATE_DETACHED_EE, RPKI_OK},
    {END, OWN, "router.cer", RPKI_CERTIFICATE_CA, RPKI_NO_PROFILE},
    {END, OWN, "router.cer", RPKI_CERTIFICATE_TA, RPKI_NO_PROFILE},
    {END, OWN, "router.cer", 5, RPKI_NO_PROFILE},
    {END, LISTED, "router.cer", 5, RPKI_NO_PROFILE},
    {END, LISTED, "router.cer", RPKI_CERTIFICATE_ROUTER, RPKI_NO_MANIFEST},
    {END, ZEROED, "router.cer", RPKI_CERTIFICATE_ROUTER, RPKI_NO_MANIFEST},
    {END, OWN, "none", RPKI_CERTIFICATE_ROUTER, RPKI_PART_CERTIFICATE},
    {END, OWN, "router.cer", RPKI_CERTIFICATE_EE, RPKI_RULE_RSA_KEY},
    {END, OWN, "router-name.cer", RPKI_CERTIFICATE_ROUTER, RPKI_RULE_ROUTER_SUBJECT},
    {END, OWN, "detached-name.cer", RPKI_CERTIFICATE_DETACHED_EE, RPKI_RULE_SUBJECT},
    {END, TOP, "router.cer", RPKI_CERTIFICATE_ROUTER, RPKI_OTHER_ISSUER},
    {END, OWN, "router-old.cer", RPKI_CERTIFICATE_ROUTER, RPKI_TOO_OLD},
    {END, BARE_OWN, "router.cer", RPKI_CERTIFICATE_ROUTER, RPKI_NO_LIST},
    {END, OWN, "router-gone.cer", RPKI_CERTIFICATE_ROUTER, RPKI_REVOKED},
    {END, INHERITED, "router.cer", RPKI_CERTIFICATE_ROUTER, RPKI_NO_ANSWER},
    {END, OWN, "router-wide.cer", RPKI_CERTIFICATE_ROUTER, RPKI_OTHER_RESOURCES},
    {END, DEEPEST, "router.cer", RPKI_CERTIFICATE_ROUTER, RPKI_OK},
    {ORIGIN, OWN, "ee.roa", true, RPKI_OK},
    {ORIGIN, OWN, "trim.roa", false, RPKI_OK},
    {ORIGIN, OWN, "untimed.roa", false, RPKI_OK},
    {ORIGIN, OWN, "untimed.roa", true, RPKI_PART_SIGNED_ATTRIBUTES},
    {ORIGIN, OWN, "order.roa", false, RPKI_OK},
    {ORIGIN, OWN, "order.roa", true, RPKI_PART_ADDRESS_BLOCKS},
    {ORIGIN, OWN, "none", false, RPKI_PART_OBJECT},
    {ORIGIN, OWN, "ee.asa", false, RPKI_OTHER_TYPE},
    {ORIGIN, OWN, "type.roa", false, RPKI_OTHER_TYPE},
    {ORIGIN, OWN, "digest.roa", false, RPKI_OTHER_DIGEST},
    {ORIGIN, OWN, "authority.roa", false, RPKI_RULE_NO_BASIC_CONSTRAINTS},
    {ORIGIN, OWN, "name.roa", false, RPKI_RULE_SUBJECT},
    {ORIGIN, ZEROED, "ee.roa", false, RPKI_NO_MANIFEST},
    {ORIGIN, LISTED, "ee.roa", false, RPKI_NO_MANIFEST},
    {ORIGIN, TOP, "ee.roa", false, RPKI_OTHER_ISSUER},
    {ORIGIN, OWN, "old.roa", false, RPKI_TOO_OLD},
    {ORIGIN, BARE_OWN, "ee.roa", false, RPKI_NO_LIST},
    {ORIGIN, OWN, "gone.roa", false, RPKI_REVOKED},
    {ORIGIN, OWN, "signer.roa", false, RPKI_OTHER_SIGNER},
    {ORIGIN, OWN, "both.roa", false, RPKI_OTHER_KINDS},
    {ORIGIN, OWN, "beyond.roa", false, RPKI_OTHER_RESOURCES},
    {ORIGIN, OWN, "beyond6.roa", false, RPKI_OTHER_RESOURCES},
    {PROVIDERS, OWN, "ee.asa", true, RPKI_OK},
    {PROVIDERS, OWN, "trim.asa", false, RPKI_OK},
    {PROVIDERS, OWN, "untimed.asa", true, RPKI_PART_SIGNED_ATTRIBUTES},
    {PROVIDERS, OWN, "ee.roa", false, RPKI_OTHER_TYPE},
    {PROVIDERS, OWN, "digest.asa", false, RPKI_OTHER_DIGEST},
    {PROVIDERS, ZEROED, "ee.asa", false, RPKI_NO_MANIFEST},
    {PROVIDERS, LISTED, "ee.asa", false, RPKI_NO_MANIFEST},
    {PROVIDERS, OWN, "old.asa", false, RPKI_TOO_OLD},
    {PROVIDERS, BARE_OWN, "ee.asa", false, RPKI_NO_LIST},
    {PROVIDERS, OWN, "gone.asa", false, RPKI_REVOKED},
    {PROVIDERS, OWN, "signer.asa", false, RPKI_OTHER_SIGNER},
    {PROVIDERS, OWN, "both.asa", false, RPKI_OTHER_KINDS},
    {PROVIDERS, OWN, "beyond.asa", false, RPKI_OTHER_RESOURCES},
    {MANIFEST, OWN, "ee.mft", 2, RPKI_OK},
    {MANIFEST, LISTED, "ee.mft", 2, RPKI_OK},
    {MANIFEST, OWN, "ee.mft", 1, RPKI_TOO_SMALL},
    {MANIFEST, OWN, "ee.roa", 2, RPKI_OTHER_TYPE},
    {MANIFEST, OWN, "digest.mft", 2, RPKI_OTHER_DIGEST},
    {MANIFEST, ZEROED, "ee.mft", 2, RPKI_NO_ISSUER},
    {MANIFEST, OWN, "old.mft", 2, RPKI_TOO_OLD},
    {MANIFEST, BARE_OWN, "ee.mft", 2, RPKI_NO_LIST},
    {MANIFEST, OWN, "gone.mft", 2, RPKI_REVOKED},
    {MANIFEST, OWN, "signer.mft", 2, RPKI_OTHER_SIGNER},
    {MANIFEST, OWN, "own.mft", 2, RPKI_NOT_INHERITED},
    {MANIFEST, OWN, "twice.mft", 2, RPKI_SAME_NAMES},
    {MANIFEST, RELISTED, "ee.mft", 2, RPKI_OTHER_LIST},
    {MANIFEST, OWN, "unlisted.mft", 2, RPKI_OTHER_LIST},
    {MANIFEST, OWN, "other.mft", 2, RPKI_OTHER_LIST},
    {MANIFEST, OWN, "second.mft", 3, RPKI_OTHER_LIST},
    {MANIFEST, OWN, "late.mft", 2, RPKI_TOO_NEW},
    {MANIFEST, OWN, "stale.mft", 2, RPKI_TOO_OLD},
    {MANIFEST, OWN, "list-capitals.mft", 2, RPKI_OK},
    {MANIFEST, OWN, "list-several.mft", 2, RPKI_OK},
    {MANIFEST, OWN, "list-renamed.mft", 2, RPKI_OK},
    {MANIFEST, HOMED, "ee.mft", 2, RPKI_OK},
    {MANIFEST, HOMED, "list-elsewhere.mft", 2, RPKI_OTHER_LIST_URI},
    {MANIFEST, AWAY, "list-elsewhere.mft", 2, RPKI_OK},
    {MANIFEST, AWAY, "ee.mft", 2, RPKI_OTHER_LIST_URI},
    {MANIFEST, OWN, "list-none.mft", 2, RPKI_RULE_REVOCATION_LIST},
    {MANIFEST, OWN, "list-named.mft", 2, RPKI_OTHER_LIST_URI},
    {MANIFEST, OWN, "list-listed.mft", 2, RPKI_OTHER_LIST_URI},
    {MANIFEST, OWN, "list-behind.mft", 2, RPKI_OTHER_LIST_URI},
    {MANIFEST, OWN, "list-elsewhere.mft", 2, RPKI_OTHER_LIST_URI},
    {MANIFEST, OWN, "list-below.mft", 2, RPKI_OTHER_LIST_URI},
    {MANIFEST, OWN, "list-above.mft", 2, RPKI_OTHER_LIST_URI},
    {MANIFEST, OWN, "list-folder.mft", 2, RPKI_OTHER_LIST_URI},
    {MANIFEST, OWN, "list-cased.mft", 2, RPKI_OTHER_LIST_URI},
    {MANIFEST, OWN, "list-module.mft", 2, RPKI_OTHER_LIST_URI},
    {MANIFEST, OWN, "list-host.mft", 2, RPKI_OTHER_LIST_URI},
    {MANIFEST, OWN, "list-port.mft", 2, RPKI_OTHER_LIST_URI},
};

static const char *folder;
static struct octets keys[2];
static struct rpki_authority authorities[AUTHORITIES];
static struct rpki_ip_block ips[AUTHORITIES][MOST_BLOCKS];
static struct rpki_as_block numbers[AUTHORITIES][MOST_BLOCKS];

static struct octets file_of(const char *name) {
    static uint8_t room[MOST_OCTETS];
    char path[4096];
    FILE *file;
    size_t size;
    snprintf(path, sizeof path, "%s/%s", folder, name);
    file = fopen(path, "rb");
    if (file == NULL) {
        fprintf(stderr, "no file %s\n", path);
        exit(2);
    }
    size = fread(room, 1, sizeof room, file);
    fclose(file);
    return new_octets(room, size, 0);
}

/* What a row's call is given, and what it writes. */
static struct {
    const struct row *row;
    struct octets octets;
    struct rpki_moment moment;
    rpki_status status;
    struct rpki_authority made;
    struct rpki_resources found;
    struct rpki_roa_parts roa;
    struct rpki_aspa_parts aspa;
    struct rpki_ip_block ips[MOST_BLOCKS];
    struct rpki_as_block numbers[MOST_BLOCKS];
    struct rpki_span names[3];
} asked;

static rpki_status make_call(void) {
    const struct row *row = asked.row;
    const struct rpki_authority *by = &authorities[row->by];
    const uint8_t *at = asked.octets.at;
    size_t size = asked.octets.size, room = row->call == UNDER ? (size_t)row->number : MOST_BLOCKS;
    struct octets key = keys[row->by == OWN];
    switch (row->call) {
        case ANCHOR:
            return rpki_authority_anchor(at, size, key.at, key.size, &asked.moment, asked.ips, room, asked.numbers,
                                         room, &asked.made);
        case LIST: return rpki_authority_list(by, at, size, &asked.made);
        case UNDER: return rpki_authority_under(by, at, size, asked.ips, room, asked.numbers, room, &asked.made);
        case END:
            return rpki_authority_end(by, at, size, (uint8_t)row->number, asked.ips, room, asked.numbers, room,
                                      &asked.found);
        case ORIGIN: return rpki_authority_origin(by, at, size, row->number != 0, &asked.roa);
        case PROVIDERS: return rpki_authority_providers(by, at, size, row->number != 0, &asked.aspa);
        default: return rpki_authority_manifest(by, at, size, false, asked.names, (size_t)row->number, &asked.made);
    }
}

static void ask(void) { asked.status = make_call(); }

static bool is_unwritten(void) {
    return untouched(&asked.made, sizeof asked.made) && untouched(&asked.found, sizeof asked.found) &&
           untouched(&asked.roa, sizeof asked.roa) && untouched(&asked.aspa, sizeof asked.aspa);
}

/* Whether what is written of the authority is what it has to be, of the file and of the authority above it. */
static bool is_made_well(const struct row *row) {
    const struct rpki_authority *made = &asked.made, *by = &authorities[row->by];
    bool is_list = row->call == LIST, is_root = row->call == ANCHOR;
    struct rpki_span cert = is_list ? by->certificate : (struct rpki_span){asked.octets.at, asked.octets.size};
    uint32_t depth = is_root ? 0 : is_list ? by->depth : by->depth + 1;
    uint8_t digest[32] = {0};
    if (is_list) rpki_sha256(asked.octets.at, asked.octets.size, digest);
    return made->certificate.data == cert.data && made->certificate.size == cert.size && made->depth == depth &&
           made->has_list == is_list && !made->has_manifest && made->files.size == 0 &&
           !memcmp(made->list_digest, digest, sizeof digest) &&
           (is_root || !memcmp(&made->moment, &by->moment, sizeof made->moment)) &&
           (is_list || (made->ip_blocks == asked.ips && made->as_blocks == asked.numbers)) &&
           (is_root || !memcmp(made->keys, by->keys, (by->depth + 1) * sizeof *made->keys));
}

/* Whether the authority is that one with the manifest of the file: its files are those that the content has, of which
 * the first and the last have these names; and whether what is written of an attestation is what its content says. */
static bool is_said_well(const struct row *row) {
    struct rpki_authority with = authorities[row->by];
    struct rpki_signed_object_parts cms = {0};
    struct rpki_manifest_parts manifest = {0};
    struct rpki_roa_parts roa = {0};
    struct rpki_aspa_parts aspa = {0};
    if (rpki_signed_object(asked.octets.at, asked.octets.size, false, &cms) != RPKI_OK) return false;
    const uint8_t *at = cms.content.data;
    size_t size = cms.content.size;
    if (row->call == ORIGIN)
        return rpki_roa(at, size, row->number != 0, &roa) == RPKI_OK &&
               !memcmp(&roa.v4, &asked.roa.v4, sizeof roa.v4) && !memcmp(&roa.v6, &asked.roa.v6, sizeof roa.v6) &&
               roa.v4_count == asked.roa.v4_count && roa.v6_count == asked.roa.v6_count && roa.as_id == asked.roa.as_id;
    if (row->call == PROVIDERS)
        return rpki_aspa(at, size, &aspa) == RPKI_OK && aspa.customer == asked.aspa.customer &&
               !memcmp(&aspa.providers, &asked.aspa.providers, sizeof aspa.providers) && aspa.count == asked.aspa.count;
    if (rpki_manifest(at, size, &manifest) != RPKI_OK) return false;
    with.has_manifest = true;
    with.files = manifest.files;
    return with.has_list && with.files.size > 0 && asked.made.files.data == with.files.data &&
           asked.made.files.size == with.files.size && asked.made.has_manifest && asked.made.has_list &&
           asked.made.depth == with.depth && asked.made.certificate.data == with.certificate.data &&
           asked.made.ip_blocks == with.ip_blocks && asked.made.revoked_certs.data == with.revoked_certs.data &&
           !memcmp(asked.made.list_digest, with.list_digest, sizeof with.list_digest) &&
           !memcmp(asked.made.keys, with.keys, sizeof with.keys);
}

static void refuse_each(unsigned line, size_t many) {
    bool freed = true, well = true;
    for (size_t at = 0; at < many; at++) {
        memset(&asked.made, FILL, sizeof asked.made);
        memset(&asked.found, FILL, sizeof asked.found);
        memset(&asked.roa, FILL, sizeof asked.roa);
        memset(&asked.aspa, FILL, sizeof asked.aspa);
        count_allocations(at);
        well = make_call() == RPKI_OUT_OF_MEMORY && is_unwritten() && well;
        allocations(&freed);
        well = well && freed;
    }
    judge(line, "an allocation that is refused", well);
}

/* How many blocks the call has read of the authority, and written. */
static size_t blocks_of(const struct row *row) {
    const struct rpki_authority *by = &authorities[row->by], *made = &asked.made;
    size_t read = row->call == ANCHOR ? 0 : by->ip_count + by->as_count;
    if (row->call == ANCHOR || row->call == UNDER) return read + made->ip_count + made->as_count;
    return row->call == END ? read + asked.found.ip_count + asked.found.as_count : read;
}

static void judge_row(unsigned line, const struct row *row) {
    bool freed, takes_memory = row->call != LIST && row->call != MANIFEST;
    size_t many;
    memset(&asked, FILL, sizeof asked);
    asked.row = row;
    asked.octets = file_of(row->file);
    if (row->call == ANCHOR && rpki_time_of_seconds(row->number, &asked.moment) != RPKI_OK) exit(2);
    if (row->number == -1) asked.moment.month = 13;
    count_allocations(NONE_REFUSED);
    judge_stack(line, ask);
    many = allocations(&freed);
    judge_status(line, row->file, asked.status, row->status);
    judge(line, "what was allocated is freed", freed && (takes_memory || many == 0));
    judge(line, "the memory that is promised", row->status != RPKI_OK || most_octets() <= 384 * blocks_of(row) + 1024);
    if (row->status != RPKI_OK) judge(line, "what is left as it was", is_unwritten());
    if (row->status == RPKI_OK && row->call <= UNDER) judge(line, "what is made", is_made_well(row));
    if (row->status == RPKI_OK && row->call >= ORIGIN) judge(line, "what is said", is_said_well(row));
    refuse_each(line, many);
    free(asked.octets.at);
}

static struct rpki_authority made(enum by number, const char *cert, const char *list, const struct rpki_authority *by) {
    struct rpki_authority bare = {0}, whole = {0};
    struct rpki_moment now;
    struct octets octets = file_of(cert), entries;
    rpki_status status = rpki_time_of_seconds(NOW, &now);
    if (status == RPKI_OK && by == NULL)
        status = rpki_authority_anchor(octets.at, octets.size, keys[0].at, keys[0].size, &now, ips[number], MOST_BLOCKS,
                                       numbers[number], MOST_BLOCKS, &bare);
    if (status == RPKI_OK && by != NULL)
        status = rpki_authority_under(by, octets.at, octets.size, ips[number], MOST_BLOCKS, numbers[number],
                                      MOST_BLOCKS, &bare);
    judge_status(0, cert, status, RPKI_OK);
    bare.has_manifest = list == NULL;
    if (list == NULL) return bare;
    entries = file_of(list);
    judge_status(0, list, rpki_authority_list(&bare, entries.at, entries.size, &whole), RPKI_OK);
    judge(0, "no manifest", !whole.has_manifest);
    whole.has_manifest = true;
    return whole;
}

/* The blocks that ca-trim.cer has: of what it lists, 9.0.0.0/8, 10.1.0.0/16, 2001:db8::/31, AS5 to AS9 and AS64490 to
 * AS64498, that which the anchor has: 10.0.0.0/8, 2001:db8::/32, AS64496 to AS64511 (RFC 8360 4.2.4.4). */
static void judge_trimmed(void) {
    static const struct rpki_ip_block wanted[2] = {
        {{10, 1}, {10, 1, 255, 255}, RPKI_IPV4, false},
        {{0x20, 1, 0x0D, 0xB8},
         {0x20, 1, 0x0D, 0xB8, 255, 255, 255, 255, 255, 255, 255, 255, 255, 255, 255, 255},
         RPKI_IPV6,
         false}};
    static struct rpki_authority trimmed;
    trimmed = made(ZEROED, "ca-trim.cer", NULL, &authorities[TOP]);
    judge(0, "the blocks",
          trimmed.ip_count == 2 && !memcmp(trimmed.ip_blocks, wanted, sizeof wanted) && trimmed.as_count == 1 &&
              trimmed.as_blocks[0].low == 64496 && trimmed.as_blocks[0].high == 64498 &&
              !trimmed.as_blocks[0].is_inherited);
}

/* Of what is valid each octet in turn has another bit, and the end is cut off at it: neither is valid then, since each
 * octet is signed, or is one of what has one form alone; and nothing is written. */
static void judge_hostile(const struct row *row) {
    struct octets file = file_of(row->file), cut;
    bool well = true, freed;
    memset(&asked, FILL, sizeof asked);
    asked.row = row;
    if (rpki_time_of_seconds(NOW, &asked.moment) != RPKI_OK) exit(2);
    for (size_t at = 0; at < file.size; at++) {
        uint8_t bit = (uint8_t)(1 << at % 8);
        file.at[at] ^= bit;
        asked.octets = file;
        count_allocations(NONE_REFUSED);
        well = make_call() != RPKI_OK && well;
        allocations(&freed);
        well = well && freed;
        file.at[at] ^= bit;
        asked.octets = cut = new_octets(file.at, at, 0);
        well = make_call() != RPKI_OK && well;
        free(cut.at);
    }
    asked.octets = file;
    judge(0, row->file, well && is_unwritten() && make_call() == RPKI_OK);
    free(file.at);
}

static void judge_all_hostile(void) {
    static const struct row valid[] = {
        {ANCHOR, TOP, "ta.cer", NOW, RPKI_OK},  {LIST, BARE_OWN, "ca.crl", 0, RPKI_OK},
        {UNDER, TOP, "ca.cer", 8, RPKI_OK},     {END, OWN, "router.cer", RPKI_CERTIFICATE_ROUTER, RPKI_OK},
        {ORIGIN, OWN, "ee.roa", true, RPKI_OK}, {PROVIDERS, OWN, "ee.asa", true, RPKI_OK},
        {MANIFEST, OWN, "ee.mft", 2, RPKI_OK},
    };
    for (size_t at = 0; at < sizeof valid / sizeof *valid; at++) judge_hostile(&valid[at]);
}

/* What certificates say that they are, that of ee.roa among them. */
static void judge_kinds(void) {
    static const struct {
        const char *file;
        rpki_status status;
        uint8_t kind;
    } kinds[] = {
        {"ta.cer", RPKI_OK, RPKI_CERTIFICATE_TA},         {"self.cer", RPKI_OK, RPKI_CERTIFICATE_TA},
        {"ca.cer", RPKI_OK, RPKI_CERTIFICATE_CA},         {"up.cer", RPKI_OK, RPKI_CERTIFICATE_CA},
        {"router.cer", RPKI_OK, RPKI_CERTIFICATE_ROUTER}, {"detached.cer", RPKI_OK, RPKI_CERTIFICATE_DETACHED_EE},
        {"ee.roa", RPKI_OK, RPKI_CERTIFICATE_EE},         {"none", RPKI_PART_CERTIFICATE, FILL},
    };
    for (size_t at = 0; at < sizeof kinds / sizeof *kinds; at++) {
        struct octets octets = file_of(kinds[at].file);
        struct rpki_span cert = {octets.at, octets.size};
        struct rpki_signed_object_parts cms = {0};
        uint8_t kind = FILL;
        if (rpki_signed_object(octets.at, octets.size, false, &cms) == RPKI_OK) cert = cms.certificate;
        count_allocations(0);
        judge_status(0, kinds[at].file, rpki_certificate_kind(cert.data, cert.size, &kind), kinds[at].status);
        judge(0, "the kind", took_none() && kind == kinds[at].kind);
        free(octets.at);
    }
}

int main(int count, char **words) {
    static const uint8_t garbled[] = {0x30, 0x05, 0x02};
    static struct rpki_as_block inherited = {0, 0, true};
    if (count != 2) return 2;
    folder = words[1];
    keys[0] = file_of("ta.key");
    keys[1] = file_of("router.key");
    authorities[BARE_TOP] = made(BARE_TOP, "ta.cer", NULL, NULL);
    authorities[TOP] = made(TOP, "ta.cer", "ta.crl", NULL);
    authorities[BARE_OWN] = made(BARE_OWN, "ca.cer", NULL, &authorities[TOP]);
    authorities[OWN] = made(OWN, "ca.cer", "ca.crl", &authorities[TOP]);
    authorities[RELISTED] = made(RELISTED, "ca.cer", "again.crl", &authorities[TOP]);
    authorities[HOMED] = made(HOMED, "ca-homed.cer", "ca.crl", &authorities[TOP]);
    authorities[AWAY] = made(AWAY, "ca-away.cer", "ca.crl", &authorities[TOP]);
    authorities[DEEPEST] = authorities[TIMELESS] = authorities[GARBLED] = authorities[INHERITED] = authorities[OWN];
    authorities[DEEPEST].depth = RPKI_MOST_STEPS;
    authorities[TIMELESS].moment.month = 13;
    authorities[GARBLED].revoked_certs.data = garbled;
    authorities[GARBLED].revoked_certs.size = sizeof garbled;
    authorities[INHERITED].as_blocks = &inherited;
    authorities[INHERITED].as_count = 1;
    authorities[LISTED] = authorities[OWN];
    authorities[LISTED].has_manifest = false;
    for (unsigned number = 0; number < sizeof rows / sizeof *rows; number++) judge_row(number + 1, &rows[number]);
    judge_trimmed();
    judge_kinds();
    judge_all_hostile();
    return verdict();
}
