/*
 * Hands each call that takes a struct one that is zeroed, as one that no call has filled, and compares the status with
 * what rpki.h says of it. What is refused leaves the rest as it was. The calls on authorities have rows of their own.
 *
 * usage: zeroed
 */
#include "../judging.h"
#include "../octets.h"

#include <string.h>

#include "rpki.h"

/* A zeroed one of each. */
static const struct rpki_moment moment;
static const struct rpki_period period;
static const struct rpki_crl_parts crl;
static const struct rpki_manifest_parts manifest;
static const struct rpki_roa_parts roa;
static const struct rpki_aspa_parts aspa;
static const struct rpki_signed_object_parts object;
static const struct rpki_certificate_parts cert;
static const struct rpki_rsync_parts rsync;
static const struct rpki_https_parts https;
static const struct rpki_ip_block block;

static const char *const uri = "rsync://host/module/path", *const web = "https://host/path";
static const uint8_t serial[20], digest[32];

/* What calls write to: as many octets as each of them needs. */
static union {
    struct rpki_span span;
    struct rpki_header_parts header;
    struct rpki_revoked_certificate revoked;
    struct rpki_manifest_file_parts file;
    struct rpki_checklist_file_parts listed;
    struct rpki_roa_address_parts address;
    struct rpki_access_parts access;
    struct rpki_general_name_parts name;
    struct rpki_moment moment;
    struct rpki_period period;
    struct rpki_place place;
    struct rpki_certificate_parts cert;
    uint8_t octets[512];
} out, more;
static struct rpki_span rest;
static size_t count;
static bool is;
static uint8_t number;

static void row(const char *what, rpki_status status, rpki_status wanted) {
    judge_status(0, what, status, wanted);
    if (wanted != RPKI_OK) {
        judge(0, "what is left as it was", untouched(&out, sizeof out) && untouched(&more, sizeof more));
        judge(0, "the span", rest.data == NULL && rest.size == 0);
    }
    memset(&out, FILL, sizeof out);
    memset(&more, FILL, sizeof more);
}

/* In front of no octets no value is; but one that may be missing is missing. */
static void judge_spans(void) {
    row("rpki_take", rpki_take(&rest, RPKI_SEQUENCE, &out.span), RPKI_TRUNCATED);
    is = true;
    row("rpki_take_optional", rpki_take_optional(&rest, RPKI_SEQUENCE, &out.span, &is), RPKI_OK);
    judge(0, "nothing is there", !is);
    row("rpki_value", rpki_value(&rest, &out.header, &more.span, &more.span), RPKI_TRUNCATED);
    row("rpki_boolean", rpki_boolean(&rest, &is), RPKI_TRUNCATED);
    row("rpki_unsigned", rpki_unsigned(&rest, &out.span), RPKI_TRUNCATED);
    row("rpki_bit_string", rpki_bit_string(&rest, &out.span, &number), RPKI_TRUNCATED);
    row("rpki_object_identifier", rpki_object_identifier(&rest, &out.span), RPKI_TRUNCATED);
    row("rpki_access_description", rpki_access_description(&rest, &out.access), RPKI_TRUNCATED);
    row("rpki_general_name", rpki_general_name(&rest, &out.name), RPKI_TRUNCATED);
    row("rpki_crl_entry", rpki_crl_entry(&rest, &out.revoked), RPKI_TRUNCATED);
    row("rpki_manifest_file", rpki_manifest_file(&rest, &out.file), RPKI_TRUNCATED);
    row("rpki_roa_address", rpki_roa_address(&rest, RPKI_IPV4, &out.address), RPKI_TRUNCATED);
    row("rpki_aspa_provider", rpki_aspa_provider(&rest, (uint32_t *)(void *)&out), RPKI_TRUNCATED);
    row("rpki_checklist_file", rpki_checklist_file(&rest, &out.listed), RPKI_TRUNCATED);
}

/* Parts of what no call has read are no octets. */
static void judge_parts(void) {
    row("revoked_certs", rpki_crl_contains(crl.revoked_certs.data, crl.revoked_certs.size, serial, &is), RPKI_OK);
    judge(0, "no entries", !is);
    row("a table", rpki_serials(crl.revoked_certs.data, crl.revoked_certs.size, NULL, 0, &count), RPKI_OK);
    judge(0, "no table", count == 0);
    row("the list itself", rpki_crl_revokes(NULL, 0, serial), RPKI_PART_CERTIFICATE);
    row("a content", rpki_manifest(object.content.data, object.content.size, (void *)&out), RPKI_PART_MANIFEST);
    row("a certificate", rpki_certificate(object.certificate.data, object.certificate.size, &out.cert),
        RPKI_PART_CERTIFICATE);
    row("a file", rpki_manifest_file_is(digest, manifest.files.data, manifest.files.size), RPKI_OTHER_DIGEST);
    row("a key", rpki_public_key(cert.public_key.data, cert.public_key.size, (void *)&out), RPKI_TRUNCATED);
    rest = roa.v4;
    row("a prefix", rpki_roa_address(&rest, RPKI_IPV4, &out.address), RPKI_TRUNCATED);
    rest = aspa.providers;
    row("a provider", rpki_aspa_provider(&rest, (uint32_t *)(void *)&out), RPKI_TRUNCATED);
}

/* A month that is 0 is none, so that neither a moment nor a period is one. */
static void judge_times(void) {
    row("rpki_time_write", rpki_time_write(&moment, out.octets, sizeof out, &count), RPKI_CONTENT);
    row("rpki_time_write_utc", rpki_time_write_utc(&moment, out.octets, sizeof out, &count), RPKI_CONTENT);
    row("rpki_time_write_generalized", rpki_time_write_generalized(&moment, out.octets, sizeof out, &count),
        RPKI_CONTENT);
    row("rpki_time_years_on", rpki_time_years_on(&moment, 1, &out.moment), RPKI_CONTENT);
    row("rpki_time_seconds_on", rpki_time_seconds_on(&moment, 1, &out.moment), RPKI_CONTENT);
    row("rpki_validity_write", rpki_validity_write(&period, out.octets, sizeof out, &count), RPKI_CONTENT);
    row("rpki_validity_at", rpki_validity_at(&period, &moment), RPKI_CONTENT);
    row("rpki_validity_trim", rpki_validity_trim(&period, &period, &out.period), RPKI_CONTENT);
}

/* Places that are all empty are those of no text. */
static void judge_places(void) {
    const uint8_t *at = (const uint8_t *)uri, *other = (const uint8_t *)web;
    size_t size = strlen(uri), other_size = strlen(web);
    row("rpki_rsync_parts_canonical", rpki_rsync_parts_canonical(at, size, &rsync, out.octets, sizeof out, &count),
        RPKI_OTHER_PARTS);
    row("rpki_rsync_parts_equal", rpki_rsync_parts_equal(at, size, &rsync, at, size, &rsync, &is), RPKI_OTHER_PARTS);
    row("rpki_https_parts_canonical",
        rpki_https_parts_canonical(other, other_size, &https, out.octets, sizeof out, &count), RPKI_OTHER_PARTS);
    row("rpki_https_parts_equal", rpki_https_parts_equal(other, other_size, &https, other, other_size, &https, &is),
        RPKI_OTHER_PARTS);
    row("rpki_ip_block_text", rpki_ip_block_text(&block, out.octets, sizeof out, &count), RPKI_CONTENT);
}

int main(void) {
    memset(&out, FILL, sizeof out);
    memset(&more, FILL, sizeof more);
    judge_spans();
    judge_parts();
    judge_times();
    judge_places();
    return verdict();
}
