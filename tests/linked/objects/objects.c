/*
 * Reads signed objects with rpki_signed_object, and compares statuses and what is found with those of rows that rows.py
 * writes; a certificate that rpki_certificate refuses has the status that it names. rpki_signed_object_of_profile says
 * the same, and of the certificate what rpki_certificate_of_profile says; rpki_signed_object_error says what is wrong.
 * What a call refuses leaves `out` as it was. They do not allocate.
 *
 * usage: objects ROWS
 */
#include "../certificates.h"
#include "../judging.h"
#include "../memory.h"
#include "../octets.h"

#include <stdio.h>
#include <stdlib.h>
#include <string.h>

#include "rpki.h"

static rpki_status read_object(const uint8_t *octets, size_t size, bool strict, struct rpki_signed_object_parts *out,
                               bool *clean) {
    rpki_status status;
    memset(out, FILL, sizeof *out);
    count_allocations(0);
    status = rpki_signed_object(octets, size, strict, out);
    *clean = took_none();
    if (status != RPKI_OK) *clean = *clean && untouched(out, sizeof *out);
    return status;
}

/* Asks what is wrong with the object. Status 0 writes nothing. */
static bool is_wrong(const uint8_t *octets, size_t size, bool strict, unsigned wanted, unsigned error) {
    rpki_status status, written;
    bool clean;
    memset(&written, FILL, sizeof written);
    count_allocations(0);
    status = rpki_signed_object_error(octets, size, strict, &written);
    clean = took_none();
    if (status == RPKI_OK) return clean && wanted == RPKI_OK && untouched(&written, sizeof written);
    if (written != error) printf("error %u, not %u\n", written, error);
    return clean && status == wanted && written == error;
}

/* What was found, in the words of the row. */
static char *tell(const uint8_t *octets, size_t size, const struct rpki_signed_object_parts *found, char *text) {
    text = tell_span(text, octets, size, found->content_type);
    text = tell_span(text, octets, size, found->content);
    text = tell_span(text, octets, size, found->signed_attributes);
    text = tell_span(text, octets, size, found->signature);
    *text++ = ' ';
    text = tell_octets(text, found->message_digest, 32);
    *text++ = ' ';
    text = tell_octets(text, found->signer_identifier, 20);
    if (found->has_signing_time) {
        text += sprintf(text, " %lld", (long long)found->signing_time.seconds);
    } else {
        text += sprintf(text, " -");
    }
    if (found->has_binary_signing_time) {
        text += sprintf(text, " %llu", (long long unsigned)found->binary_signing_time);
    } else {
        text += sprintf(text, " -");
    }
    return text + sprintf(text, " %u %u", found->is_type_signed, found->has_parameters);
}

/* What is told where there is no time: zeros. */
static bool are_zeros(const struct rpki_signed_object_parts *found) {
    static const struct rpki_moment none;
    bool well = found->has_signing_time || !memcmp(&found->signing_time, &none, sizeof none);
    return well && (found->has_binary_signing_time || found->binary_signing_time == 0);
}

/* All that is written of an object and its certificate. */
struct written {
    struct rpki_signed_object_parts object;
    struct rpki_certificate_parts certificate;
    struct rpki_known_extensions extensions;
};

/* The same in words. */
static void tell_all(const uint8_t *octets, size_t size, const struct written *found, char *text) {
    text = tell(octets, size, &found->object, text);
    text = tell_span(text, octets, size, found->object.certificate);
    text = tell_certificate(text, octets, size, &found->certificate);
    text += sprintf(text, " %lld %lld", (long long)found->certificate.validity.not_before.seconds,
                    (long long)found->certificate.validity.not_after.seconds);
    tell_extensions(text, octets, size, &found->extensions);
}

/* Whether both calls in one say what each of them says; the first has this status, and has written this. */
static bool checks(const uint8_t *octets, size_t size, bool strict, bool names, rpki_status first,
                   const struct rpki_signed_object_parts *object) {
    static char told[4096], words[4096];
    struct written out, wanted;
    rpki_status status, other = first;
    bool clean;
    memset(&out, FILL, sizeof out);
    wanted.object = *object;
    if (first == RPKI_OK) {
        other = rpki_certificate_of_profile(object->certificate.data, object->certificate.size, RPKI_CERTIFICATE_EE,
                                            names, &wanted.certificate, &wanted.extensions);
    }
    count_allocations(0);
    status = rpki_signed_object_of_profile(octets, size, strict, names, &out.object, &out.certificate, &out.extensions);
    clean = took_none();
    if (!clean || status != other) return false;
    if (status != RPKI_OK) return untouched(&out, sizeof out);
    tell_all(octets, size, &out, told);
    tell_all(octets, size, &wanted, words);
    return !strcmp(told, words) && are_zeros(&out.object);
}

/* The words after the octets. */
static void object(unsigned line, const uint8_t *octets, size_t size, bool strict, char *words) {
    static char told[1024];
    struct rpki_signed_object_parts out;
    struct rpki_certificate_parts certificate;
    size_t start = 0, length = 0;
    unsigned wanted = (unsigned)strtoul(words, &words, 10), error = 0;
    bool clean;
    rpki_status status = read_object(octets, size, strict, &out, &clean), reason = RPKI_OK;
    judge(line, "allocates, or writes what it refuses", clean);
    judge(line, "with the certificate", checks(octets, size, strict, false, status, &out));
    judge(line, "with the certificate, strict", checks(octets, size, strict, true, status, &out));
    if (wanted != RPKI_OK) {
        error = (unsigned)strtoul(words, &words, 10);
    } else {
        start = strtoul(words, &words, 10);
        length = strtoul(words, &words, 10);
        wanted = rpki_certificate(octets + start, length, &certificate);
        if (wanted != RPKI_OK) {
            judge(line, "the certificate's", rpki_certificate_error(octets + start, length, &reason) == wanted);
            error = reason;
        } else {
            wanted = (unsigned)strtoul(words, &words, 10);
            if (wanted != RPKI_OK) error = (unsigned)strtoul(words, &words, 10);
        }
    }
    judge_status(line, "the status", status, wanted);
    judge(line, "the error", is_wrong(octets, size, strict, wanted, error));
    if (wanted != RPKI_OK || status != RPKI_OK) return;
    tell(octets, size, &out, told);
    if (!is_told(told, words)) printf("%s\nnot %s\n", told, words);
    judge(line, "the parts", is_told(told, words) && are_zeros(&out));
    judge(line, "the certificate", out.certificate.data == octets + start && out.certificate.size == length);
}

static void beginnings(const uint8_t *octets, size_t size) {
    struct rpki_signed_object_parts out;
    size_t count;
    bool clean, well = true;
    for (count = 0; count < size; count++) {
        struct octets copy = new_octets(octets, count, 0);
        well = read_object(copy.at, count, false, &out, &clean) == RPKI_PART_OBJECT && clean && well;
        well = is_wrong(copy.at, count, false, RPKI_PART_OBJECT, RPKI_TRUNCATED) && well;
        free(copy.at);
    }
    judge(1, "each beginning", well);
}

static void row(unsigned line, char *text) {
    char *words = strchr(text, ' ') + 1;
    struct octets given = octets_spelt(text);
    bool strict = *words == '1';
    if (line == 1) beginnings(given.at, given.size);
    object(line, given.at, given.size, strict, words + 1);
    free(given.at);
}

int main(int count, char **words) { return judge_rows(count, words, row); }
