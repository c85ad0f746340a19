/* Certificates as rows tell them: where their parts stand in the octets, and what their extensions say. */
#ifndef CERTIFICATES_H
#define CERTIFICATES_H

#include <stdio.h>
#include <string.h>

#include "rpki.h"
#include "spans.h"

/* What rpki_certificate found in the octets. */
static inline char *tell_certificate(char *text, const uint8_t *octets, size_t size,
                                     const struct rpki_certificate_parts *found) {
    const struct rpki_span *spans[7];
    size_t number;
    spans[0] = &found->data, spans[1] = &found->algorithm, spans[2] = &found->signature;
    spans[3] = &found->issuer, spans[4] = &found->subject, spans[5] = &found->public_key;
    spans[6] = &found->extensions;
    for (number = 0; number < 7; number++) text = tell_span(text, octets, size, *spans[number]);
    *text++ = ' ';
    text = tell_octets(text, found->serial_number, 20);
    return text + sprintf(text, " %u %u %u", found->key_format, found->key_unused, found->has_parameters);
}

/* What rpki_certificate_extensions found in them. The extensions are the first members of the struct. */
static inline char *tell_extensions(char *text, const uint8_t *octets, size_t size,
                                    const struct rpki_known_extensions *found) {
    struct rpki_known_extension known[13];
    const struct rpki_known_extension *each;
    memcpy(known, found, sizeof known);
    for (each = known; each < known + 13; each++) {
        text += sprintf(text, " %d %d", each->is_there, each->critical);
        text = tell_span(text, octets, size, each->octets);
    }
    *text++ = ' ';
    text = tell_octets(text, found->subject_key, 20);
    *text++ = ' ';
    text = tell_octets(text, found->authority_key, 20);
    return text + sprintf(text, " %d %u %u", found->is_ca, found->usage, found->policy);
}

#endif
