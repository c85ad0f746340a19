/* Plain C with the same checks as the library's calls: what its times are compared with (plain.c). */
#ifndef PLAIN_H
#define PLAIN_H

#include <stdbool.h>
#include <stddef.h>
#include <stdint.h>

#include "rpki.h"

/* How many headers the value at the front has, and how many octets; 0 where none begins the octets. */
size_t plain_walk(const uint8_t *octets, size_t size, size_t *taken);

/* The same, and an entry of each header; 0 also where the array is too small. It writes entries before it knows whether
 * a value is there, which rpki_index does not. */
size_t plain_index(const uint8_t *octets, size_t size, struct rpki_entry *entries, size_t capacity, size_t *taken);

/* One value and nothing else, as the calls of the same names read it; whether it is there. */
bool plain_serial(const uint8_t *octets, size_t size, uint8_t out[20]);
bool plain_time(const uint8_t *octets, size_t size, struct rpki_moment *out);
bool plain_key(const uint8_t *octets, size_t size, struct rpki_key_parts *out);
bool plain_extension(const uint8_t *octets, size_t size, struct rpki_extension_parts *out);

/* A name that is strict as the profile of the RPKI wants it; one whose strings have 1 to 64 characters too; and any. */
bool plain_name(const uint8_t *octets, size_t size);
bool plain_sized_name(const uint8_t *octets, size_t size);
bool plain_any_name(const uint8_t *octets, size_t size);

/* A certificate of an authority, strict, as rpki_certificate_of_profile reads it in that profile (plain_certificate.c).
 */
bool plain_certificate(const uint8_t *octets, size_t size, struct rpki_certificate_parts *parts,
                       struct rpki_known_extensions *known);

/* A revocation list, as rpki_crl reads it, and a signed object, as rpki_signed_object does but for its certificate
 * (plain_objects.c). */
bool plain_list(const uint8_t *octets, size_t size, struct rpki_crl_parts *out);
bool plain_object(const uint8_t *octets, size_t size, struct rpki_signed_object_parts *out);

/* What signed objects contain, and an entry of each, as the calls of the same names read them; a route origin not
 * strictly (plain_contents.c). */
bool plain_manifest(const uint8_t *octets, size_t size, struct rpki_manifest_parts *out);
bool plain_file(struct rpki_span *rest, struct rpki_manifest_file_parts *out);
bool plain_roa(const uint8_t *octets, size_t size, struct rpki_roa_parts *out);
bool plain_address(struct rpki_span *rest, uint8_t family, struct rpki_roa_address_parts *out);
bool plain_aspa(const uint8_t *octets, size_t size, struct rpki_aspa_parts *out);
bool plain_provider(struct rpki_span *rest, uint32_t *out);

/* An rsync URI: its parts, with the checks of rpki_rsync_parse and no word of which of them fails. */
bool plain_rsync(const uint8_t *text, size_t size, struct rpki_rsync_parts *out);

/* An https URI, with the checks of rpki_https_parse. */
bool plain_https(const uint8_t *text, size_t size);

#endif
