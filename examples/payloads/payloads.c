/*
 * Prints what an AS may announce, of the route origin attestations among files: a line a prefix. Nothing is verified:
 * examples/validate does that.
 *
 * usage: payloads FILE...
 */
#include <arpa/inet.h>
#include <stdio.h>
#include <string.h>

#include "rpki.h"

enum { MOST_OCTETS = 1 << 20 };

static const uint8_t route_origin[] = {0x2A, 0x86, 0x48, 0x86, 0xF7, 0x0D, 0x01, 0x09, 0x10, 0x01, 0x18};

static void print_prefixes(struct rpki_span rest, uint8_t family, uint32_t as_id) {
    struct rpki_roa_address_parts prefix;
    char text[INET6_ADDRSTRLEN];
    while (rest.size > 0) {
        if (rpki_roa_address(&rest, family, &prefix) != RPKI_OK) return;
        inet_ntop(family == RPKI_IPV4 ? AF_INET : AF_INET6, prefix.address, text, sizeof text);
        printf("%s/%d-%d => AS%lu\n", text, prefix.length, prefix.max_length, (unsigned long)as_id);
    }
}

static void print_payloads(const uint8_t *octets, size_t size) {
    struct rpki_signed_object_parts object = {0};
    struct rpki_roa_parts roa = {0};
    if (rpki_signed_object(octets, size, false, &object) != RPKI_OK) return;
    if (object.content_type.size != sizeof route_origin) return;
    if (memcmp(object.content_type.data, route_origin, sizeof route_origin) != 0) return;
    if (rpki_roa(object.content.data, object.content.size, false, &roa) != RPKI_OK) return;
    print_prefixes(roa.v4, RPKI_IPV4, roa.as_id);
    print_prefixes(roa.v6, RPKI_IPV6, roa.as_id);
}

int main(int count, char **words) {
    static uint8_t octets[MOST_OCTETS];
    for (int i = 1; i < count; i++) {
        FILE *file = fopen(words[i], "rb");
        if (file == NULL) return 1;
        print_payloads(octets, fread(octets, 1, sizeof octets, file));
        fclose(file);
    }
    return 0;
}
