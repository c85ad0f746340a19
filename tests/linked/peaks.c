/* What calls that read allocate at the peak, as the header says. */
#include "memory.h"
#include "parts.h"
#include "values.h"

#include <stdlib.h>
#include <string.h>

#include "rpki.h"

/* Whether no more than the header says of so many levels. */
static bool is_within(size_t levels) {
    bool all_freed;
    (void)allocations(&all_freed);
    return all_freed && most_octets() <= 24 * levels + 64;
}

static bool tree_takes_little(size_t count, size_t nulls) {
    struct octets value = levels(count, nulls);
    size_t headers = count + nulls, entries = 0;
    struct rpki_walked walked;
    struct rpki_entry entry;
    struct rpki_extension_parts extension;
    struct rpki_signed_parts parts;
    struct rpki_key_parts key;
    bool well;
    count_allocations(NONE_REFUSED);
    well = rpki_walk(value.at, value.size, &walked) == RPKI_OK;
    well = is_within(count) && well && walked.headers == headers;
    count_allocations(NONE_REFUSED);
    well = rpki_index(value.at, value.size, &entry, 0, &entries) == RPKI_TOO_SMALL && well;
    well = is_within(count) && well && entries == headers;
    /* What is none of these types is refused over as little. */
    count_allocations(NONE_REFUSED);
    well = rpki_name_inspect(value.at, value.size, RPKI_PROFILE_RPKI, false) <= RPKI_TRAILING && well;
    well = took_none() && well;
    count_allocations(NONE_REFUSED);
    well = rpki_extension(value.at, value.size, &extension) <= RPKI_TRAILING && well;
    well = took_none() && well;
    count_allocations(NONE_REFUSED);
    well = rpki_signed_data(value.at, value.size, &parts) <= RPKI_TRAILING && well;
    well = is_within(count) && well;
    count_allocations(NONE_REFUSED);
    well = rpki_public_key(value.at, value.size, &key) <= RPKI_TRAILING && well;
    well = took_none() && well;
    free(value.at);
    return well;
}

/* A name of so many common names, which is read in place. */
static bool names_take_none(size_t attributes) {
    static const uint8_t one[] = {0x31, 0x0C, 0x30, 0x0A, 0x06, 0x03, 0x55, 0x04, 0x03, 0x13, 0x03, 'a', 'b', 'c'};
    size_t size = attributes * sizeof one, place;
    struct octets name = new_octets(NULL, 4 + size, 0x30);
    bool well;
    name.at[1] = 0x82;
    name.at[2] = (uint8_t)(size >> 8);
    name.at[3] = (uint8_t)size;
    for (place = 0; place < attributes; place++) memcpy(name.at + 4 + place * sizeof one, one, sizeof one);
    count_allocations(NONE_REFUSED);
    well = rpki_name_inspect(name.at, name.size, RPKI_PROFILE_ROUTER, true) == RPKI_SECOND_COMMON_NAME;
    well = took_none() && well;
    free(name.at);
    return well;
}

/* A key of RSA with 16,360 octets of bits, which is read in place. */
static bool keys_take_none(void) {
    static const uint8_t before[] = {0x30, 0x82, 0x3F, 0xFC, 0x30, 0x0D, 0x06, 0x09, 0x2A, 0x86, 0x48, 0x86,
                                     0xF7, 0x0D, 0x01, 0x01, 0x01, 0x05, 0x00, 0x03, 0x82, 0x3F, 0xE9};
    struct octets octets = new_octets(NULL, 16384, 0);
    struct rpki_key_parts key;
    uint8_t identifier[20];
    bool well;
    memcpy(octets.at, before, sizeof before);
    count_allocations(NONE_REFUSED);
    well = rpki_public_key(octets.at, octets.size, &key) == RPKI_OK && key.bits.size == 16360;
    well = took_none() && well;
    count_allocations(NONE_REFUSED);
    well = rpki_key_identifier(octets.at, octets.size, identifier) == RPKI_OK && well;
    well = took_none() && well;
    free(octets.at);
    return well;
}

bool takes_little(void) {
    size_t count;
    bool well =
        keys_take_none() && tree_takes_little(1, 0) && tree_takes_little(100001, 0) && tree_takes_little(1, 100001);
    for (count = 1; count < 300; count++) {
        well = well && tree_takes_little(1, count) && tree_takes_little(count, 1) && tree_takes_little(count, count);
        well = well && (count < 20 || names_take_none(count));
    }
    return well;
}
