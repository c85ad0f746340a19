#include "stores.h"

#include <stdio.h>
#include <stdlib.h>
#include <string.h>

enum { MORE = 64 };

bool told(bool well, const char *what, const char *of) {
    if (!well) printf("%s: %s\n", what, of);
    return well;
}

struct octets text_of(const char *text) {
    return new_octets((const uint8_t *)text, strlen(text), 0);
}

bool stores(store *call, const void *of, const uint8_t *octets, size_t size) {
    size_t capacity;
    bool well = true;
    for (capacity = size > 2 ? size - 2 : 0; capacity < size + 3; capacity++) {
        struct octets out = new_octets(NULL, capacity, FILL);
        size_t written = NOTHING;
        rpki_status status = call(of, out.at, capacity, &written);
        bool fits = capacity >= size;
        well = well && status == (fits ? RPKI_OK : RPKI_TOO_SMALL) && written == size;
        well = well && (!fits || !memcmp(out.at, octets, size));
        well = well && (fits ? untouched(out.at + size, capacity - size) : untouched(out.at, capacity));
        free(out.at);
    }
    return well;
}

bool refuses(store *call, const void *of, rpki_status status) {
    struct octets out = new_octets(NULL, MORE, FILL);
    size_t written = NOTHING;
    bool well = call(of, out.at, MORE, &written) == status && written == NOTHING;
    well = well && untouched(out.at, MORE);
    free(out.at);
    return well;
}

/* ---- Calls on octets, or on two of them ---- */

rpki_status signed_write(const void *of, uint8_t *out, size_t capacity, size_t *written) {
    const struct given *given = of;
    return rpki_signed_data_write(given->one.at, given->one.size, out, capacity, written);
}

rpki_status signed_make(const void *of, uint8_t *out, size_t capacity, size_t *written) {
    const struct given *given = of;
    return rpki_signed_data_make(given->one.at, given->one.size, given->two.at, given->two.size, out, capacity,
                                 written);
}

rpki_status key_write(const void *of, uint8_t *out, size_t capacity, size_t *written) {
    const struct given *given = of;
    return rpki_public_key_write(given->one.at, given->one.size, out, capacity, written);
}

rpki_status rsa_write(const void *of, uint8_t *out, size_t capacity, size_t *written) {
    const struct given *given = of;
    return rpki_rsa_key_write(given->one.at, given->one.size, given->two.at, given->two.size, out, capacity, written);
}

rpki_status bits_write(const void *of, uint8_t *out, size_t capacity, size_t *written) {
    const struct given *given = of;
    return rpki_rsa_key_of_bits(given->one.at, given->one.size, out, capacity, written);
}

rpki_status name_write(const void *of, uint8_t *out, size_t capacity, size_t *written) {
    const struct given *given = of;
    return rpki_name_of_key(given->one.at, given->one.size, out, capacity, written);
}
