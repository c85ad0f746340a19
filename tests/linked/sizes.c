/*
 * Calls that take memory, at real and at large sizes, where no allocation is refused: an allocation failure is a
 * failure here. And what each takes at its peak, which the head of rpki.h promises. What is expected is of X.690,
 * RFC 5280 and RFC 4648; the SHA-1 of a key's bits is Python's.
 */
#include "memory.h"
#include "parts.h"
#include "stores.h"
#include "values.h"

#include <stdio.h>
#include <stdlib.h>
#include <string.h>

#define LENGTH(table) (sizeof(table) / sizeof(table)[0])

/* A SEQUENCE of so many octets of empty SEQUENCEs, and an OCTET STRING of as many. */
static struct octets list(size_t count) {
    struct growing made = room_for(count + 8);
    size_t place;
    for (place = 0; place + 2 <= count; place += 2) put(&made, "\x30\x00", 2);
    head(&made, 0x30, made.size);
    return made_of(&made);
}

static struct octets string(size_t count) {
    struct growing made = room_for(count + 8);
    fill(&made, 0xA5, count);
    head(&made, 0x04, made.size);
    return made_of(&made);
}

static const uint8_t SHA256_RSA[] = {0x30, 0x0D, 0x06, 0x09, 0x2A, 0x86, 0x48, 0x86,
                                     0xF7, 0x0D, 0x01, 0x01, 0x0B, 0x05, 0x00};
static const uint8_t RSA[] = {0x30, 0x0D, 0x06, 0x09, 0x2A, 0x86, 0x48, 0x86, 0xF7, 0x0D, 0x01, 0x01, 0x01, 0x05, 0x00};

/* A BIT STRING without unused bits, an algorithm identifier in front of it, and another value in front of that. */
static struct octets around(const struct octets *value, const uint8_t *algorithm, const struct octets *bits) {
    struct growing made = room_for(value->size + bits->size + 64);
    put(&made, bits->at, bits->size);
    fill(&made, 0, 1);
    head(&made, 0x03, made.size);
    put(&made, algorithm, sizeof RSA);
    put(&made, value->at, value->size);
    head(&made, 0x30, made.size);
    return made_of(&made);
}

/* The bits of a key of RSA: a modulus of so many octets, each of them C5, and 65,537. */
static struct octets key_bits(size_t modulus) {
    struct growing made = room_for(modulus + 32);
    size_t end;
    put(&made, "\x02\x03\x01\x00\x01", 5);
    end = made.start;
    fill(&made, 0xC5, modulus);
    fill(&made, 0, 1);
    head(&made, 0x02, end);
    head(&made, 0x30, made.size);
    return made_of(&made);
}

/* ---- A call, what it stores, and its peak ---- */

static rpki_status extension_write(const void *of, uint8_t *out, size_t capacity, size_t *written) {
    const struct given *given = of;
    return rpki_extension_write(given->two.at, given->two.size, true, given->one.at, given->one.size, out, capacity,
                                written);
}

static rpki_status base64_write(const void *of, uint8_t *out, size_t capacity, size_t *written) {
    const struct given *given = of;
    return rpki_base64_write(given->one.at, given->one.size, false, out, capacity, written);
}

static rpki_status base64_read(const void *of, uint8_t *out, size_t capacity, size_t *written) {
    const struct given *given = of;
    size_t at = NOTHING;
    return rpki_base64_read(given->one.at, given->one.size, RPKI_BASE64_XML, out, capacity, written, &at);
}

/* Up to how many octets a call is made again, with less room and with more. */
enum { MOST_TWICE = 4096 };

/* Whether a call stores these octets, and takes no more than so many at its peak. */
static bool writes(const char *name, store *call, const struct given *given, const struct octets *stored, size_t most) {
    size_t written = NOTHING;
    bool well, all_freed;
    struct octets out = new_octets(NULL, stored->size, 0);
    count_allocations(NONE_REFUSED);
    well = call(given, out.at, out.size, &written) == RPKI_OK && written == stored->size;
    (void)allocations(&all_freed);
    well = well && all_freed && !memcmp(out.at, stored->at, stored->size) && most_octets() <= most;
    if (!well || getenv("PEAKS")) {
        printf("%s of %zu and %zu octets: %zu written, %zu at the peak of %zu\n", name, given->one.size,
               given->two.size, written, most_octets(), most);
    }
    free(out.at);
    return well && (stored->size > MOST_TWICE || stores(call, given, stored->at, stored->size));
}

/* ---- The calls, at a size ---- */

/* What rpki_walk takes of so many levels, and what the others take that write values or base 64. */
static size_t walked(size_t levels) { return 24 * levels + 64; }

static size_t copies(const struct given *given, const struct octets *stored) {
    return 2 * (given->one.size + given->two.size + stored->size) + 512;
}

static bool signed_of(struct octets value, size_t levels, size_t signature_size) {
    struct given parts, whole;
    size_t most;
    bool well;
    parts.one = value;
    parts.two = new_octets(NULL, signature_size, 0x5C);
    whole.one = around(&value, SHA256_RSA, &parts.two);
    whole.two = new_octets(NULL, 0, 0);
    most = whole.one.size > walked(levels) ? whole.one.size : walked(levels);
    well = writes("signed_data_make", signed_make, &parts, &whole.one, most);
    well = writes("signed_data_write", signed_write, &whole, &whole.one, most) && well;
    free(value.at);
    free(parts.two.at);
    free(whole.one.at);
    free(whole.two.at);
    return well;
}

/* A modulus of so many octets, each of them C5, and the digits of SHA-1 of the bits of its key with 65,537. */
static const struct {
    size_t modulus;
    const char *digits;
} NAMES[] = {
    {256, "F372AD53AC33ABA2734DE22F528CE173A88160AC"},    {512, "EFAFEDE0D2368EB83FC5DCEF59947997D31008D7"},
    {2048, "183891776E714ABF73E2E3B5633BB00EAABF3600"},   {65536, "659095B815FD1CDB0E27E2EB29093A58F20E151C"},
    {100000, "9DA45B58190113E7DEB447E86F0C14CE99EE388D"},
};

/* Bits without their last octet are no key's, whatever their size, and where there is no memory too. */
static bool bits_told(const struct octets *bits) {
    uint8_t out[1] = {FILL};
    size_t written = NOTHING;
    bool well = rpki_rsa_key_of_bits(bits->at, bits->size - 1, out, sizeof out, &written) == RPKI_TRUNCATED;
    count_allocations(0);
    well = well && rpki_rsa_key_of_bits(bits->at, bits->size - 1, out, sizeof out, &written) == RPKI_TRUNCATED;
    count_allocations(0);
    well = well && rpki_rsa_key_of_bits(bits->at, bits->size, out, sizeof out, &written) == RPKI_OUT_OF_MEMORY;
    count_allocations(NONE_REFUSED);
    well = well && written == NOTHING && out[0] == FILL;
    if (!well) printf("rsa_key_of_bits of %zu octets that are no key's\n", bits->size - 1);
    return well;
}

static bool keys(size_t modulus) {
    static const struct octets none = {NULL, 0};
    struct given numbers, bits, key;
    size_t row;
    bool well;
    numbers.one = new_octets(NULL, modulus, 0xC5);
    numbers.two = new_octets((const uint8_t *)"\x01\x00\x01", 3, 0);
    bits.one = key_bits(modulus);
    bits.two = new_octets(NULL, 0, 0);
    key.one = around(&none, RSA, &bits.one);
    key.two = bits.two;
    well = writes("public_key_write", key_write, &key, &key.one, copies(&key, &key.one));
    well = writes("rsa_key_write", rsa_write, &numbers, &key.one, copies(&numbers, &key.one)) && well;
    well = writes("rsa_key_of_bits", bits_write, &bits, &key.one, copies(&bits, &key.one)) && well;
    well = bits_told(&bits.one) && well;
    for (row = 0; row < LENGTH(NAMES); row++) {
        struct octets name = octets_of("30 33 31 31 30 2F 06 03 55 04 03 13 28 40*00");
        memcpy(name.at + name.size - 40, NAMES[row].digits, 40);
        if (NAMES[row].modulus == modulus) {
            well = writes("name_of_key", name_write, &key, &name, copies(&key, &name)) && well;
        }
        free(name.at);
    }
    free(numbers.one.at);
    free(numbers.two.at);
    free(bits.one.at);
    free(bits.two.at);
    free(key.one.at);
    return well;
}

static bool extension(size_t size) {
    struct given given;
    struct growing made = room_for(size + 64);
    struct octets stored;
    bool well;
    given.one = new_octets(NULL, size, 0xC5);
    given.two = new_octets((const uint8_t *)"\x2A\x03", 2, 0);
    fill(&made, 0xC5, size);
    head(&made, 0x04, made.size);
    put(&made, "\x06\x02\x2A\x03\x01\x01\xFF", 7);
    head(&made, 0x30, made.size);
    stored = made_of(&made);
    well = writes("extension_write", extension_write, &given, &stored, copies(&given, &stored));
    free(given.one.at);
    free(given.two.at);
    free(stored.at);
    return well;
}

/* A text that isn't base 64, in each flavour: it is told as that, whatever its size, and where. */
static bool base64_told(const struct octets *text) {
    static const uint8_t FLAVOURS[] = {RPKI_BASE64_XML, RPKI_BASE64_SERDE, RPKI_BASE64_SLURM};
    uint8_t out[1] = {FILL};
    size_t row;
    bool well = true;
    for (row = 0; row < LENGTH(FLAVOURS); row++) {
        size_t written = NOTHING, at = NOTHING;
        rpki_status status = rpki_base64_read(text->at, text->size, FLAVOURS[row], out, sizeof out, &written, &at);
        well = well && status == RPKI_INVALID_SYMBOL && at == text->size - 1 && written == NOTHING && out[0] == FILL;
    }
    if (!well) printf("base64_read of %zu octets that aren't base 64\n", text->size);
    return well;
}

/* Octets 00 are `AAAA`, three in four (RFC 4648 4). A text of at most 128 octets is read without memory. */
static bool base64(size_t groups) {
    struct given octets, text;
    size_t most;
    bool well;
    octets.one = new_octets(NULL, 3 * groups, 0);
    text.one = new_octets(NULL, 4 * groups, 'A');
    octets.two = text.two = new_octets(NULL, 0, 0);
    well = writes("base64_write", base64_write, &octets, &text.one, 0);
    most = text.one.size > 128 ? copies(&text, &octets.one) : 0;
    well = writes("base64_read", base64_read, &text, &octets.one, most) && well;
    if (text.one.size > 0) {
        text.one.at[text.one.size - 1] = '!';
        well = base64_told(&text.one) && well;
    }
    free(octets.one.at);
    free(octets.two.at);
    free(text.one.at);
    return well;
}

/* So many levels of which the innermost lacks its one octet, and the same without their last octet. */
static bool fault_of(size_t count) {
    struct octets value = levels(count, 0);
    size_t at = NOTHING;
    bool well, all_freed;
    value.at[value.size - 1] = 1;
    count_allocations(NONE_REFUSED);
    well = rpki_fault(value.at, value.size, &at) == RPKI_OK && at == value.size - 2;
    (void)allocations(&all_freed);
    well = well && all_freed && most_octets() <= walked(count);
    if (!well || getenv("PEAKS")) printf("fault of %zu levels: at %zu, %zu at the peak\n", count, at, most_octets());
    value.at[value.size - 1] = 0;
    well = well && rpki_fault(value.at, value.size, &at) == RPKI_NO_ANSWER;
    well = well && rpki_fault(value.at, value.size - 1, &at) == RPKI_OK && at == 0;
    free(value.at);
    return well;
}

bool sizes(void) {
    static const size_t SIZES[] = {0, 1, 31, 32, 33, 127, 128, 255, 256, 1000, 65535, 65536, 70000, 100000, 1000000};
    static const size_t MODULI[] = {1, 63, 64, 127, 128, 256, 512, 1000, 1024, 2048, 65535, 65536, 100000};
    static const size_t LEVELS[] = {1, 2, 100, 101, 1000, 100000, 100001};
    size_t row;
    bool well = true;
    for (row = 0; row < LENGTH(SIZES); row++) {
        well = signed_of(list(SIZES[row]), 2, 256) && well;
        well = signed_of(string(SIZES[row]), 0, 512) && well;
        well = signed_of(list(2), 2, SIZES[row]) && well;
        well = extension(SIZES[row]) && base64(SIZES[row]) && well;
    }
    for (row = 0; row < LENGTH(MODULI); row++) well = keys(MODULI[row]) && well;
    for (row = 0; row < LENGTH(LEVELS); row++) {
        well = signed_of(levels(LEVELS[row], 0), LEVELS[row], 256) && fault_of(LEVELS[row]) && well;
    }
    return well;
}
