/*
 * Verifies the signatures of rows by rpki_verify, and compares statuses: a file has a row of the bits of a key, a
 * message and a signature in hexadecimal digits, another what is expected of each. Makes other calls of rpki_verify and
 * rpki_sha256. No verification may take memory.
 *
 * usage: signatures ROWS EXPECTED
 */
#include "../judging.h"
#include "../memory.h"
#include "../octets.h"

#include <stdio.h>
#include <stdlib.h>
#include <string.h>

#include "rpki.h"

enum { MOST = 8192 };

static void expect(const char *what, size_t number, bool well) {
    if (!counted(well)) printf("%s %zu is not as expected\n", what, number);
}

/* Octets with room for more. */
struct room {
    size_t size;
    uint8_t at[MOST];
};

/* The octets of hexadecimal digits; returns what follows them and a space. */
static const char *read_octets(const char *digits, struct room *out) {
    out->size = hexadecimal(digits, out->at, MOST);
    digits += 2 * out->size;
    return *digits == ' ' ? digits + 1 : digits;
}

/* Puts a header in front of octets, whose length is below 65,536. */
static void wrap(struct room *octets, uint8_t tag) {
    uint8_t header[4] = {tag, 0x82, (uint8_t)(octets->size >> 8), (uint8_t)octets->size};
    size_t size = sizeof header;
    if (octets->size < 128) {
        header[1] = header[3], size = 2;
    } else if (octets->size < 256) {
        header[1] = 0x81, header[2] = header[3], size = 3;
    }
    memmove(octets->at + size, octets->at, octets->size);
    memcpy(octets->at, header, size);
    octets->size += size;
}

/* The SubjectPublicKeyInfo of the bits of an RSA key (RFC 3279 2.3.1). */
static void key_of_bits(struct room *bits) {
    static const uint8_t algorithm[] = {0x30, 0x0D, 0x06, 0x09, 0x2A, 0x86, 0x48, 0x86,
                                        0xF7, 0x0D, 0x01, 0x01, 0x01, 0x05, 0x00};
    memmove(bits->at + 1, bits->at, bits->size++);
    bits->at[0] = 0;
    wrap(bits, 0x03);
    memmove(bits->at + sizeof algorithm, bits->at, bits->size);
    memcpy(bits->at, algorithm, sizeof algorithm);
    bits->size += sizeof algorithm;
    wrap(bits, 0x30);
}

static struct room key, message, signature;

/* The status of the three. The call may not allocate. */
static rpki_status verify(void) {
    rpki_status status;
    count_allocations(NONE_REFUSED);
    status = rpki_verify(key.at, key.size, message.at, message.size, signature.at, signature.size);
    return took_none() ? status : RPKI_OUT_OF_MEMORY;
}

static rpki_status status_of(const char *word) {
    if (!strcmp(word, "valid\n")) return RPKI_OK;
    return strcmp(word, "invalid\n") ? RPKI_KEY_NOT_ACCEPTED : RPKI_BAD_SIGNATURE;
}

/* The key of a row that is cut, with an octet after it, and of another algorithm. */
static void other_keys(size_t number) {
    key.size--;
    expect("a key that is cut, of row", number, verify() == RPKI_TRUNCATED);
    key.size += 2, key.at[key.size - 1] = 0;
    expect("a key with an octet behind it, of row", number, verify() == RPKI_TRAILING);
    key.size--;
    key.at[16] ^= 1;
    expect("a key of another algorithm, of row", number, verify() == RPKI_OTHER_ALGORITHM);
    key.at[16] ^= 1;
}

static void rows(FILE *given, FILE *expected) {
    static char row[4 * MOST], word[32];
    size_t number = 0;
    while (fgets(row, sizeof row, given) && fgets(word, sizeof word, expected)) {
        const char *rest = read_octets(row, &key);
        read_octets(read_octets(rest, &message), &signature);
        key_of_bits(&key);
        expect("row", ++number, verify() == status_of(word));
        if (verify() == RPKI_OK) other_keys(number);
    }
    expect("the count of rows", number, number > 70 && feof(given));
}

/* A key on P-256. */
static void other_key(void) {
    static const char digits[] =
        "3059301306072a8648ce3d020106082a8648ce3d03010703420004"
        "6b17d1f2e12c4247f8bce6e563a440f277037d812deb33a0f4a13945d898c296"
        "4fe342e2fe1a7f9b8ee7eb4a7c0f9e162bce33576b315ececbb6406837bf51f5";
    read_octets(digits, &key);
    expect("a key on P-256", 0, verify() == RPKI_KEY_NOT_ACCEPTED);
}

/* Digests of FIPS 180-4's examples, and of a million times a. */
static void digests(void) {
    static const char two[] = "abcdbcdecdefdefgefghfghighijhijkijkljklmklmnlmnomnopnopq";
    static uint8_t many[1000000];
    static const struct {
        const void *at;
        size_t size;
        const char *digest;
    } all[] = {
        {"", 0, "e3b0c44298fc1c149afbf4c8996fb92427ae41e4649b934ca495991b7852b855"},
        {"abc", 3, "ba7816bf8f01cfea414140de5dae2223b00361a396177a9cb410ff61f20015ad"},
        {two, sizeof two - 1, "248d6a61d20638b8e5c026930c3e6039a33ce45964ff2167f6ecedd419db06c1"},
        {many, sizeof many, "cdc76e5c9914fb9281a1c7e284d73e67f1809a48a497200e046d39ccc7112cd0"},
    };
    size_t at;
    memset(many, 'a', sizeof many);
    for (at = 0; at < sizeof all / sizeof *all; at++) {
        struct room digest;
        uint8_t out[32];
        read_octets(all[at].digest, &digest);
        rpki_sha256(all[at].at, all[at].size, out);
        expect("digest", at, digest.size == 32 && !memcmp(out, digest.at, 32));
    }
}

int main(int count, char **words) {
    FILE *given = count == 3 ? fopen(words[1], "r") : NULL, *expected = given ? fopen(words[2], "r") : NULL;
    if (!expected) {
        fputs("usage: signatures ROWS EXPECTED\n", stderr);
        return 2;
    }
    rows(given, expected);
    other_key();
    digests();
    return verdict();
}
