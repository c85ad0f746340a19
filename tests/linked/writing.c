/* Calls that write values. What is expected is of X.690, RFC 5280 and RFC 4648. */
#include "memory.h"
#include "parts.h"
#include "stores.h"

#include <stdio.h>
#include <stdlib.h>
#include <string.h>

#define LENGTH(table) (sizeof(table) / sizeof(table)[0])

static rpki_status hex(const void *of, uint8_t *out, size_t capacity, size_t *written) {
    const struct given *given = of;
    return rpki_hex(given->one.at, given->one.size, out, capacity, written);
}

static rpki_status base64_write(const void *of, uint8_t *out, size_t capacity, size_t *written) {
    const struct given *given = of;
    return rpki_base64_write(given->one.at, given->one.size, given->two.size > 0, out, capacity, written);
}

/* The flavour is the count of the second octets. An error is told at the place of the last octet. */
static rpki_status base64_read(const void *of, uint8_t *out, size_t capacity, size_t *written) {
    const struct given *given = of;
    size_t at = NOTHING;
    rpki_status status =
        rpki_base64_read(given->one.at, given->one.size, (uint8_t)given->two.size, out, capacity, written, &at);
    bool is_wrong = status >= RPKI_INVALID_SYMBOL && status <= RPKI_INVALID_PADDING;
    size_t place =
        status == RPKI_INVALID_PADDING || status == RPKI_INVALID_LENGTH ? given->one.size : given->one.size - 1;
    return is_wrong ? (at == place ? status : RPKI_TRAILING) : (at == NOTHING ? status : RPKI_TRAILING);
}

static rpki_status serial_write(const void *of, uint8_t *out, size_t capacity, size_t *written) {
    return rpki_serial_write(((const struct given *)of)->one.at, out, capacity, written);
}

static rpki_status time_write(const void *of, uint8_t *out, size_t capacity, size_t *written) {
    return rpki_time_write(of, out, capacity, written);
}

/* A key of RSA whose bits are `abc`, with NULL and without; the algorithm identifier is rsaEncryption. */
#define RSA "06 09 2A 86 48 86 F7 0D 01 01 01"
#define KEY "30 15 30 0D " RSA " 05 00 03 04 00 \"abc\""
#define BARE_KEY "30 13 30 0B " RSA " 03 04 00 \"abc\""
/* Signed data: sha256WithRSAEncryption with NULL and without, and with a count of unused bits. */
#define SHA "06 09 2A 86 48 86 F7 0D 01 01 0B"
#define SIGNED "30 15 30 00 30 0D " SHA " 05 00 03 02 00 AA"
#define BARE_SIGNED "30 13 30 00 30 0B " SHA " 03 02 00 AA"
#define BITS_SIGNED "30 15 30 00 30 0D " SHA " 05 00 03 02 01 AA"
/* The name of its subject: the digits of SHA-1 of `abc` (FIPS 180-4). */
#define NAME "30 33 31 31 30 2F 06 03 55 04 03 13 28 \"A9993E364706816ABA3E25717850C26C9CD0D89D\""
#define LARGE "128*AB 128*CD"

/* A call, what it is given, and what it stores, or the status where that is NULL. */
static const struct {
    store *call;
    const char *one, *two, *stored;
    rpki_status status;
} ROWS[] = {
    {hex, "AB 01", "", "\"AB01\"", RPKI_OK},
    {hex, "", "", "", RPKI_OK},
    {hex, "00 09 0A 0F 10 7F 80 FF", "", "\"00090A0F107F80FF\"", RPKI_OK},
    {base64_write, "", "", "", RPKI_OK},
    {base64_write, "\"f\"", "", "\"Zg==\"", RPKI_OK},
    {base64_write, "\"fo\"", "", "\"Zm8=\"", RPKI_OK},
    {base64_write, "\"foobar\"", "", "\"Zm9vYmFy\"", RPKI_OK},
    {base64_write, "FB FF", "", "\"+/8=\"", RPKI_OK},
    {base64_write, "FB FF", "00", "\"-_8\"", RPKI_OK},
    {base64_read, "\"Zm9v\" 0A 20 09 0C 0D \"YmFy\"", "", "\"foobar\"", RPKI_OK},
    {base64_read, "\"Zm9vYg==\"", "00", "\"foob\"", RPKI_OK},
    {base64_read, "\"Zm9vYg\"", "00 00", "\"foob\"", RPKI_OK},
    {base64_read, "\"-_8=\"", "00 00", "FB FF", RPKI_OK},
    {base64_read, "\"Zg\"", "", NULL, RPKI_INVALID_PADDING},
    {base64_read, "\"Zg\"", "00", NULL, RPKI_INVALID_PADDING},
    {base64_read, "\"Zm9v \"", "00", NULL, RPKI_INVALID_SYMBOL},
    {base64_read, "\"Zm9v+\"", "00 00", NULL, RPKI_INVALID_SYMBOL},
    {base64_read, "\"Zh\"", "00 00", NULL, RPKI_INVALID_LAST_SYMBOL},
    {base64_read, "128*\"A\"", "", "96*00", RPKI_OK},
    {base64_read, "127*\"A\" \"!\"", "", NULL, RPKI_INVALID_SYMBOL},
    {base64_read, "127*\"A\" FF", "", NULL, RPKI_INVALID_SYMBOL},
    {base64_read, "132*\"A\"", "", "99*00", RPKI_OK},
    {base64_read, "132*\"A\"", "00", "99*00", RPKI_OK},
    {base64_read, "132*\"A\"", "00 00", "99*00", RPKI_OK},
    {base64_read, "4*0A 128*\"A\"", "", "96*00", RPKI_OK},
    {base64_read, "131*\"A\" \"!\"", "", NULL, RPKI_INVALID_SYMBOL},
    {base64_read, "131*\"A\" FF", "", NULL, RPKI_INVALID_SYMBOL},
    {base64_read, "131*\"A\" \"!\"", "00", NULL, RPKI_INVALID_SYMBOL},
    {base64_read, "131*\"A\" \"+\"", "00 00", NULL, RPKI_INVALID_SYMBOL},
    {serial_write, "17*00 81 02 03", "", "02 04 00 81 02 03", RPKI_OK},
    {serial_write, "20*00", "", "02 01 00", RPKI_OK},
    {serial_write, "19*00 80", "", "02 02 00 80", RPKI_OK},
    {serial_write, "7F 19*FF", "", "02 14 7F 19*FF", RPKI_OK},
    {serial_write, "80 19*00", "", NULL, RPKI_CONTENT},
    {key_write, KEY, "", KEY, RPKI_OK},
    {key_write, BARE_KEY, "", KEY, RPKI_OK},
    {key_write, KEY " 00", "", NULL, RPKI_TRAILING},
    {key_write, "31 00", "", NULL, RPKI_UNEXPECTED},
    {key_write, "30 09 30 04 06 02 2A 03 03 01 00", "", NULL, RPKI_OTHER_ALGORITHM},
    {signed_write, SIGNED, "", SIGNED, RPKI_OK},
    {signed_write, BARE_SIGNED, "", SIGNED, RPKI_OK},
    {signed_write, BITS_SIGNED, "", SIGNED, RPKI_OK},
    {signed_write, SIGNED " 00", "", NULL, RPKI_TRAILING},
    {signed_write, "30 17 30 02 04 05 30 0D " SHA " 05 00 03 02 00 AA", "", NULL, RPKI_TRUNCATED},
    {signed_write, "30 0A 30 00 30 04 06 02 2A 03 03 00", "", NULL, RPKI_OTHER_ALGORITHM},
    {signed_make, "30 00", "AA", SIGNED, RPKI_OK},
    {signed_make, "05 00", "", "30 14 05 00 30 0D " SHA " 05 00 03 01 00", RPKI_OK},
    {signed_make, "", "AA", NULL, RPKI_TRUNCATED},
    {signed_make, "30 02 05", "AA", NULL, RPKI_TRUNCATED},
    {signed_make, "05 00 05 00", "AA", NULL, RPKI_TRAILING},
    {signed_make, "30 02 1F 00", "AA", NULL, RPKI_BAD_TAG},
    {signed_make, "30 80", "AA", NULL, RPKI_BAD_LENGTH},
    {rsa_write, "00 80", "01 00 01", "30 1D 30 0D " RSA " 05 00 03 0C 00 30 09 02 02 00 80 02 03 01 00 01", RPKI_OK},
    {rsa_write, "00", "03", "30 1A 30 0D " RSA " 05 00 03 09 00 30 06 02 01 00 02 01 03", RPKI_OK},
    {rsa_write, LARGE, "01 00 01",
     "30 82 01 22 30 0D " RSA " 05 00 03 82 01 0F 00 30 82 01 0A 02 82 01 01 00 " LARGE " 02 03 01 00 01", RPKI_OK},
    {rsa_write, "", "03", NULL, RPKI_CONTENT},
    {rsa_write, "03", "", NULL, RPKI_CONTENT},
    {bits_write, "30 06 02 01 00 02 01 03", "", "30 1A 30 0D " RSA " 05 00 03 09 00 30 06 02 01 00 02 01 03", RPKI_OK},
    {bits_write, "30 03 02 01 00", "", NULL, RPKI_TRUNCATED},
    {bits_write, "30 06 02 01 80 02 01 03", "", NULL, RPKI_CONTENT},
    {bits_write, "30 06 02 01 00 02 01 03 00", "", NULL, RPKI_TRAILING},
    {name_write, KEY, "", NAME, RPKI_OK},
    {name_write, BARE_KEY, "", NAME, RPKI_OK},
    {name_write, "31 00", "", NULL, RPKI_UNEXPECTED},
};

static bool row_stores(size_t row) {
    struct given given;
    struct octets stored = octets_of(ROWS[row].stored ? ROWS[row].stored : "");
    bool well;
    given.one = octets_of(ROWS[row].one);
    given.two = octets_of(ROWS[row].two);
    well = ROWS[row].stored ? stores(ROWS[row].call, &given, stored.at, stored.size)
                            : refuses(ROWS[row].call, &given, ROWS[row].status);
    free(given.one.at);
    free(given.two.at);
    free(stored.at);
    return told(well, ROWS[row].one, ROWS[row].stored ? ROWS[row].stored : "refused");
}

/* The parts of a moment, and the value of its time, or NULL where there is none. */
static const struct {
    struct rpki_moment moment;
    const char *stored;
} TIMES[] = {
    {{0, 1950, 1, 1, 0, 0, 0}, "17 0D \"500101000000Z\""},
    {{0, 2049, 12, 31, 23, 59, 59}, "17 0D \"491231235959Z\""},
    {{-5, 2050, 1, 1, 0, 0, 0}, "18 0F \"20500101000000Z\""},
    {{0, 1949, 12, 31, 23, 59, 59}, "18 0F \"19491231235959Z\""},
    {{0, 0, 2, 29, 0, 0, 0}, "18 0F \"00000229000000Z\""},
    {{0, 9999, 12, 31, 23, 59, 59}, "18 0F \"99991231235959Z\""},
    {{0, 10000, 1, 1, 0, 0, 0}, NULL},
    {{0, -1, 1, 1, 0, 0, 0}, NULL},
    {{0, 1900, 2, 29, 0, 0, 0}, NULL},
    {{0, 2020, 13, 1, 0, 0, 0}, NULL},
    {{0, 2020, 0, 1, 0, 0, 0}, NULL},
    {{0, 2020, 1, 0, 0, 0, 0}, NULL},
    {{0, 2020, 1, 1, 24, 0, 0}, NULL},
    {{0, 2020, 1, 1, 0, 60, 0}, NULL},
    {{0, 2020, 1, 1, 0, 0, 60}, NULL},
    {{0, 2020, 257, 1, 0, 0, 0}, NULL},
    {{0, INT32_MIN, 1, 1, 0, 0, 0}, NULL},
};

static bool time_stores(size_t row) {
    struct octets stored = octets_of(TIMES[row].stored ? TIMES[row].stored : "");
    struct rpki_moment later, read;
    bool well = TIMES[row].stored ? stores(time_write, &TIMES[row].moment, stored.at, stored.size)
                                  : refuses(time_write, &TIMES[row].moment, RPKI_CONTENT);
    rpki_status status = rpki_time_years_on(&TIMES[row].moment, 0, &later);
    /* No years on is the moment that is read of what is written, but for a leap day. */
    if (TIMES[row].stored && TIMES[row].moment.day != 29) {
        well = well && rpki_time(stored.at, stored.size, &read) == RPKI_OK && status == RPKI_OK;
        well = well && !memcmp(&read, &later, sizeof read);
    } else {
        well = well && status == (TIMES[row].stored ? RPKI_OK : RPKI_CONTENT);
    }
    free(stored.at);
    return told(well, "a time", TIMES[row].stored ? TIMES[row].stored : "refused");
}

/* Years on from 2020-02-29 16:39:57: the year, or -1 where there is none. Seconds are of RFC 3339's calendar. */
static const struct {
    int32_t years, year;
    int64_t seconds;
} YEARS[] = {
    {4, 2024, 1709138397},    {10, 2030, 1898527197},     {-50, 1970, 5071197},
    {-2020, 0, -62162148003}, {7979, 9999, 253375835997}, {7980, -1, 0},
    {-2021, -1, 0},           {INT32_MAX, -1, 0},         {INT32_MIN, -1, 0},
};

static bool years_on(size_t row) {
    static const struct rpki_moment leap = {0, 2020, 2, 29, 16, 39, 57};
    struct rpki_moment later = {NOTHING, NOTHING, 0, 0, 0, 0, 0};
    rpki_status status = rpki_time_years_on(&leap, YEARS[row].years, &later);
    bool well;
    if (YEARS[row].year < 0) {
        well = status == RPKI_NO_ANSWER && later.seconds == NOTHING && later.year == NOTHING;
    } else {
        well = status == RPKI_OK && later.year == YEARS[row].year && later.month == 2 && later.day == 28;
        well = well && later.hour == 16 && later.minute == 39 && later.second == 57;
        well = well && later.seconds == YEARS[row].seconds;
    }
    if (!well) printf("%d years on: %d, %lld seconds\n", (int)YEARS[row].years, (int)status, (long long)later.seconds);
    return well;
}

bool written_values(void) {
    size_t row;
    bool well = true;
    for (row = 0; row < LENGTH(ROWS); row++) well = row_stores(row) && well;
    for (row = 0; row < LENGTH(TIMES); row++) well = time_stores(row) && well;
    for (row = 0; row < LENGTH(YEARS); row++) well = years_on(row) && well;
    return well;
}

/* Whether rpki.h says that the row's call takes no memory: of a short text, and of one of XML that is not UTF-8. */
static bool takes_none(size_t row, const struct given *given) {
    store *call = ROWS[row].call;
    bool is_other = given->two.size == 0 && given->one.size > 0 && given->one.at[given->one.size - 1] == 0xFF;
    return call == hex || call == base64_write || (call == base64_read && (given->one.size <= 128 || is_other));
}

/*
 * Whether a row is told as what it is though an allocation was refused. Room for a text without its white space may be
 * asked for again; and bits that are no key's are told as that, with memory or without.
 */
static bool is_told(size_t row, rpki_status status) {
    if (ROWS[row].call == bits_write) return !ROWS[row].stored;
    return ROWS[row].call == base64_read && status == ROWS[row].status;
}

/* Each allocation of each row refused in turn: out of memory, nothing written, and all that was given freed. */
static bool row_without_memory(size_t row) {
    struct given given;
    uint8_t out[512];
    bool well = true, all_freed;
    size_t refused, asked = 1, written;
    given.one = octets_of(ROWS[row].one);
    given.two = octets_of(ROWS[row].two);
    for (refused = 0; refused < asked; refused++) {
        rpki_status status;
        memset(out, FILL, sizeof out);
        written = NOTHING;
        count_allocations(refused);
        status = ROWS[row].call(&given, out, sizeof out, &written);
        asked = allocations(&all_freed);
        well = well && !(takes_none(row, &given) && asked > 0);
        if (refused < asked && !is_told(row, status)) {
            well = well && all_freed && status == RPKI_OUT_OF_MEMORY && written == NOTHING;
            well = well && untouched(out, sizeof out);
        } else {
            well = well && all_freed && status == ROWS[row].status;
        }
    }
    count_allocations(NONE_REFUSED);
    free(given.one.at);
    free(given.two.at);
    return told(well, "without memory", ROWS[row].one);
}

bool refused_writing(void) {
    size_t row;
    bool well = true;
    for (row = 0; row < LENGTH(ROWS); row++) well = row_without_memory(row) && well;
    return well;
}
