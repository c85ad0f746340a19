/*
 * Calls on digits, times and periods. What is expected is of RFC 5280, X.690 and RFC 4648; large decimal numbers and
 * the seconds of dates are Python's.
 */
#include "parts.h"
#include "stores.h"

#include <stdio.h>
#include <stdlib.h>
#include <string.h>

#define LENGTH(table) (sizeof(table) / sizeof(table)[0])

/* ---- Digits ---- */

static rpki_status decimal(const void *of, uint8_t *out, size_t capacity, size_t *written) {
    return rpki_serial_decimal(of, out, capacity, written);
}

/* A serial number and its decimal digits; NULL where there are none. */
static const struct {
    const char *serial, *digits;
} DECIMALS[] = {
    {"20*00", "0"},
    {"19*00 09", "9"},
    {"19*00 0A", "10"},
    {"17*00 05 DB 4E", "383822"},
    {"12*00 8*FF", "18446744073709551615"},
    {"4*00 16*FF", "340282366920938463463374607431768211455"},
    {"7F 19*FF", "730750818665451459101842416358141509827966271487"},
    {"80 19*00", NULL},
};

static bool decimal_of(size_t row) {
    struct octets serial = octets_of(DECIMALS[row].serial);
    const char *digits = DECIMALS[row].digits;
    bool well = digits ? stores(decimal, serial.at, (const uint8_t *)digits, strlen(digits))
                       : refuses(decimal, serial.at, RPKI_CONTENT);
    uint8_t again[20];
    if (digits) {
        well = well && rpki_serial_of_decimal((const uint8_t *)digits, strlen(digits), again) == RPKI_OK;
        well = well && !memcmp(again, serial.at, sizeof again);
    }
    free(serial.at);
    return told(well, "decimal digits", DECIMALS[row].serial);
}

typedef rpki_status twenty(const uint8_t *octets, size_t size, uint8_t out[20]);

#define DIGITS "\"0123456789ABCDEFabcdef0123456789abcdEF01\""
#define OCTETS "01 23 45 67 89 AB CD EF AB CD EF 01 23 45 67 89 AB CD EF 01"

/* What a call that writes twenty octets is given, and what it writes; or its status where that is NULL. */
static const struct {
    twenty *call;
    const char *octets, *written;
    rpki_status status;
} TWENTIES[] = {
    {rpki_serial_of_decimal, "100*\"0\" \"7\"", "19*00 07", RPKI_OK},
    {rpki_serial_of_decimal, "\"\"", NULL, RPKI_CONTENT},
    {rpki_serial_of_decimal, "\"+1\"", NULL, RPKI_CONTENT},
    {rpki_serial_of_decimal, "\"-1\"", NULL, RPKI_CONTENT},
    {rpki_serial_of_decimal, "\" 1\"", NULL, RPKI_CONTENT},
    {rpki_serial_of_decimal, "\"1 \"", NULL, RPKI_CONTENT},
    {rpki_serial_of_decimal, "\"1/\"", NULL, RPKI_CONTENT},
    {rpki_serial_of_decimal, "\"1:\"", NULL, RPKI_CONTENT},
    {rpki_serial_of_decimal, "\"5DB4E\"", NULL, RPKI_CONTENT},
    {rpki_serial_of_decimal, "\"730750818665451459101842416358141509827966271488\"", NULL, RPKI_CONTENT},
    {rpki_serial_of_decimal, "\"1461501637330902918203684832716283019655932542976\"", NULL, RPKI_CONTENT},
    {rpki_serial_of_decimal, "60*\"9\"", NULL, RPKI_CONTENT},
    {rpki_serial_of_octets, "07", "19*00 07", RPKI_OK},
    {rpki_serial_of_octets, "FF", "19*00 FF", RPKI_OK},
    {rpki_serial_of_octets, "00 01 02", "18*00 01 02", RPKI_OK},
    {rpki_serial_of_octets, "19*FF", "00 19*FF", RPKI_OK},
    {rpki_serial_of_octets, "7F 19*FF", "7F 19*FF", RPKI_OK},
    {rpki_serial_of_octets, "", NULL, RPKI_CONTENT},
    {rpki_serial_of_octets, "80 19*00", NULL, RPKI_CONTENT},
    {rpki_serial_of_octets, "21*00", NULL, RPKI_CONTENT},
    {rpki_key_identifier_read, "04 14 " OCTETS, OCTETS, RPKI_OK},
    {rpki_key_identifier_read, "04 14 " OCTETS " 00", NULL, RPKI_TRAILING},
    {rpki_key_identifier_read, "04 14 01", NULL, RPKI_TRUNCATED},
    {rpki_key_identifier_read, "", NULL, RPKI_TRUNCATED},
    {rpki_key_identifier_read, "04 13 19*00", NULL, RPKI_CONTENT},
    {rpki_key_identifier_read, "04 15 21*00", NULL, RPKI_CONTENT},
    {rpki_key_identifier_read, "02 14 20*01", NULL, RPKI_UNEXPECTED},
    {rpki_key_identifier_read, "24 16 04 14 20*01", NULL, RPKI_UNEXPECTED},
    {rpki_key_identifier_read, "04 81 14 20*01", NULL, RPKI_BAD_LENGTH},
    {rpki_key_identifier_of_hex, DIGITS, OCTETS, RPKI_OK},
    {rpki_key_identifier_of_hex, "40*\"f\"", "20*FF", RPKI_OK},
    {rpki_key_identifier_of_hex, "", NULL, RPKI_CONTENT},
    {rpki_key_identifier_of_hex, "39*\"0\"", NULL, RPKI_CONTENT},
    {rpki_key_identifier_of_hex, "41*\"0\"", NULL, RPKI_CONTENT},
    {rpki_key_identifier_of_hex, "38*\"0\" \"+F\"", NULL, RPKI_CONTENT},
    {rpki_key_identifier_of_hex, "38*\"0\" \"0G\"", NULL, RPKI_CONTENT},
    {rpki_key_identifier_of_hex, "38*\"0\" \"0:\"", NULL, RPKI_CONTENT},
    {rpki_key_identifier_of_hex, "39*\"0\" 00", NULL, RPKI_CONTENT},
    {rpki_key_identifier_of_hex, "39*\"0\" FF", NULL, RPKI_CONTENT},
    {rpki_key_identifier_of_hex, "38*\"0\" C3 A9", NULL, RPKI_CONTENT},
};

static bool twenty_of(size_t row) {
    struct octets given = octets_of(TWENTIES[row].octets);
    struct octets written = octets_of(TWENTIES[row].written ? TWENTIES[row].written : "20*5A");
    uint8_t out[20];
    bool well;
    memset(out, 0x5A, sizeof out);
    well = TWENTIES[row].call(given.at, given.size, out) == TWENTIES[row].status;
    well = well && written.size == sizeof out && !memcmp(out, written.at, sizeof out);
    free(given.at);
    free(written.at);
    return told(well, "twenty octets", TWENTIES[row].octets);
}

bool digits(void) {
    size_t row;
    bool well = true;
    for (row = 0; row < LENGTH(DECIMALS); row++) well = decimal_of(row) && well;
    for (row = 0; row < LENGTH(TWENTIES); row++) well = twenty_of(row) && well;
    return well;
}

/* ---- Times ---- */

static rpki_status utc(const void *of, uint8_t *out, size_t capacity, size_t *written) {
    return rpki_time_write_utc(of, out, capacity, written);
}

static rpki_status generalized(const void *of, uint8_t *out, size_t capacity, size_t *written) {
    return rpki_time_write_generalized(of, out, capacity, written);
}

/* A moment, and its values in both forms, or NULL where there is none. */
static const struct {
    struct rpki_moment moment;
    const char *utc, *generalized;
} FORMS[] = {
    {{0, 1949, 12, 31, 23, 59, 59}, "17 0D \"491231235959Z\"", "18 0F \"19491231235959Z\""},
    {{9, 2000, 2, 29, 1, 2, 3}, "17 0D \"000229010203Z\"", "18 0F \"20000229010203Z\""},
    {{0, 9999, 12, 31, 23, 59, 59}, "17 0D \"991231235959Z\"", "18 0F \"99991231235959Z\""},
    {{0, 0, 1, 1, 0, 0, 0}, "17 0D \"000101000000Z\"", "18 0F \"00000101000000Z\""},
    {{0, 1900, 2, 29, 0, 0, 0}, NULL, NULL},
    {{0, 10000, 1, 1, 0, 0, 0}, NULL, NULL},
};

static bool form(store *call, size_t row, const char *value) {
    struct octets stored = octets_of(value ? value : "");
    bool well = value ? stores(call, &FORMS[row].moment, stored.at, stored.size)
                      : refuses(call, &FORMS[row].moment, RPKI_CONTENT);
    free(stored.at);
    return told(well, "a form of a time", value ? value : "refused");
}

/* A moment, seconds, and the moment so many seconds on; or a status. */
static const struct {
    struct rpki_moment moment;
    int64_t seconds;
    rpki_status status;
    struct rpki_moment later;
} SECONDS[] = {
    {{5, 1970, 1, 1, 0, 0, 0}, 0, RPKI_OK, {0, 1970, 1, 1, 0, 0, 0}},
    {{0, 1970, 1, 1, 0, 0, 0}, 951782400, RPKI_OK, {951782400, 2000, 2, 29, 0, 0, 0}},
    {{0, 1970, 1, 1, 0, 0, 0}, -1, RPKI_OK, {-1, 1969, 12, 31, 23, 59, 59}},
    {{0, 0, 1, 1, 0, 5, 0}, -300, RPKI_OK, {-62167219200, 0, 1, 1, 0, 0, 0}},
    {{0, 0, 1, 1, 0, 4, 59}, -300, RPKI_NO_ANSWER, {0, 0, 0, 0, 0, 0, 0}},
    {{0, 9999, 12, 31, 23, 59, 58}, 1, RPKI_OK, {253402300799, 9999, 12, 31, 23, 59, 59}},
    {{0, 9999, 12, 31, 23, 59, 59}, 1, RPKI_NO_ANSWER, {0, 0, 0, 0, 0, 0, 0}},
    {{0, 1970, 1, 1, 0, 0, 0}, INT64_MAX, RPKI_NO_ANSWER, {0, 0, 0, 0, 0, 0, 0}},
    {{0, 1970, 1, 1, 0, 0, 0}, INT64_MIN, RPKI_NO_ANSWER, {0, 0, 0, 0, 0, 0, 0}},
    {{0, 2021, 2, 29, 0, 0, 0}, 0, RPKI_CONTENT, {0, 0, 0, 0, 0, 0, 0}},
};

static bool seconds_on(size_t row) {
    struct rpki_moment later, kept;
    rpki_status status;
    memset(&later, 0x5A, sizeof later);
    kept = later;
    status = rpki_time_seconds_on(&SECONDS[row].moment, SECONDS[row].seconds, &later);
    return status == SECONDS[row].status &&
           !memcmp(&later, status == RPKI_OK ? &SECONDS[row].later : &kept, sizeof later);
}

/* ---- Periods ---- */

static rpki_status validity(const void *of, uint8_t *out, size_t capacity, size_t *written) {
    return rpki_validity_write(of, out, capacity, written);
}

/* Seconds of the first minute of 2049, or of 2050 for 100 and more; 60 is no second. */
static struct rpki_moment at(unsigned second) {
    struct rpki_moment moment = {NOTHING, 2049, 1, 1, 0, 0, 0};
    moment.year += (int32_t)(second / 100);
    moment.second = second % 100;
    return moment;
}

static struct rpki_period from_to(unsigned first, unsigned last) {
    struct rpki_period period;
    period.not_before = at(first);
    period.not_after = at(last);
    return period;
}

static const struct {
    unsigned first, last;
    const char *stored;
} PERIODS[] = {
    {0, 9, "30 1E 17 0D \"490101000000Z\" 17 0D \"490101000009Z\""},
    {9, 0, "30 1E 17 0D \"490101000009Z\" 17 0D \"490101000000Z\""},
    {0, 109, "30 20 17 0D \"490101000000Z\" 18 0F \"20500101000009Z\""},
    {100, 159, "30 22 18 0F \"20500101000000Z\" 18 0F \"20500101000059Z\""},
    {60, 9, NULL},
    {0, 60, NULL},
};

static bool period_stores(size_t row) {
    struct rpki_period period = from_to(PERIODS[row].first, PERIODS[row].last);
    struct octets stored = octets_of(PERIODS[row].stored ? PERIODS[row].stored : "");
    bool well = PERIODS[row].stored ? stores(validity, &period, stored.at, stored.size)
                                    : refuses(validity, &period, RPKI_CONTENT);
    free(stored.at);
    return told(well, "a period", PERIODS[row].stored ? PERIODS[row].stored : "refused");
}

/* A period, a moment, and whether the one holds at the other (RFC 5280 4.1.2.5: at both of its ends). */
static const struct {
    unsigned first, last, moment;
    rpki_status status;
} HELD[] = {
    {10, 20, 9, RPKI_TOO_NEW},  {10, 20, 10, RPKI_OK},     {10, 20, 15, RPKI_OK},      {10, 20, 20, RPKI_OK},
    {10, 20, 21, RPKI_TOO_OLD}, {10, 10, 10, RPKI_OK},     {20, 10, 15, RPKI_TOO_NEW}, {20, 10, 25, RPKI_TOO_OLD},
    {60, 10, 5, RPKI_CONTENT},  {10, 60, 5, RPKI_CONTENT}, {10, 20, 60, RPKI_CONTENT},
};

static bool held(size_t row) {
    struct rpki_period period = from_to(HELD[row].first, HELD[row].last);
    struct rpki_moment moment = at(HELD[row].moment);
    return rpki_validity_at(&period, &moment) == HELD[row].status;
}

/* Two periods, and what both have in common: the later start, the earlier end. */
static const struct {
    unsigned first, last, other_first, other_last, start, end;
} TRIMMED[] = {
    {10, 20, 12, 18, 12, 18}, {12, 18, 10, 20, 12, 18}, {10, 20, 15, 30, 15, 20},
    {15, 30, 10, 20, 15, 20}, {10, 12, 20, 22, 20, 12}, {10, 20, 10, 20, 10, 20},
};

static bool trimmed(size_t row) {
    struct rpki_period one = from_to(TRIMMED[row].first, TRIMMED[row].last), both;
    struct rpki_period other = from_to(TRIMMED[row].other_first, TRIMMED[row].other_last);
    struct rpki_period expected = from_to(TRIMMED[row].start, TRIMMED[row].end);
    expected.not_before.seconds = 2493072000 + TRIMMED[row].start;
    expected.not_after.seconds = 2493072000 + TRIMMED[row].end;
    return rpki_validity_trim(&one, &other, &both) == RPKI_OK && !memcmp(&both, &expected, sizeof both);
}

/* Of periods with moments that are none, nothing is written. */
static bool untrimmed(void) {
    static const unsigned moments[][4] = {{60, 1, 2, 3}, {1, 60, 2, 3}, {1, 2, 60, 3}, {1, 2, 3, 60}};
    size_t row;
    bool well = true;
    for (row = 0; row < LENGTH(moments); row++) {
        struct rpki_period one = from_to(moments[row][0], moments[row][1]), both, kept;
        struct rpki_period other = from_to(moments[row][2], moments[row][3]);
        memset(&both, 0x5A, sizeof both);
        kept = both;
        well = well && rpki_validity_trim(&one, &other, &both) == RPKI_CONTENT && !memcmp(&both, &kept, sizeof both);
    }
    return well;
}

bool times_and_periods(void) {
    size_t row;
    bool well = untrimmed();
    for (row = 0; row < LENGTH(FORMS); row++) well = form(utc, row, FORMS[row].utc) && well;
    for (row = 0; row < LENGTH(FORMS); row++) well = form(generalized, row, FORMS[row].generalized) && well;
    for (row = 0; row < LENGTH(SECONDS); row++) well = told(seconds_on(row), "seconds on", "a moment") && well;
    for (row = 0; row < LENGTH(PERIODS); row++) well = period_stores(row) && well;
    for (row = 0; row < LENGTH(HELD); row++) well = told(held(row), "a period", "at a moment") && well;
    for (row = 0; row < LENGTH(TRIMMED); row++) well = told(trimmed(row), "a period", "trimmed") && well;
    return well;
}

/* ---- Extensions ---- */

/* An extension: the contents of its identifier, whether it is critical, its octets. */
static const struct {
    const char *id, *octets, *stored;
    bool critical;
} EXTENSIONS[] = {
    {"55 1D 13", "30 00", "30 09 06 03 55 1D 13 04 02 30 00", false},
    {"55 1D 13", "30 00", "30 0C 06 03 55 1D 13 01 01 FF 04 02 30 00", true},
    {"", "", "30 04 06 00 04 00", false},
    {"55 1D 13", "128*AA", "30 81 88 06 03 55 1D 13 04 81 80 128*AA", false},
};

static rpki_status extension(const void *of, uint8_t *out, size_t capacity, size_t *written) {
    size_t row = *(const size_t *)of;
    struct octets id = octets_of(EXTENSIONS[row].id), octets = octets_of(EXTENSIONS[row].octets);
    rpki_status status =
        rpki_extension_write(id.at, id.size, EXTENSIONS[row].critical, octets.at, octets.size, out, capacity, written);
    free(id.at);
    free(octets.at);
    return status;
}

bool written_extensions(void) {
    size_t row;
    bool well = true;
    for (row = 0; row < LENGTH(EXTENSIONS); row++) {
        struct octets stored = octets_of(EXTENSIONS[row].stored);
        well = told(stores(extension, &row, stored.at, stored.size), "an extension", EXTENSIONS[row].stored) && well;
        free(stored.at);
    }
    return well;
}
