/*
 * Reads revocation lists with rpki_crl, and compares statuses and what is found with those of rows that rows.py writes,
 * and what rpki_crl_error writes; then asks rpki_crl_contains, rpki_crl_revokes, and the table that rpki_serials makes,
 * for each serial number on a list, and for others. What a call refuses leaves `out` as it was. No call allocates.
 *
 * usage: lists ROWS
 */
#include "../judging.h"
#include "../memory.h"
#include "../octets.h"
#include "../spans.h"

#include <stdio.h>
#include <stdlib.h>
#include <string.h>

#include "rpki.h"

static rpki_status read_list(const uint8_t *octets, size_t size, struct rpki_crl_parts *out, bool *clean) {
    rpki_status status;
    memset(out, FILL, sizeof *out);
    count_allocations(0);
    status = rpki_crl(octets, size, out);
    *clean = took_none();
    if (status != RPKI_OK) *clean = *clean && untouched(out, sizeof *out);
    return status;
}

/* Asks what is wrong with a copy of exactly these octets. Status 0 writes nothing. */
static bool is_wrong(const uint8_t *octets, size_t size, unsigned wanted, unsigned error) {
    struct octets copy = new_octets(octets, size, 0);
    rpki_status status, written;
    bool clean;
    memset(&written, FILL, sizeof written);
    count_allocations(0);
    status = rpki_crl_error(copy.at, size, &written);
    clean = took_none();
    free(copy.at);
    if (status == RPKI_OK) return clean && wanted == RPKI_OK && untouched(&written, sizeof written);
    if (written != error) printf("error %u, not %u\n", written, error);
    return clean && status == wanted && written == error;
}

/* The status of a search, and what it answers: 0, 1, or FILL where nothing is written. */
static rpki_status search(const uint8_t *octets, size_t size, const uint8_t *serial, unsigned char *answer,
                          bool *clean) {
    struct octets copy = new_octets(octets, size, 0), number = new_octets(serial, 20, 0);
    bool found;
    rpki_status status;
    memset(&found, FILL, sizeof found);
    count_allocations(0);
    status = rpki_crl_contains(copy.at, size, number.at, &found);
    *clean = took_none();
    free(copy.at);
    free(number.at);
    memcpy(answer, &found, 1);
    return status;
}

/* A table of the entries, in memory of exactly so many places, and one before and behind it that stay as they were. */
static rpki_status tabulate(struct rpki_span entries, size_t capacity, struct rpki_serial_number **table, size_t *count,
                            bool *clean) {
    size_t size = (capacity + 2) * sizeof **table;
    struct rpki_serial_number *room = malloc(size);
    rpki_status status;
    if (!room) exit(2);
    memset(room, FILL, size);
    memset(count, FILL, sizeof *count);
    *table = room + 1;
    count_allocations(0);
    status = rpki_serials(entries.data, entries.size, room + 1, capacity, count);
    *clean = took_none();
    *clean = *clean && untouched(room, sizeof *room) && untouched(room + capacity + 1, sizeof *room);
    if (status != RPKI_OK && status != RPKI_TOO_SMALL)
        *clean = *clean && untouched(room, size) && untouched(count, sizeof *count);
    return status;
}

/* What was found, in the words of the row. */
static void tell(const uint8_t *octets, size_t size, const struct rpki_crl_parts *found, char *text) {
    text = tell_span(text, octets, size, found->data);
    text = tell_span(text, octets, size, found->algorithm);
    text = tell_span(text, octets, size, found->signature);
    text = tell_span(text, octets, size, found->issuer);
    text = tell_span(text, octets, size, found->revoked_certs);
    text += sprintf(text, " %lld %lld ", (long long)found->this_update.seconds, (long long)found->next_update.seconds);
    text = tell_octets(text, found->crl_number, 20);
    *text++ = ' ';
    text = tell_octets(text, found->authority_key_identifier, 20);
    sprintf(text, " %u", found->has_parameters);
}

/* Asks for each serial number of the words, and for the numbers beside it, which are not among them. */
static void ask(unsigned line, struct rpki_span entries, const char *words) {
    static const uint8_t negative[20] = {0x80};
    const char *all = words;
    unsigned char answer;
    bool clean, well = true;
    for (; words; words = strchr(words + 1, ' ')) {
        uint8_t number[20];
        char next[41];
        hexadecimal(words + 1, number, sizeof number);
        well = search(entries.data, entries.size, number, &answer, &clean) == RPKI_OK && clean && answer == 1 && well;
        number[0] ^= 0x40;
        tell_octets(next, number, 20);
        if (strstr(all, next)) continue;
        well = search(entries.data, entries.size, number, &answer, &clean) == RPKI_OK && clean && answer == 0 && well;
    }
    judge(line, "a search", well);
    well = search(entries.data, entries.size, negative, &answer, &clean) == RPKI_CONTENT && clean && answer == FILL;
    judge(line, "a search for a number below 0", well);
}

/* Makes a table of the entries, whose serial numbers are the words, and asks it as `ask` asks the list. */
static void look_up(unsigned line, struct rpki_span entries, const char *words) {
    const char *all = words;
    struct rpki_serial_number *table;
    size_t count, at, wanted = 0;
    bool clean, well;
    for (; words; words = strchr(words + 1, ' ')) wanted++;
    if (wanted > 0) {
        well = tabulate(entries, wanted - 1, &table, &count, &clean) == RPKI_TOO_SMALL && count == wanted;
        judge(line, "a table without room", well && clean);
        free(table - 1);
    }
    well = tabulate(entries, wanted + 1, &table, &count, &clean) == RPKI_OK && clean && count == wanted;
    well = well && untouched(table + wanted, sizeof *table);
    for (at = 1; at < wanted; at++) well = memcmp(table[at - 1].octets, table[at].octets, 20) <= 0 && well;
    judge(line, "a table", well);
    for (words = all; words; words = strchr(words + 1, ' ')) {
        uint8_t number[20];
        char next[41];
        hexadecimal(words + 1, number, sizeof number);
        well = rpki_serials_have(table, count, number) && well;
        number[0] ^= 0x40;
        tell_octets(next, number, 20);
        well = (strstr(all, next) || !rpki_serials_have(table, count, number)) && well;
    }
    for (at = 0; at < 2; at++) {
        uint8_t number[20];
        char next[41];
        memset(number, at == 0 ? 0 : 0xFF, sizeof number);
        tell_octets(next, number, 20);
        well = ((all && strstr(all, next)) || !rpki_serials_have(table, count, number)) && well;
    }
    judge(line, "what a table has", well);
    free(table - 1);
}

/* Reads the entries in order, whose serial numbers are the words. */
static void walk(unsigned line, struct rpki_span entries, const char *words) {
    struct rpki_span rest = entries, end;
    struct rpki_revoked_certificate found;
    bool well = true;
    for (; words; words = strchr(words + 1, ' ')) {
        uint8_t number[20];
        count_allocations(0);
        well = rpki_crl_entry(&rest, &found) == RPKI_OK && well;
        well = took_none() && well;
        hexadecimal(words + 1, number, sizeof number);
        well = well && !memcmp(found.serial_number, number, 20) && rest.size < entries.size;
        well = well && (rest.size == 0 || rest.data + rest.size == entries.data + entries.size);
        if (!well) break;
    }
    judge(line, "the entries, one after another", well && rest.size == 0);
    end = rest;
    memset(&found, FILL, sizeof found);
    well = rpki_crl_entry(&rest, &found) == RPKI_TRUNCATED && untouched(&found, sizeof found);
    judge(line, "no entry after the last", well && !memcmp(&rest, &end, sizeof rest));
}

/* Asks the list itself for each serial number of the words, and for the numbers beside it. */
static void ask_list(unsigned line, const uint8_t *octets, size_t size, const char *words) {
    static const uint8_t negative[20] = {0x80};
    const char *all = words;
    bool well = true;
    count_allocations(0);
    for (; words; words = strchr(words + 1, ' ')) {
        uint8_t number[20];
        char next[41];
        hexadecimal(words + 1, number, sizeof number);
        well = rpki_crl_revokes(octets, size, number) == RPKI_REVOKED && well;
        number[0] ^= 0x40;
        tell_octets(next, number, 20);
        if (!strstr(all, next)) well = rpki_crl_revokes(octets, size, number) == RPKI_OK && well;
    }
    well = rpki_crl_revokes(octets, size, negative) == RPKI_CONTENT && well;
    judge(line, "what the list revokes", took_none() && well);
}

/* The words are a status, and what is found or the number of the error. */
static void list(unsigned line, const uint8_t *octets, size_t size, const char *words) {
    static char told[1024];
    static const uint8_t none[20];
    struct rpki_crl_parts out;
    unsigned wanted = (unsigned)strtoul(words, (char **)&words, 10);
    unsigned error = wanted == RPKI_OK ? 0 : (unsigned)strtoul(words, NULL, 10);
    bool clean;
    rpki_status status = read_list(octets, size, &out, &clean);
    const char *numbers;
    judge(line, "allocates, or writes what it refuses", clean);
    judge_status(line, "the status", status, wanted);
    judge(line, "the error", is_wrong(octets, size, wanted, error));
    if (wanted != RPKI_OK) judge_status(line, "no list", rpki_crl_revokes(octets, size, none), wanted);
    if (wanted != RPKI_OK || status != RPKI_OK) return;
    tell(octets, size, &out, told);
    numbers = following(told, words);
    if (!numbers) printf("%s\nnot %s\n", told, words);
    judge(line, "the parts", numbers != NULL);
    if (!numbers) return;
    ask(line, out.revoked_certs, *numbers ? numbers : NULL);
    ask_list(line, octets, size, *numbers ? numbers : NULL);
    look_up(line, out.revoked_certs, *numbers ? numbers : NULL);
    walk(line, out.revoked_certs, *numbers ? numbers : NULL);
}

/* The word is the status of a search in the entries. */
static void entries(unsigned line, const uint8_t *octets, size_t size, const char *word) {
    static const uint8_t number[20] = {0x40};
    unsigned wanted = (unsigned)strtoul(word, NULL, 10);
    unsigned char answer;
    struct rpki_serial_number *table;
    struct rpki_span all;
    size_t count;
    bool clean;
    rpki_status status = search(octets, size, number, &answer, &clean);
    if (status != wanted) printf("status %u, not %u\n", status, wanted);
    judge(line, "entries", status == wanted && clean && answer == (wanted == RPKI_OK ? 0 : FILL));
    all.data = octets, all.size = size;
    status = tabulate(all, size, &table, &count, &clean);
    judge(line, "a table of entries", status == wanted && clean);
    free(table - 1);
}

static void beginnings(const uint8_t *octets, size_t size) {
    struct rpki_crl_parts out;
    size_t count;
    bool clean, well = true;
    for (count = 0; count < size; count++) {
        struct octets copy = new_octets(octets, count, 0);
        well = read_list(copy.at, count, &out, &clean) == RPKI_PART_CERTIFICATE && clean && well;
        well = is_wrong(copy.at, count, RPKI_PART_CERTIFICATE, RPKI_TRUNCATED) && well;
        free(copy.at);
    }
    judge(1, "each beginning", well);
}

static void row(unsigned line, char *text) {
    const char *digits = strchr(text, ' ') + 1, *words = strchr(digits, ' ') + 1;
    struct octets given = octets_spelt(digits);
    if (line == 1) beginnings(given.at, given.size);
    if (!strncmp(text, "list ", 5)) {
        list(line, given.at, given.size, words);
    } else {
        entries(line, given.at, given.size, words);
    }
    free(given.at);
}

int main(int count, char **words) { return judge_rows(count, words, row); }
