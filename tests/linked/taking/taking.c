/*
 * Takes values off parts of octets, and compares statuses and where parts are with those of rows that rows.py writes,
 * and of values of universal types with those of the table. What a call refuses leaves all as it was. No call
 * allocates.
 *
 * usage: taking ROWS
 */
#include "../judging.h"
#include "../memory.h"
#include "../octets.h"

#include <stdio.h>
#include <stdlib.h>
#include <string.h>

#include "rpki.h"

static bool is_at(struct rpki_span span, const uint8_t *at, unsigned long long size) {
    return span.size == size && (size == 0 || span.data == at);
}

/*
 * Whether a value that may be left out is taken as it is where the tag is there; else nothing is taken, whatever is
 * there, but for an identifier that is of no tag.
 */
static bool take_optional(struct rpki_span *rest, uint8_t identifier, unsigned is_there, unsigned status) {
    struct rpki_span before = *rest, again = *rest, contents = {NULL, 78}, same = {NULL, 78};
    bool found = is_there == 0, well;
    unsigned seen;
    count_allocations(0);
    seen = rpki_take_optional(rest, identifier, &contents, &found);
    well = took_none();
    if ((identifier & 0xDF) == 0 || (is_there && status != RPKI_OK)) {
        return well && seen == status && is_at(contents, NULL, 78) && found == (is_there == 0);
    }
    if (!is_there) return well && seen == RPKI_OK && !found && contents.size == 0 && rest->size == before.size;
    well = well && seen == RPKI_OK && found && rpki_take(&again, identifier, &same) == RPKI_OK;
    return well && is_at(contents, same.data, same.size) && is_at(*rest, again.data, again.size);
}

/* Whether the value that begins these octets is taken whatever its tag, as it is by its own identifier. */
static bool take_value(struct rpki_span rest, const struct rpki_span *contents, const struct rpki_span *after) {
    struct rpki_span before = rest, found = {NULL, 78}, whole = {NULL, 78};
    struct rpki_header_parts header = {0}, same = {0};
    count_allocations(0);
    return rpki_value(&rest, &header, &found, &whole) == RPKI_OK && took_none() &&
           rpki_header(before.data, before.size, &same) == RPKI_OK && header.size == same.size &&
           header.length == same.length && header.number == same.number && header.tag_class == same.tag_class &&
           header.constructed == same.constructed && is_at(found, contents->data, contents->size) &&
           is_at(whole, before.data, before.size - after->size) && is_at(rest, after->data, after->size);
}

/* Values of universal types, each with an octet after it (X.690 8.2, 8.3, 8.6, 8.19, 11.1, 11.2). `contents` are the
 * octets that are handed out, and `number` is the value of a BOOLEAN, or how many bits are unused. */
static const struct {
    const char *type, *octets;
    unsigned status;
    const char *contents;
    unsigned number;
} values[] = {
    {"boolean", "0101FF", RPKI_OK, "", 1},
    {"boolean", "010100", RPKI_OK, "", 0},
    {"boolean", "010101", RPKI_CONTENT, "", 0},
    {"boolean", "01020000", RPKI_CONTENT, "", 0},
    {"boolean", "0100", RPKI_CONTENT, "", 0},
    {"boolean", "020101", RPKI_UNEXPECTED, "", 0},
    {"boolean", "018101FF", RPKI_BAD_LENGTH, "", 0},
    {"integer", "020100", RPKI_OK, "00", 0},
    {"integer", "02017F", RPKI_OK, "7F", 0},
    {"integer", "02020080", RPKI_OK, "80", 0},
    {"integer", "02030100FF", RPKI_OK, "0100FF", 0},
    {"integer", "020180", RPKI_CONTENT, "", 0},
    {"integer", "0202007F", RPKI_CONTENT, "", 0},
    {"integer", "0200", RPKI_CONTENT, "", 0},
    {"integer", "0101FF", RPKI_UNEXPECTED, "", 0},
    {"bits", "030204F0", RPKI_OK, "F0", 4},
    {"bits", "030100", RPKI_OK, "", 0},
    {"bits", "030204F8", RPKI_CONTENT, "", 0},
    {"bits", "03020800", RPKI_CONTENT, "", 0},
    {"bits", "030101", RPKI_CONTENT, "", 0},
    {"bits", "0300", RPKI_CONTENT, "", 0},
    {"bits", "040100", RPKI_UNEXPECTED, "", 0},
    {"identifier", "06032A8648", RPKI_OK, "2A8648", 0},
    {"identifier", "06022A86", RPKI_CONTENT, "", 0},
    {"identifier", "06062A864886F70D", RPKI_OK, "2A864886F70D", 0},
    {"identifier", "06028001", RPKI_CONTENT, "", 0},
    {"identifier", "0600", RPKI_CONTENT, "", 0},
    {"identifier", "0500", RPKI_UNEXPECTED, "", 0},
    {"any", "BF8105020500", RPKI_OK, "0500", 0},
    {"any", "1F1F00", RPKI_OK, "", 0},
    {"any", "1F1E00", RPKI_BAD_TAG, "", 0},
    {"any", "0000", RPKI_BAD_TAG, "", 0},
    {"any", "02810100", RPKI_BAD_LENGTH, "", 0},
    {"any", "308000", RPKI_BAD_LENGTH, "", 0},
    {"any", "0403AA", RPKI_TRUNCATED, "", 0},
    {"any", "1F", RPKI_TRUNCATED, "", 0},
};

static unsigned take_of_type(const char *type, struct rpki_span *rest, struct rpki_span *contents, unsigned *number) {
    bool is_true = *number != 0;
    uint8_t unused = (uint8_t)*number;
    struct rpki_header_parts header = {0};
    struct rpki_span whole = {NULL, 78};
    unsigned status;
    if (*type == 'a') return rpki_value(rest, &header, contents, &whole);
    if (!strcmp(type, "integer")) return rpki_unsigned(rest, contents);
    if (!strcmp(type, "identifier")) return rpki_object_identifier(rest, contents);
    if (!strcmp(type, "bits")) {
        status = rpki_bit_string(rest, contents, &unused);
        *number = unused;
        return status;
    }
    status = rpki_boolean(rest, &is_true);
    *number = is_true;
    return status;
}

static void take_values(void) {
    for (size_t at = 0; at < sizeof values / sizeof *values; at++) {
        char spelt[64];
        struct octets given, wanted = octets_spelt(values[at].contents);
        struct rpki_span rest, contents = {NULL, 78};
        unsigned number = !values[at].number, seen;
        bool is_boolean = !strcmp(values[at].type, "boolean"), is_bits = !strcmp(values[at].type, "bits");
        snprintf(spelt, sizeof spelt, "%sEE", values[at].octets);
        given = octets_spelt(spelt);
        rest.data = given.at;
        rest.size = given.size;
        if (values[at].status != RPKI_OK && *values[at].type == 'a') rest.size--;
        count_allocations(0);
        seen = take_of_type(values[at].type, &rest, &contents, &number);
        judge(0, "allocates", took_none());
        judge_status(0, values[at].octets, seen, values[at].status);
        if (values[at].status != RPKI_OK) {
            judge(0, "writes what it refuses", rest.data == given.at && contents.size == 78 && number == 1);
        } else {
            judge(0, "what follows", rest.size == 1 && *rest.data == 0xEE);
            judge(0, "the contents",
                  is_boolean || (contents.size == wanted.size &&
                                 (wanted.size == 0 || !memcmp(contents.data, wanted.at, wanted.size))));
            judge(0, "the number", !(is_boolean || is_bits) || number == values[at].number);
        }
        free(given.at);
        free(wanted.at);
    }
}

static void row(unsigned line, char *text) {
    struct octets given = octets_spelt(text);
    unsigned long long start, length, wanted[4] = {0};
    unsigned identifier, is_there, status;
    struct rpki_span rest, contents = {NULL, 78};
    int count = sscanf(strchr(text, ' '), "%u %llu %llu %u %u %llu %llu %llu %llu", &identifier, &start, &length,
                       &is_there, &status, wanted, wanted + 1, wanted + 2, wanted + 3);
    if (count < 5) exit(2);
    rest.data = given.at + start;
    rest.size = (size_t)length;
    count_allocations(0);
    judge(line, "the status", (unsigned)rpki_take(&rest, (uint8_t)identifier, &contents) == status);
    judge(line, "allocates", took_none());
    if (status != RPKI_OK) {
        judge(line, "writes what it refuses", is_at(rest, given.at + start, length) && is_at(contents, NULL, 78));
    } else {
        judge(line, "what follows", count == 9 && is_at(rest, given.at + wanted[0], wanted[1]));
        judge(line, "the contents", is_at(contents, given.at + wanted[2], wanted[3]));
        struct rpki_span all = {given.at + start, (size_t)length};
        judge(line, "whatever its tag", take_value(all, &contents, &rest));
    }
    rest.data = given.at + start;
    rest.size = (size_t)length;
    judge(line, "an optional one",
          take_optional(&rest, (uint8_t)identifier, is_there, status) &&
              is_at(rest, given.at + (is_there && !status ? wanted[0] : start),
                    is_there && !status ? wanted[1] : length));
    free(given.at);
}

int main(int count, char **words) {
    take_values();
    return judge_rows(count, words, row);
}
