/*
 * Reads access descriptions, general names and CRL distribution points, and compares statuses and what is found with
 * those of rows that rows.py writes. What a call refuses leaves `out` as it was. No call allocates.
 *
 * usage: access ROWS
 */
#include "../judging.h"
#include "../memory.h"
#include "../octets.h"
#include "../spans.h"

#include <stdio.h>
#include <stdlib.h>
#include <string.h>

#include "rpki.h"

/* What a call wrote. */
union found {
    struct rpki_access_parts access;
    struct rpki_general_name_parts name;
    struct rpki_span point;
};

static rpki_status read_by(char kind, struct rpki_span *rest, union found *out) {
    switch (kind) {
        case 'a': return rpki_access_description(rest, &out->access);
        case 'n': return rpki_general_name(rest, &out->name);
        default: return rpki_distribution_point(rest->data, rest->size, &out->point);
    }
}

/* What was found, in the words of the row. */
static void tell(char kind, const uint8_t *octets, size_t size, size_t taken, const union found *found, char *text) {
    switch (kind) {
        case 'a':
            text = tell_span(text, octets, size, found->access.id);
            text = tell_span(text, octets, size, found->access.uri);
            sprintf(text, " %zu %u %u", taken, found->access.method, found->access.is_uri);
            return;
        case 'n':
            text = tell_span(text, octets, size, found->name.uri);
            sprintf(text, " %zu %u", taken, found->name.is_uri);
            return;
        default: tell_span(text, octets, size, found->point);
    }
}

static void row(unsigned line, char *text) {
    static char told[256];
    const char *digits = strchr(text, ' ') + 1;
    char *words = strchr(digits, ' ');
    unsigned wanted = (unsigned)strtoul(words, &words, 10);
    struct octets given = octets_spelt(digits);
    struct rpki_span rest = {given.at, given.size};
    union found out;
    rpki_status status;
    memset(&out, FILL, sizeof out);
    count_allocations(0);
    status = read_by(*text, &rest, &out);
    judge(line, "allocates", took_none());
    judge_status(line, "the status", status, wanted);
    if (status != RPKI_OK) {
        judge(line, "writes what it refuses",
              untouched(&out, sizeof out) && rest.data == given.at && rest.size == given.size);
    } else if (wanted == RPKI_OK) {
        judge(line, "the rest",
              rest.size <= given.size && (!rest.size || rest.data + rest.size == given.at + given.size));
        tell(*text, given.at, given.size, given.size - rest.size, &out, told);
        judge_words(line, "the parts", told, words);
    }
    free(given.at);
}

int main(int count, char **words) { return judge_rows(count, words, row); }
