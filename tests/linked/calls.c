/*
 * Makes each call of rows.txt and compares what it returns. Where a call is refused, what it would write to has to be
 * as it was. Each row makes others: octets that follow, each beginning, arrays and buffers that are too small, and each
 * allocation refused in turn.
 *
 * usage: calls ROWS
 */
#include "calls.h"
#include "judging.h"
#include "memory.h"
#include "parts.h"

#include <stdio.h>
#include <stdlib.h>
#include <string.h>

static size_t refusals = 0; /* allocations that were refused */

/* How many rows each call has. */
static unsigned rows_of[CALLS];

static void expect(const struct row *row, const char *what, bool well) {
    if (!counted(well)) printf("line %u: %s: %s\n", row->line, row->columns[0], what);
}

/* ---- Statuses ---- */

static const struct {
    const char *name;
    rpki_status status;
} statuses[] = {
    {"OK", RPKI_OK},
    {"TRUNCATED", RPKI_TRUNCATED},
    {"BAD_TAG", RPKI_BAD_TAG},
    {"BAD_LENGTH", RPKI_BAD_LENGTH},
    {"UNEXPECTED", RPKI_UNEXPECTED},
    {"CONTENT", RPKI_CONTENT},
    {"TRAILING", RPKI_TRAILING},
    {"URI_INVALID_CHARACTERS", RPKI_URI_INVALID_CHARACTERS},
    {"URI_BAD_URI", RPKI_URI_BAD_URI},
    {"URI_LONG_URI", RPKI_URI_LONG_URI},
    {"URI_BAD_SCHEME", RPKI_URI_BAD_SCHEME},
    {"URI_DOT_SEGMENTS", RPKI_URI_DOT_SEGMENTS},
    {"URI_EMPTY_SEGMENTS", RPKI_URI_EMPTY_SEGMENTS},
    {"URI_LONG_SEGMENTS", RPKI_URI_LONG_SEGMENTS},
    {"NO_ANSWER", RPKI_NO_ANSWER},
    {"MISSING_COMMON_NAME", RPKI_MISSING_COMMON_NAME},
    {"SECOND_COMMON_NAME", RPKI_SECOND_COMMON_NAME},
    {"SECOND_SERIAL_NUMBER", RPKI_SECOND_SERIAL_NUMBER},
    {"SECOND_ORGANIZATION_NAME", RPKI_SECOND_ORGANIZATION_NAME},
    {"STRING_NOT_PERMITTED", RPKI_STRING_NOT_PERMITTED},
    {"ATTRIBUTE_NOT_PERMITTED", RPKI_ATTRIBUTE_NOT_PERMITTED},
    {"OTHER_ALGORITHM", RPKI_OTHER_ALGORITHM},
};

static int status_of(const char *name) {
    size_t place;
    int second = 0;
    if (!strncmp(name, "SECOND ", 7)) {
        second = RPKI_SECOND;
        name += 7;
    }
    for (place = 0; place < sizeof statuses / sizeof statuses[0]; place++) {
        if (!strcmp(statuses[place].name, name)) return statuses[place].status + second;
    }
    return -1;
}

/* ---- Rows ---- */

/* Makes a call with nothing written before: whether it returns that status, and leaves what it would write. */
static bool is_refused(const struct call *call, const uint8_t *at, size_t size, rpki_status status) {
    struct octets given = new_octets(at, size, 0), out = new_octets(NULL, call->size, FILL);
    bool well = call->make(&given, out.at) == status && untouched(out.at, out.size);
    free(given.at);
    free(out.at);
    return well;
}

/* Whether each of these first octets, and none of them, is TRUNCATED. */
static bool beginnings(const struct call *call, const uint8_t *at, size_t size) {
    while (size > 0) {
        if (!is_refused(call, at, --size, RPKI_TRUNCATED)) return false;
    }
    return true;
}

/* Whether a value at the front is the same with an octet after it. */
static bool followed(const struct call *call, const struct octets *given, const void *expected) {
    static struct shown one, other;
    struct octets more = new_octets(NULL, given->size + 1, 0), out = new_octets(NULL, call->size, FILL);
    bool well;
    one.size = other.size = 0;
    memcpy(more.at, given->at, given->size);
    well = call->make(&more, out.at) == RPKI_OK;
    if (well) {
        call->tell(given, expected, &one);
        call->tell(&more, out.at, &other);
        well = !strcmp(one.text, other.text);
    }
    free(more.at);
    free(out.at);
    return well;
}

/* How many of the octets are the value, or the header, at their front. */
static size_t front_size(const struct call *call, const struct octets *given) {
    struct rpki_header_parts parts;
    struct rpki_walked walked;
    if (!strcmp(call->name, "header")) return rpki_header(given->at, given->size, &parts) == RPKI_OK ? parts.size : 0;
    return rpki_walk(given->at, given->size, &walked) == RPKI_OK ? walked.size : 0;
}

/* Each allocation refused in turn, until a call asks for no more: then it is as ever. */
static bool short_of_memory(const struct call *call, const struct octets *given) {
    size_t refused = 0, asked;
    bool well = true, is_met = true;
    while (well && is_met) {
        struct octets out = new_octets(NULL, call->size, FILL);
        rpki_status status;
        bool all_freed;
        count_allocations(refused);
        status = call->make(given, out.at);
        asked = allocations(&all_freed);
        is_met = asked > refused;
        well = all_freed && status == (is_met ? RPKI_OUT_OF_MEMORY : RPKI_OK);
        well = well && (!is_met || untouched(out.at, out.size)) && (call->takes_memory || asked == 0);
        free(out.at);
        refused++;
    }
    refusals += refused - 1;
    return well;
}

static void judge_others(const struct row *row, const struct call *call, const struct octets *given,
                         const struct octets *out) {
    if (call->kind == WHOLE) {
        struct octets more = new_octets(NULL, given->size + 1, 0);
        memcpy(more.at, given->at, given->size);
        expect(row, "an octet after it is not TRAILING", is_refused(call, more.at, more.size, RPKI_TRAILING));
        free(more.at);
        expect(row, "a beginning is not TRUNCATED", beginnings(call, given->at, given->size));
    }
    if (call->kind == FRONT) {
        size_t size = front_size(call, given);
        expect(row, "an octet after it changes it", followed(call, given, out->at));
        expect(row, "a beginning is not TRUNCATED", size > 0 && beginnings(call, given->at, size));
    }
    expect(row, "an allocation that is refused", short_of_memory(call, given));
    if (call->also) expect(row, "another capacity", call->also(given, out->at));
}

static const struct call *call_of(const char *name) {
    size_t place;
    for (place = 0; place < CALLS; place++) {
        if (!strcmp(calls[place].name, name)) return &calls[place];
    }
    return NULL;
}

/* Both texts as columns: what the row has, and what the call wrote. */
static bool as_expected(const struct row *row, const struct call *call, const struct octets *given, const void *out) {
    static struct shown expected, seen;
    size_t column;
    expected.size = seen.size = 0;
    expected.text[0] = seen.text[0] = 0;
    for (column = call->texts + 2; column < row->count; column++) {
        show(&expected, " | ");
        show_field(&expected, row->columns[column]);
    }
    call->tell(given, out, &seen);
    if (!strcmp(expected.text, seen.text)) return true;
    printf("expected%s\nseen    %s\n", expected.text, seen.text);
    return false;
}

static void judge_row(const struct row *row) {
    const struct call *call = call_of(row->columns[0]);
    struct octets given[2], copies[2], out;
    size_t text;
    int expected, status;
    if (!call || row->count < call->texts + 2) {
        expect(row, "no call", false);
        return;
    }
    rows_of[call - calls]++;
    for (text = 0; text < call->texts; text++) {
        given[text] = octets_of(row->columns[1 + text]);
        copies[text] = new_octets(given[text].at, given[text].size, 0);
    }
    out = new_octets(NULL, call->size, FILL);
    expected = status_of(row->columns[1 + call->texts]);
    status = call->make(given, out.at);
    if (status != expected) printf("status %d, and not %d\n", status, expected);
    expect(row, "another status", status == expected);
    for (text = 0; text < call->texts; text++) {
        expect(row, "its input is changed", !memcmp(given[text].at, copies[text].at, given[text].size));
        free(copies[text].at);
    }
    if (status != RPKI_OK) {
        expect(row, "something is written", untouched(out.at, out.size));
    } else {
        expect(row, "another answer", as_expected(row, call, given, out.at));
        judge_others(row, call, given, &out);
    }
    for (text = 0; text < call->texts; text++) free(given[text].at);
    free(out.at);
}

/* ---- All of them ---- */

static void expect_alone(const char *name, bool well) {
    if (!counted(well)) printf("%s\n", name);
}

int main(int count, char **words) {
    size_t place;
    unsigned rows;
    if (count != 2) {
        fprintf(stderr, "usage: calls ROWS\n");
        return 2;
    }
    rows = for_each_row(words[1], judge_row);
    for (place = 0; place < CALLS; place++) expect_alone(calls[place].name, rows_of[place] > 0);
    expect_alone("no octets by NULL", null_input());
    expect_alone("no room by NULL", null_output());
    expect_alone("no profile", no_profile());
    expect_alone("the version", rpki_version() == RPKI_VERSION && RPKI_VERSION_NUMBER(1, 2, 3) == 0x010203);
    expect_alone("100,001 levels", deep());
    expect_alone("what calls allocate", takes_little());
    expect_alone("object identifiers", identifiers());
    expect_alone("texts of statuses", texts_differ());
    expect_alone("refused allocations", refusals > 0);
    expect_alone("parsed rsync URIs", parsed_rsync_uris());
    expect_alone("parsed https URIs", parsed_https_uris());
    expect_alone("other parts", other_rsync_parts() && other_https_parts());
    expect_alone("what is written", written_values());
    expect_alone("refused allocations of what is written", refused_writing());
    expect_alone("digits", digits());
    expect_alone("times and periods", times_and_periods());
    expect_alone("extensions that are written", written_extensions());
    expect_alone("sizes of what is written, and peaks", sizes());
    printf("%u rows, %zu refused allocations: ", rows, refusals);
    return verdict();
}
