/* The calls on https URIs that were parsed before. What is expected is of RFC 3986, worked by hand. */
#include "parsed.h"
#include "parts.h"

#include <stdlib.h>
#include <string.h>

static const struct alone ALONE[] = {
    {"hTTps://eXample.com/A", 20, "https://example.com/A", "hTTps://eXample.com/A/"},
    {"https://example.com/1/2/", 22, "https://example.com/1/2/", "https://example.com/1/2/"},
    {"https://example.com/", 0, "https://example.com/", "https://example.com/"},
    {"https://example.com", 0, "https://example.com", "https://example.com"},
    {"https:///a//b", 12, "https:///a//b", "https:///a//b/"},
};

static const struct joining JOININGS[] = {
    {"https://example.com", "a", "https://example.com/a", RPKI_OK},
    {"https://", "a", "https:///a", RPKI_OK},
    {"https://example.com", "", "https://example.com/", RPKI_OK},
    {"https://example.com/some", "sub/", "https://example.com/some/sub/", RPKI_OK},
    {"https://example.com/some/", "../", "https://example.com/some/../", RPKI_OK},
    {"https://example.com/", "a b", NULL, RPKI_URI_INVALID_CHARACTERS},
};

/* Whether two URIs are the same or differ. */
static bool https_equal(const char *one, const char *two, bool wanted) {
    struct parsed u = parsed_of(&HTTPS, one), v = parsed_of(&HTTPS, two);
    bool equal = !wanted;
    rpki_status status =
        rpki_https_parts_equal(u.text.at, u.text.size, &u.parts.https, v.text.at, v.text.size, &v.parts.https, &equal);
    free(u.text.at);
    free(v.text.at);
    return told(status == RPKI_OK && equal == wanted, one, two);
}

bool parsed_https_uris(void) {
    size_t row;
    bool well = https_equal("https://example.com/some", "https://example.com/Some", false);
    well = https_equal("https://example.com/", "https://example.com", false) && well;
    well = https_equal("https://example.com/a", "https://example.org/a", false) && well;
    for (row = 0; row < LENGTH(ALONE); row++) {
        well = https_equal(ALONE[row].uri, ALONE[row].canonical, true) && well;
    }
    well = all_alone(&HTTPS, ALONE, LENGTH(ALONE)) && well;
    return all_joined(&HTTPS, JOININGS, LENGTH(JOININGS)) && well;
}

/* ---- Places that are none of the text's ---- */

static bool https_refused(const struct parsed *uri, const struct parsed *other) {
    const struct octets *u = &uri->text;
    bool equal = true, well;
    well = rpki_https_parts_equal(u->at, u->size, &uri->parts.https, u->at, u->size, &other->parts.https, &equal) ==
               RPKI_OTHER_PARTS &&
           equal;
    well = rpki_https_parts_equal(u->at, u->size, &other->parts.https, u->at, u->size, &uri->parts.https, &equal) ==
               RPKI_OTHER_PARTS &&
           equal && well;
    return parts_refused(&HTTPS, uri) && well;
}

bool other_https_parts(void) { return other_numbers(&HTTPS, "https://host/a/b", 4, https_refused); }
