/* The calls on rsync URIs that were parsed before. What is expected is of RFC 5781, worked by hand. */
#include "parsed.h"
#include "parts.h"

#include <stdlib.h>
#include <string.h>

enum { ROOM = 4096 };

/* A URI, another, the path from the second to the first (or NULL), and whether both are the same. */
static const struct {
    const char *uri, *base, *path;
    bool equal;
} PAIRS[] = {
    {"rsync://h/m/", "rsync://h/m/", "", true},         {"rsync://h/m/", "rsync://h/m/a", NULL, false},
    {"rsync://h/m/a", "rsync://h/m/", "a", false},      {"rsync://h/m/a/", "rSYNC://H/m/", "a/", false},
    {"rsync://h/m/a", "rsync://h/m/a/b", NULL, false},  {"rsync://h/m/ab/", "rsync://h/m/a/", NULL, false},
    {"rsync://h/m/a/b", "rsync://h/m/a/", "b", false},  {"rsync://h/m/a/b/", "rsync://h/m/a", "b/", false},
    {"rsync://h/m/a/b/", "rsync://h/m/a/b", "", false}, {"rsync://h/m/a/b", "rsync://h/m/ab", NULL, false},
    {"rsync://h/m/a", "rsync://h/n/", NULL, false},     {"rsync://h/m/a", "rsync://h/M/", NULL, false},
    {"rsync://h/m/a", "rsync://i/m/", NULL, false},     {"rsync://h/m/a", "RSYNC://H/m/a", "", true},
    {"rsync://h/m/a", "rsync://h/m/A", NULL, false},
};

static bool rsync_pair(size_t row) {
    struct parsed u = parsed_of(&RSYNC, PAIRS[row].uri), v = parsed_of(&RSYNC, PAIRS[row].base);
    const char *path = PAIRS[row].path;
    struct rpki_place place = {NOTHING, NOTHING};
    bool equal = !PAIRS[row].equal, parent = path == NULL, identical = path == NULL, well;
    rpki_status status = rpki_rsync_parts_relative_to(u.text.at, u.text.size, &u.parts.rsync, v.text.at, v.text.size,
                                                      &v.parts.rsync, &place);
    well = status == (path ? RPKI_OK : RPKI_NO_ANSWER);
    if (path) {
        well = well && place.start + place.length == u.text.size && place.length == strlen(path) &&
               !memcmp(u.text.at + place.start, path, place.length);
    } else {
        well = well && place.start == NOTHING && place.length == NOTHING;
    }
    well = rpki_rsync_parts_equal(u.text.at, u.text.size, &u.parts.rsync, v.text.at, v.text.size, &v.parts.rsync,
                                  &equal) == RPKI_OK &&
           equal == PAIRS[row].equal && well;
    well = rpki_rsync_parts_is_parent_of(v.text.at, v.text.size, &v.parts.rsync, u.text.at, u.text.size, &u.parts.rsync,
                                         &parent) == RPKI_OK &&
           parent == (path && *path) && well;
    well = rpki_rsync_parts_is_identical_to(u.text.at, u.text.size, &u.parts.rsync, v.text.at, v.text.size,
                                            &v.parts.rsync, &identical) == RPKI_OK &&
           identical == (path && !*path) && well;
    free(u.text.at);
    free(v.text.at);
    return told(well, PAIRS[row].uri, PAIRS[row].base);
}

static const struct alone ALONE[] = {
    {"rSync://hOst/Module/A/b", 22, "rsync://host/Module/A/b", "rSync://hOst/Module/A/b/"},
    {"rsync://host/module/foo/bar/", 24, "rsync://host/module/foo/bar/", "rsync://host/module/foo/bar/"},
    {"rsync://host/module/foo/", 20, "rsync://host/module/foo/", "rsync://host/module/foo/"},
    {"rsync://host/module/foo", 20, "rsync://host/module/foo", "rsync://host/module/foo/"},
    {"rsync://HOST:873/m/", 0, "rsync://host:873/m/", "rsync://HOST:873/m/"},
};

static const struct joining JOININGS[] = {
    {"rsync://host/module/some", "foo/bar", "rsync://host/module/some/foo/bar", RPKI_OK},
    {"rsync://host/module/some/", "foo/", "rsync://host/module/some/foo/", RPKI_OK},
    {"rsync://host/module/", "foo", "rsync://host/module/foo", RPKI_OK},
    {"rsync://host/module/some", "", "rsync://host/module/some", RPKI_OK},
    {"rsync://host/module/", "foo/../bar", NULL, RPKI_URI_DOT_SEGMENTS},
    {"rsync://host/module/", "/bar", NULL, RPKI_URI_EMPTY_SEGMENTS},
    {"rsync://host/module/", "b r", NULL, RPKI_URI_INVALID_CHARACTERS},
};

/* The longest text that is read, with a path, and as a directory that is too long to be read. */
static bool rsync_longest(void) {
    static uint8_t text[ROOM];
    struct parsed uri;
    size_t place;
    bool well;
    memset(text, 'a', sizeof text);
    memcpy(text, "rsync://host/module/", 20);
    for (place = 20 + 255; place < 20 + 11 * 256; place += 256) text[place] = '/';
    uri.text = new_octets(text, 3079, 0);
    uri.path = text_of("a");
    well = rpki_rsync_parse(uri.text.at, uri.text.size, &uri.parts.rsync) == RPKI_OK;
    well = well && refuses(RSYNC.join, &uri, RPKI_URI_LONG_URI);
    text[3079] = '/';
    well = well && stores(RSYNC.into_dir, &uri, text, 3080);
    free(uri.text.at);
    uri.text = new_octets(text, 3080, 0);
    uri.parts.rsync.path.length++;
    well = well && stores(RSYNC.canonical, &uri, text, 3080);
    free(uri.text.at);
    free(uri.path.at);
    return told(well, "rsync", "the longest text");
}

bool parsed_rsync_uris(void) {
    size_t row;
    bool well = rsync_longest();
    for (row = 0; row < LENGTH(PAIRS); row++) well = rsync_pair(row) && well;
    well = all_alone(&RSYNC, ALONE, LENGTH(ALONE)) && well;
    return all_joined(&RSYNC, JOININGS, LENGTH(JOININGS)) && well;
}

/* ---- Places that are none of the text's ---- */

static bool rsync_refused(const struct parsed *uri, const struct parsed *other) {
    const struct octets *u = &uri->text, *v = &other->text;
    struct rpki_place place = {NOTHING, NOTHING};
    bool told_one = true, well;
    well = rpki_rsync_parts_relative_to(u->at, u->size, &uri->parts.rsync, v->at, v->size, &other->parts.rsync,
                                        &place) == RPKI_OTHER_PARTS &&
           place.start == NOTHING && place.length == NOTHING;
    well = rpki_rsync_parts_relative_to(v->at, v->size, &other->parts.rsync, u->at, u->size, &uri->parts.rsync,
                                        &place) == RPKI_OTHER_PARTS &&
           place.start == NOTHING && well;
    well = rpki_rsync_parts_equal(u->at, u->size, &uri->parts.rsync, v->at, v->size, &other->parts.rsync, &told_one) ==
               RPKI_OTHER_PARTS &&
           told_one && well;
    well = rpki_rsync_parts_is_parent_of(v->at, v->size, &other->parts.rsync, u->at, u->size, &uri->parts.rsync,
                                         &told_one) == RPKI_OTHER_PARTS &&
           told_one && well;
    well = rpki_rsync_parts_is_identical_to(u->at, u->size, &uri->parts.rsync, v->at, v->size, &other->parts.rsync,
                                            &told_one) == RPKI_OTHER_PARTS &&
           told_one && well;
    return parts_refused(&RSYNC, uri) && well;
}

/* Parts that are laid out as those of a text, and are not its own: any answer, but none outside of the text. */
static bool rsync_shifted_parts(void) {
    struct parsed uri = parsed_of(&RSYNC, "rsync://host/module/a/b"), other = uri;
    uint8_t out[64];
    size_t module, path, told_one;
    bool well = true, is;
    uri.path = text_of("a");
    for (module = 9; module < uri.text.size; module++) {
        for (path = module + 1; path <= uri.text.size; path++) {
            struct rpki_place place = {0, 0};
            uri.parts.rsync.authority.length = module - 9;
            uri.parts.rsync.module_name.start = module;
            uri.parts.rsync.module_name.length = path - module - 1;
            uri.parts.rsync.path.start = path;
            uri.parts.rsync.path.length = uri.text.size - path;
            well =
                well && rpki_rsync_parts_relative_to(uri.text.at, uri.text.size, &uri.parts.rsync, other.text.at,
                                                     other.text.size, &other.parts.rsync, &place) != RPKI_OTHER_PARTS;
            well = well && place.start + place.length <= uri.text.size;
            well = well && rpki_rsync_parts_equal(uri.text.at, uri.text.size, &uri.parts.rsync, other.text.at,
                                                  other.text.size, &other.parts.rsync, &is) != RPKI_OTHER_PARTS;
            (void)RSYNC.canonical(&uri, out, sizeof out, &told_one);
            (void)RSYNC.into_dir(&uri, out, sizeof out, &told_one);
            well = well && RSYNC.join(&uri, out, sizeof out, &told_one) != RPKI_OTHER_PARTS && told_one <= sizeof out;
            told_one = 0;
            well = well &&
                   rpki_rsync_parts_parent(uri.text.at, uri.text.size, &uri.parts.rsync, &told_one) != RPKI_OTHER_PARTS;
            well = well && told_one <= uri.text.size;
        }
    }
    free(uri.path.at);
    free(other.text.at);
    return told(well, "rsync", "shifted parts");
}

bool other_rsync_parts(void) {
    bool well = other_numbers(&RSYNC, "rsync://host/module/a/b", 6, rsync_refused);
    return rsync_shifted_parts() && well;
}
