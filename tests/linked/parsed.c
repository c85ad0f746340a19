#include "parsed.h"

#include <stdio.h>
#include <stdlib.h>
#include <string.h>

/* The calls of a scheme, as functions of a `struct parsed`. */
#define SCHEME(scheme)                                                                                          \
    static rpki_status scheme##_parse(struct parsed *uri) {                                                     \
        return rpki_##scheme##_parse(uri->text.at, uri->text.size, &uri->parts.scheme);                         \
    }                                                                                                           \
    static rpki_status scheme##_parent(const struct parsed *uri, size_t *length) {                              \
        return rpki_##scheme##_parts_parent(uri->text.at, uri->text.size, &uri->parts.scheme, length);          \
    }                                                                                                           \
    static rpki_status scheme##_canonical(const void *of, uint8_t *out, size_t capacity, size_t *written) {     \
        const struct parsed *uri = of;                                                                          \
        return rpki_##scheme##_parts_canonical(uri->text.at, uri->text.size, &uri->parts.scheme, out, capacity, \
                                               written);                                                        \
    }                                                                                                           \
    static rpki_status scheme##_into_dir(const void *of, uint8_t *out, size_t capacity, size_t *written) {      \
        const struct parsed *uri = of;                                                                          \
        return rpki_##scheme##_parts_into_dir(uri->text.at, uri->text.size, &uri->parts.scheme, out, capacity,  \
                                              written);                                                         \
    }                                                                                                           \
    static rpki_status scheme##_join(const void *of, uint8_t *out, size_t capacity, size_t *written) {          \
        const struct parsed *uri = of;                                                                          \
        return rpki_##scheme##_parts_join(uri->text.at, uri->text.size, &uri->parts.scheme, uri->path.at,       \
                                          uri->path.size, out, capacity, written);                              \
    }

SCHEME(rsync)
SCHEME(https)

const struct scheme RSYNC = {"rsync", rsync_parse, rsync_parent, rsync_canonical, rsync_into_dir, rsync_join};
const struct scheme HTTPS = {"https", https_parse, https_parent, https_canonical, https_into_dir, https_join};

struct parsed parsed_of(const struct scheme *scheme, const char *text) {
    struct parsed uri;
    uri.text = text_of(text);
    uri.path.at = NULL;
    uri.path.size = 0;
    if (scheme->parse(&uri) != RPKI_OK) printf("no URI: %s\n", text);
    return uri;
}

static bool stores_text(store *call, const struct parsed *uri, const char *text) {
    return stores(call, uri, (const uint8_t *)text, strlen(text));
}

static bool is_alone(const struct scheme *scheme, const struct alone *row) {
    struct parsed uri = parsed_of(scheme, row->uri);
    size_t parent = NOTHING;
    rpki_status status = scheme->parent(&uri, &parent);
    bool well =
        row->parent ? status == RPKI_OK && parent == row->parent : status == RPKI_NO_ANSWER && parent == NOTHING;
    well = stores_text(scheme->canonical, &uri, row->canonical) && well;
    well = stores_text(scheme->into_dir, &uri, row->directory) && well;
    free(uri.text.at);
    return told(well, "alone", row->uri);
}

bool all_alone(const struct scheme *scheme, const struct alone *rows, size_t count) {
    bool well = true;
    while (count > 0) well = is_alone(scheme, &rows[--count]) && well;
    return well;
}

static bool is_joined(const struct scheme *scheme, const struct joining *row) {
    struct parsed uri = parsed_of(scheme, row->base);
    bool well;
    uri.path = text_of(row->path);
    well = row->text ? stores_text(scheme->join, &uri, row->text) : refuses(scheme->join, &uri, row->status);
    free(uri.text.at);
    free(uri.path.at);
    return told(well, row->base, row->path);
}

bool all_joined(const struct scheme *scheme, const struct joining *rows, size_t count) {
    bool well = true;
    while (count > 0) well = is_joined(scheme, &rows[--count]) && well;
    return well;
}

bool parts_refused(const struct scheme *scheme, const struct parsed *uri) {
    size_t parent = NOTHING;
    bool well = scheme->parent(uri, &parent) == RPKI_OTHER_PARTS && parent == NOTHING;
    well = refuses(scheme->canonical, uri, RPKI_OTHER_PARTS) && well;
    well = refuses(scheme->into_dir, uri, RPKI_OTHER_PARTS) && well;
    return refuses(scheme->join, uri, RPKI_OTHER_PARTS) && well;
}

bool other_numbers(const struct scheme *scheme, const char *text, size_t numbers,
                   bool (*refused)(const struct parsed *uri, const struct parsed *other)) {
    static const size_t others[] = {0, 1, 7, 9, 4096, SIZE_MAX - 8, SIZE_MAX};
    struct parsed uri = parsed_of(scheme, text), other = uri;
    size_t number, row;
    bool well = true;
    uri.path = text_of("a");
    for (number = 0; number < numbers; number++) {
        for (row = 0; row < LENGTH(others); row++) {
            size_t *changed = (size_t *)&uri.parts + number;
            size_t before = *changed;
            *changed = others[row];
            well = (before == others[row] || refused(&uri, &other)) && well;
            *changed = before;
        }
    }
    free(uri.path.at);
    free(other.text.at);
    return told(well, scheme->name, "other parts");
}
