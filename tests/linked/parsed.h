/* URIs that were parsed before, of either scheme, and the rows that both have. */
#ifndef PARSED_H
#define PARSED_H

#include "stores.h"

#define LENGTH(table) (sizeof(table) / sizeof(table)[0])

/* A URI, its parts, and a path that is joined to it. */
struct parsed {
    struct octets text, path;
    union {
        struct rpki_rsync_parts rsync;
        struct rpki_https_parts https;
    } parts;
};

/* The calls of a scheme on a URI that was parsed; those that store octets take a `struct parsed`. */
struct scheme {
    const char *name;
    rpki_status (*parse)(struct parsed *uri);
    rpki_status (*parent)(const struct parsed *uri, size_t *length);
    store *canonical, *into_dir, *join;
};

extern const struct scheme RSYNC, HTTPS;

/* A URI of a text; says so where it is none. */
struct parsed parsed_of(const struct scheme *scheme, const char *text);

/* A URI, its parent's length (or 0), its canonical form, and it as a directory. */
struct alone {
    const char *uri;
    size_t parent;
    const char *canonical, *directory;
};

/* A base, a path, and the text with both joined, or the status where that is NULL. */
struct joining {
    const char *base, *path, *text;
    rpki_status status;
};

/* Whether the calls of the scheme return what each row has. */
bool all_alone(const struct scheme *scheme, const struct alone *rows, size_t count);
bool all_joined(const struct scheme *scheme, const struct joining *rows, size_t count);

/* Whether the calls on the one URI refuse its parts, which are none of its text, and write nothing. */
bool parts_refused(const struct scheme *scheme, const struct parsed *uri);

/*
 * Calls `refused` on a URI of the text, one number of whose parts is another, small or large, and on the URI with its
 * own parts: whether it is true of each of these numbers, of which the parts have so many.
 */
bool other_numbers(const struct scheme *scheme, const char *text, size_t numbers,
                   bool (*refused)(const struct parsed *uri, const struct parsed *other));

#endif
