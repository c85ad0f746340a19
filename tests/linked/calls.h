/* The calls of rows.txt: how each takes its octets, what it may write, and how a row tells that. */
#ifndef CALLS_H
#define CALLS_H

#include "rows.h"

#include "rpki.h"

enum { ROOM = 4096, ENTRIES = 64, CALLS = 22 };

/* What a call may write. Big enough for each, and in memory of its own for each call. */
struct joined {
    size_t written;
    uint8_t text[ROOM];
};
struct indexed {
    size_t count;
    struct rpki_entry entries[ENTRIES];
};

/* How a call takes its octets: a value at the front, a value that is all of them, or texts; or none of these. */
enum kind { FRONT, WHOLE, TEXTS, OTHER };

struct call {
    const char *name;
    enum kind kind;
    size_t texts;      /* how many octet strings it takes */
    size_t size;       /* of what it may write */
    bool takes_memory; /* whether it may allocate */
    rpki_status (*make)(const struct octets *given, void *out);
    void (*tell)(const struct octets *given, const void *out, struct shown *shown);
    bool (*also)(const struct octets *given, const void *out);
};

extern const struct call calls[CALLS];

#endif
