/* The calls of rows.txt, which read values and URIs. */
#include "calls.h"

#include <inttypes.h>
#include <stdlib.h>
#include <string.h>

static const char *yes(bool is) { return is ? "yes" : "no"; }

static void tell_place(const char *name, const struct octets *given, struct rpki_place place, struct shown *shown) {
    if (place.start > given->size || place.length > given->size - place.start) {
        show(shown, " | %s outside", name);
        return;
    }
    show(shown, " | %s @%zu ", name, place.start);
    show_octets(shown, given->at + place.start, place.length);
}

/* The same of a span. */
static void tell_span(const char *name, const struct octets *given, struct rpki_span span, struct shown *shown) {
    struct rpki_place place = {(size_t)((uintptr_t)span.data - (uintptr_t)given->at), span.size};
    tell_place(name, given, place, shown);
}

static rpki_status header(const struct octets *given, void *out) { return rpki_header(given->at, given->size, out); }

static void tell_header(const struct octets *given, const void *out, struct shown *shown) {
    const struct rpki_header_parts *parts = out;
    (void)given;
    show(shown, " | tag_class %u | constructed %s | number %" PRIu32, parts->tag_class, yes(parts->constructed),
         parts->number);
    show(shown, " | length %" PRIu32 " | size %zu", parts->length, parts->size);
}

static rpki_status walk(const struct octets *given, void *out) { return rpki_walk(given->at, given->size, out); }

static void tell_walked(const struct octets *given, const void *out, struct shown *shown) {
    const struct rpki_walked *walked = out;
    (void)given;
    show(shown, " | headers %" PRIu64 " | size %zu", walked->headers, walked->size);
}

static rpki_status make_index(const struct octets *given, void *out) {
    struct indexed *indexed = out;
    return rpki_index(given->at, given->size, indexed->entries, ENTRIES, &indexed->count);
}

static void tell_index(const struct octets *given, const void *out, struct shown *shown) {
    const struct indexed *indexed = out;
    size_t place;
    (void)given;
    for (place = 0; place < indexed->count && place < ENTRIES; place++) {
        const struct rpki_entry *entry = &indexed->entries[place];
        show(shown, " | entry %zu %zu %zu ", entry->start, entry->contents, entry->end);
        if (entry->parent == RPKI_NO_PARENT) {
            show(shown, "none");
        } else {
            show(shown, "%zu", entry->parent);
        }
        show(shown, " %" PRIu32 " %u %s", entry->number, entry->tag_class, yes(entry->constructed));
    }
}

/* Whether both entries say the same; what is between their members does not count. */
static bool same_entry(const struct rpki_entry *one, const struct rpki_entry *other) {
    return one->start == other->start && one->contents == other->contents && one->end == other->end &&
           one->parent == other->parent && one->number == other->number && one->tag_class == other->tag_class &&
           one->constructed == other->constructed;
}

/* The first child and its next siblings are, in order, the entries that name an entry their parent. */
static bool families_agree(const struct rpki_entry *entries, size_t count) {
    size_t place, other;
    bool well = rpki_first_child(entries, count, count) == RPKI_NO_ENTRY;
    well = well && rpki_next_sibling(entries, count, count) == RPKI_NO_ENTRY;
    for (place = 0; place < count; place++) {
        struct rpki_place contents = rpki_contents(&entries[place]);
        size_t child = rpki_first_child(entries, count, place);
        well = well && contents.start == entries[place].contents;
        well = well && contents.start + contents.length == entries[place].end;
        for (other = 0; other < count; other++) {
            if (entries[other].parent != place) continue;
            well = well && child == other;
            child = rpki_next_sibling(entries, count, other);
        }
        well = well && child == RPKI_NO_ENTRY;
    }
    return well && rpki_next_sibling(entries, count, 0) == RPKI_NO_ENTRY;
}

/* With an array of exactly that many entries, and with each number fewer. */
static bool index_capacities(const struct octets *given, const void *out) {
    const struct indexed *indexed = out;
    size_t size = sizeof(struct rpki_entry), capacity, place;
    bool well = untouched(indexed->entries + indexed->count, (ENTRIES - indexed->count) * size);
    well = well && families_agree(indexed->entries, indexed->count);
    for (capacity = indexed->count + 1; capacity-- > 0;) {
        struct octets room = new_octets(NULL, capacity * size, FILL);
        size_t count = 77;
        struct rpki_entry *entries = (struct rpki_entry *)room.at;
        rpki_status status = rpki_index(given->at, given->size, entries, capacity, &count);
        well = well && count == indexed->count;
        if (capacity < indexed->count) {
            well = well && status == RPKI_TOO_SMALL && untouched(room.at, room.size);
        } else {
            well = well && status == RPKI_OK;
            for (place = 0; place < count; place++) {
                well = well && same_entry(&entries[place], &indexed->entries[place]);
            }
        }
        free(room.at);
    }
    return well;
}

static rpki_status signed_data(const struct octets *given, void *out) {
    return rpki_signed_data(given->at, given->size, out);
}

static void tell_signed(const struct octets *given, const void *out, struct shown *shown) {
    const struct rpki_signed_parts *parts = out;
    tell_span("data", given, parts->data, shown);
    tell_span("algorithm", given, parts->algorithm, shown);
    tell_span("signature", given, parts->signature, shown);
    show(shown, " | unused %u | has_parameters %s", parts->unused, yes(parts->has_parameters));
}

static rpki_status public_key(const struct octets *given, void *out) {
    return rpki_public_key(given->at, given->size, out);
}

static void tell_key(const struct octets *given, const void *out, struct shown *shown) {
    const struct rpki_key_parts *parts = out;
    show(shown, " | format %u | unused %u", parts->format, parts->unused);
    tell_span("bits", given, parts->bits, shown);
}

static rpki_status key_identifier(const struct octets *given, void *out) {
    return rpki_key_identifier(given->at, given->size, out);
}

static void tell_identifier(const struct octets *given, const void *out, struct shown *shown) {
    (void)given;
    show(shown, " | identifier = ");
    show_octets(shown, out, 20);
}

static rpki_status name_rpki(const struct octets *given, void *out) {
    (void)out;
    return rpki_name_inspect(given->at, given->size, RPKI_PROFILE_RPKI, false);
}

static rpki_status name_rpki_strict(const struct octets *given, void *out) {
    (void)out;
    return rpki_name_inspect(given->at, given->size, RPKI_PROFILE_RPKI, true);
}

static rpki_status name_router(const struct octets *given, void *out) {
    (void)out;
    return rpki_name_inspect(given->at, given->size, RPKI_PROFILE_ROUTER, false);
}

static rpki_status name_router_strict(const struct octets *given, void *out) {
    (void)out;
    return rpki_name_inspect(given->at, given->size, RPKI_PROFILE_ROUTER, true);
}

static void tell_nothing(const struct octets *given, const void *out, struct shown *shown) {
    (void)given, (void)out, (void)shown;
}

static rpki_status serial(const struct octets *given, void *out) { return rpki_serial(given->at, given->size, out); }

static void tell_serial(const struct octets *given, const void *out, struct shown *shown) {
    (void)given;
    show(shown, " | serial = ");
    show_octets(shown, out, 20);
}

static rpki_status time_of(const struct octets *given, void *out) { return rpki_time(given->at, given->size, out); }

static void tell_time(const struct octets *given, const void *out, struct shown *shown) {
    const struct rpki_moment *moment = out;
    (void)given;
    show(shown, " | seconds %" PRId64 " | date %" PRId32 " %" PRIu32 " %" PRIu32, moment->seconds, moment->year,
         moment->month, moment->day);
    show(shown, " | clock %" PRIu32 " %" PRIu32 " %" PRIu32, moment->hour, moment->minute, moment->second);
}

static rpki_status validity(const struct octets *given, void *out) {
    return rpki_validity(given->at, given->size, out);
}

static void tell_moment(const char *name, const struct rpki_moment *moment, struct shown *shown) {
    show(shown, " | %s %" PRId64 " %" PRId32 " %" PRIu32 " %" PRIu32, name, moment->seconds, moment->year,
         moment->month, moment->day);
    show(shown, " %" PRIu32 " %" PRIu32 " %" PRIu32, moment->hour, moment->minute, moment->second);
}

static void tell_validity(const struct octets *given, const void *out, struct shown *shown) {
    const struct rpki_period *period = out;
    (void)given;
    tell_moment("not_before", &period->not_before, shown);
    tell_moment("not_after", &period->not_after, shown);
}

static rpki_status extension(const struct octets *given, void *out) {
    return rpki_extension(given->at, given->size, out);
}

static void tell_extension(const struct octets *given, const void *out, struct shown *shown) {
    const struct rpki_extension_parts *parts = out;
    tell_span("id", given, parts->id, shown);
    show(shown, " | critical %s", yes(parts->critical));
    tell_span("octets", given, parts->octets, shown);
}

static rpki_status rsync_parse(const struct octets *given, void *out) {
    return rpki_rsync_parse(given->at, given->size, out);
}

static void tell_rsync(const struct octets *given, const void *out, struct shown *shown) {
    const struct rpki_rsync_parts *parts = out;
    tell_place("authority", given, parts->authority, shown);
    tell_place("module_name", given, parts->module_name, shown);
    tell_place("path", given, parts->path, shown);
}

static rpki_status relative_to(const struct octets *given, void *out) {
    return rpki_rsync_relative_to(given[0].at, given[0].size, given[1].at, given[1].size, out);
}

static void tell_relative(const struct octets *given, const void *out, struct shown *shown) {
    tell_place("path", given, *(const struct rpki_place *)out, shown);
}

static rpki_status join(const struct octets *given, void *out) {
    struct joined *joined = out;
    return rpki_rsync_join(given[0].at, given[0].size, given[1].at, given[1].size, joined->text, ROOM,
                           &joined->written);
}

static void tell_joined(const struct octets *given, const void *out, struct shown *shown) {
    const struct joined *joined = out;
    (void)given;
    show(shown, " | text = ");
    show_octets(shown, joined->text, joined->written < ROOM ? joined->written : ROOM);
}

/* With a buffer of exactly that many octets, and with one fewer. */
static bool join_capacities(const struct octets *given, const void *out) {
    const struct joined *joined = out;
    size_t exact = joined->written, written = 77;
    struct octets room = new_octets(NULL, exact, FILL), small = new_octets(NULL, exact - 1, FILL);
    bool well = untouched(joined->text + exact, ROOM - exact);
    well = well && rpki_rsync_join(given[0].at, given[0].size, given[1].at, given[1].size, small.at, small.size,
                                   &written) == RPKI_TOO_SMALL;
    well = well && written == 77 && untouched(small.at, small.size);
    well = well && rpki_rsync_join(given[0].at, given[0].size, given[1].at, given[1].size, room.at, room.size,
                                   &written) == RPKI_OK;
    well = well && written == exact && !memcmp(room.at, joined->text, exact);
    free(room.at);
    free(small.at);
    return well;
}

static rpki_status parent(const struct octets *given, void *out) {
    return rpki_rsync_parent(given->at, given->size, out);
}

static void tell_parent(const struct octets *given, const void *out, struct shown *shown) {
    const size_t *size = out;
    show(shown, " | text = ");
    show_octets(shown, given->at, *size < given->size ? *size : given->size);
}

static rpki_status https_parse(const struct octets *given, void *out) {
    return rpki_https_parse(given->at, given->size, out);
}

static void tell_https(const struct octets *given, const void *out, struct shown *shown) {
    const struct rpki_https_parts *parts = out;
    tell_place("authority", given, parts->authority, shown);
    tell_place("path", given, parts->path, shown);
}

static rpki_status fault(const struct octets *given, void *out) { return rpki_fault(given->at, given->size, out); }

static void tell_fault(const struct octets *given, const void *out, struct shown *shown) {
    const size_t *at = out;
    (void)given;
    show(shown, " | at %zu", *at);
}

/* The place is inside the octets, and a walk of them is refused. */
static bool fault_is_walked(const struct octets *given, const void *out) {
    struct rpki_walked walked;
    return *(const size_t *)out <= given->size && rpki_walk(given->at, given->size, &walked) != RPKI_OK;
}

static rpki_status oid_text(const struct octets *given, void *out) {
    return rpki_oid_text(given->at, given->size, out, ROOM);
}

static rpki_status text_of(const struct octets *given, void *out) {
    strcpy(out, rpki_status_text((rpki_status)given->at[0]));
    return RPKI_OK;
}

static void tell_text(const struct octets *given, const void *out, struct shown *shown) {
    (void)given;
    show(shown, " | text = ");
    show_octets(shown, out, strlen(out));
}

/* With room for exactly the text and its zero, which 4 times the octets and 3 are, and with each number fewer. */
static bool oid_capacities(const struct octets *given, const void *out) {
    size_t exact = strlen(out) + 1, capacity;
    bool well = exact <= 4 * given->size + 3;
    for (capacity = 0; capacity <= exact; capacity++) {
        struct octets room = new_octets(NULL, capacity, FILL);
        rpki_status status = rpki_oid_text(given->at, given->size, (char *)room.at, capacity);
        well = well && status == (capacity < exact ? RPKI_TOO_SMALL : RPKI_OK);
        well = well && (status != RPKI_OK || !strcmp((char *)room.at, out));
        free(room.at);
    }
    return well;
}

const struct call calls[] = {
    {"header", FRONT, 1, sizeof(struct rpki_header_parts), false, header, tell_header, NULL},
    {"walk", FRONT, 1, sizeof(struct rpki_walked), true, walk, tell_walked, NULL},
    {"index", FRONT, 1, sizeof(struct indexed), true, make_index, tell_index, index_capacities},
    {"signed_data", WHOLE, 1, sizeof(struct rpki_signed_parts), true, signed_data, tell_signed, NULL},
    {"public_key", WHOLE, 1, sizeof(struct rpki_key_parts), true, public_key, tell_key, NULL},
    {"key_identifier", WHOLE, 1, 20, true, key_identifier, tell_identifier, NULL},
    {"name_inspect rpki", WHOLE, 1, 0, false, name_rpki, tell_nothing, NULL},
    {"name_inspect rpki strict", WHOLE, 1, 0, false, name_rpki_strict, tell_nothing, NULL},
    {"name_inspect router", WHOLE, 1, 0, false, name_router, tell_nothing, NULL},
    {"name_inspect router strict", WHOLE, 1, 0, false, name_router_strict, tell_nothing, NULL},
    {"serial", WHOLE, 1, 20, false, serial, tell_serial, NULL},
    {"time", WHOLE, 1, sizeof(struct rpki_moment), false, time_of, tell_time, NULL},
    {"validity", WHOLE, 1, sizeof(struct rpki_period), false, validity, tell_validity, NULL},
    {"extension", WHOLE, 1, sizeof(struct rpki_extension_parts), false, extension, tell_extension, NULL},
    {"rsync_parse", TEXTS, 1, sizeof(struct rpki_rsync_parts), false, rsync_parse, tell_rsync, NULL},
    {"rsync_relative_to", TEXTS, 2, sizeof(struct rpki_place), false, relative_to, tell_relative, NULL},
    {"rsync_join", TEXTS, 2, sizeof(struct joined), false, join, tell_joined, join_capacities},
    {"rsync_parent", TEXTS, 1, sizeof(size_t), false, parent, tell_parent, NULL},
    {"https_parse", TEXTS, 1, sizeof(struct rpki_https_parts), false, https_parse, tell_https, NULL},
    {"oid_text", OTHER, 1, ROOM, false, oid_text, tell_text, oid_capacities},
    {"status_text", OTHER, 1, ROOM, false, text_of, tell_text, NULL},
    {"fault", OTHER, 1, sizeof(size_t), true, fault, tell_fault, fault_is_walked},
};
