/* What include/rpki.h says of "What decides whether something is valid", as a program: each step is one of its recipe,
 * and what the header leaves to the caller is done as its sentences say. It prints what is valid as examples/validate
 * does, whose code it has nothing of, so that tests/validation/walked judges both.
 * usage: recipe LOCATOR FOLDER SECONDS      FOLDER has HOST/MODULE/PATH; SECONDS since 1970 */
#include <arpa/inet.h>
#include <stdio.h>
#include <stdlib.h>
#include <string.h>
#include "rpki.h"

enum { BLOCKS = 4096, PATH = 4096, VISITS = 4096, LINE = 128 };

/* A file of the folder, or a text, that is the program's own. */
struct file {
    uint8_t *octets;
    size_t size;
};

/* Where the blocks of an authority or of an end entity stand. */
struct room {
    struct rpki_ip_block ip[BLOCKS];
    struct rpki_as_block as[BLOCKS];
};

static const char *top;                        /* the folder */
static struct rpki_key_octets visited[VISITS]; /* the keys of the authorities whose manifests are valid */
static size_t visits;

static void *new (size_t size) {
    void *found = calloc(1, size ? size : 1);
    if (found == NULL) exit(3);
    return found;
}

/* Says what is refused, and why. */
static bool refused(const char *what, rpki_status status) {
    fprintf(stderr, "%s: %s (%s) %s\n", what, rpki_status_text(status), rpki_status_name(status),
            rpki_rule_text(status));
    return false;
}

static bool holds(const char *what, rpki_status status) { return status == RPKI_OK || refused(what, status); }

/* The octets of a file; of size 0 where there is none. */
static struct file read_path(const char *path) {
    struct file found = {NULL, 0};
    FILE *file = fopen(path, "rb");
    long size = file != NULL && fseek(file, 0, SEEK_END) == 0 ? ftell(file) : -1;
    if (size >= 0 && size < 1 << 26) {
        found.octets = new ((size_t)size);
        rewind(file);
        found.size = fread(found.octets, 1, (size_t)size, file);
    }
    if (file != NULL) fclose(file);
    return found;
}

/* The file at an rsync URI, whose host has no case (rpki_rsync_parts_canonical). */
static struct file read_uri(struct rpki_span uri) {
    struct file none = {NULL, 0};
    struct rpki_rsync_parts parts;
    uint8_t text[PATH];
    char path[2 * PATH];
    size_t size = 0;
    if (rpki_rsync_parse(uri.data, uri.size, &parts) != RPKI_OK) return none;
    if (rpki_rsync_parts_canonical(uri.data, uri.size, &parts, text, sizeof text, &size) != RPKI_OK) return none;
    if (snprintf(path, sizeof path, "%s/%.*s", top, (int)(size - parts.authority.start),
                 (const char *)text + parts.authority.start) >= (int)sizeof path) {
        return none;
    }
    return read_path(path);
}

/* Whether a name ends so. */
static bool ends(struct rpki_span name, const char *ending) {
    size_t size = strlen(ending);
    return name.size >= size && memcmp(name.data + name.size - size, ending, size) == 0;
}

/* The first rsync URI of this method in the access information of a certificate's subject. */
static bool find_access(struct rpki_span certificate, uint8_t method, struct rpki_span *out) {
    struct rpki_known_extensions known;
    struct rpki_access_parts access;
    struct rpki_rsync_parts parts;
    struct rpki_span rest, all;
    memset(&known, 0, sizeof known);
    memset(&access, 0, sizeof access);
    memset(&all, 0, sizeof all);
    if (!holds("extensions", rpki_certificate_extensions(certificate.data, certificate.size, &known))) return false;
    rest = known.subject_info_access.octets;
    if (!holds("access", rpki_take(&rest, RPKI_SEQUENCE, &all))) return false;
    while (all.size > 0) {
        if (!holds("an access description", rpki_access_description(&all, &access))) return false;
        if (access.method == method && access.is_uri &&
            rpki_rsync_parse(access.uri.data, access.uri.size, &parts) == RPKI_OK) {
            *out = access.uri;
            return true;
        }
    }
    return false;
}

static void print_prefixes(uint32_t number, struct rpki_span rest, uint8_t family) {
    while (rest.size > 0) {
        struct rpki_roa_address_parts prefix;
        char text[INET6_ADDRSTRLEN];
        if (!holds("a prefix", rpki_roa_address(&rest, family, &prefix))) return;
        inet_ntop(family == RPKI_IPV4 ? AF_INET : AF_INET6, prefix.address, text, sizeof text);
        printf("AS%lu,%s/%d,%d\n", (unsigned long)number, text, prefix.length, prefix.max_length);
    }
}

static void print_origins(const struct rpki_authority *whole, struct file file) {
    struct rpki_roa_parts parts;
    memset(&parts, 0, sizeof parts);
    if (!holds("route origins", rpki_authority_origin(whole, file.octets, file.size, false, &parts))) return;
    print_prefixes(parts.as_id, parts.v4, RPKI_IPV4);
    print_prefixes(parts.as_id, parts.v6, RPKI_IPV6);
}

static void print_providers(const struct rpki_authority *whole, struct file file) {
    struct rpki_aspa_parts parts;
    memset(&parts, 0, sizeof parts);
    if (!holds("providers", rpki_authority_providers(whole, file.octets, file.size, false, &parts))) return;
    printf("aspa AS%lu", (unsigned long)parts.customer);
    while (parts.providers.size > 0) {
        uint32_t provider;
        if (!holds("a provider", rpki_aspa_provider(&parts.providers, &provider))) break;
        printf(" AS%lu", (unsigned long)provider);
    }
    printf("\n");
}

static void print_router(const struct rpki_authority *whole, struct file file) {
    struct room *room = new (sizeof *room);
    struct rpki_resources has;
    struct rpki_known_extensions known;
    uint8_t text[LINE];
    size_t block, size = 0;
    memset(&has, 0, sizeof has);
    memset(&known, 0, sizeof known);
    if (holds("a router", rpki_authority_end(whole, file.octets, file.size, RPKI_CERTIFICATE_ROUTER, room->ip, BLOCKS,
                                             room->as, BLOCKS, &has)) &&
        holds("a router", rpki_certificate_extensions(file.octets, file.size, &known)) &&
        holds("a router", rpki_hex(known.subject_key, sizeof known.subject_key, text, sizeof text, &size))) {
        for (block = 0; block < has.as_count; block++) {
            uint64_t number = has.as_blocks[block].low;
            for (; number <= has.as_blocks[block].high; number++) {
                printf("router AS%lu %.*s\n", (unsigned long)number, (int)size, (const char *)text);
            }
        }
    }
    free(room);
}

static void visit(const struct rpki_authority *bare);

/* A certificate that a manifest lists: an authority's, which is visited, or a router's. */
static void take_certificate(const struct rpki_authority *whole, struct file file) {
    struct rpki_authority below;
    struct room *room;
    uint8_t kind = 0;
    if (!holds("a certificate", rpki_certificate_kind(file.octets, file.size, &kind))) return;
    if (kind == RPKI_CERTIFICATE_ROUTER) print_router(whole, file);
    if (kind != RPKI_CERTIFICATE_CA && kind != RPKI_CERTIFICATE_TA) return;
    memset(&below, 0, sizeof below);
    room = new (sizeof *room);
    if (holds("an authority",
              rpki_authority_under(whole, file.octets, file.size, room->ip, BLOCKS, room->as, BLOCKS, &below))) {
        visit(&below);
    }
    free(room);
}

static void take_file(const struct rpki_authority *whole, struct rpki_span name, struct file file) {
    if (ends(name, ".roa")) print_origins(whole, file);
    if (ends(name, ".asa")) print_providers(whole, file);
    if (ends(name, ".cer")) take_certificate(whole, file);
}

/* What lies at an authority's place: all files of its manifest, in the order of the manifest. */
struct point {
    struct file manifest;
    struct file *files;
    size_t count;
    struct rpki_span listed; /* the manifest's entries of the files, before it is valid */
    struct file list;        /* the one file whose name ends in .crl */
};

/* Reads each file that the manifest lists, whose digest it has to have. */
static bool read_files(struct rpki_span folder, struct point *point) {
    struct rpki_span rest = point->listed;
    while (rest.size > 0) {
        struct rpki_manifest_file_parts listed;
        struct file found;
        struct rpki_span uri;
        uint8_t text[PATH];
        memset(&listed, 0, sizeof listed);
        if (!holds("a file of a manifest", rpki_manifest_file(&rest, &listed))) return false;
        uri.data = text;
        if (!holds("the URI of a file", rpki_rsync_join(folder.data, folder.size, listed.name.data, listed.name.size,
                                                        text, sizeof text, &uri.size))) {
            return false;
        }
        found = point->files[point->count++] = read_uri(uri);
        if (!holds("a file", rpki_manifest_file_is(listed.digest, found.octets, found.size))) return false;
        if (ends(listed.name, ".crl")) point->list = found;
    }
    return true;
}

/* Reads what lies there. */
static bool read_point(const struct rpki_authority *bare, struct point *point) {
    struct rpki_span place, folder;
    struct rpki_signed_object_parts object;
    struct rpki_manifest_parts manifest;
    memset(&object, 0, sizeof object);
    memset(&manifest, 0, sizeof manifest);
    if (!find_access(bare->certificate, RPKI_ACCESS_RPKI_MANIFEST, &place)) return false;
    if (!find_access(bare->certificate, RPKI_ACCESS_CA_REPOSITORY, &folder)) return false;
    point->manifest = read_uri(place);
    if (!holds("a manifest", rpki_signed_object(point->manifest.octets, point->manifest.size, false, &object)) ||
        !holds("a manifest", rpki_manifest(object.content.data, object.content.size, &manifest))) {
        return false;
    }
    point->files = new (manifest.count * sizeof *point->files);
    point->listed = manifest.files;
    return read_files(folder, point);
}

/* The authority with its list, and then with its manifest. */
static bool complete(const struct rpki_authority *bare, const struct point *point, struct rpki_authority *whole) {
    struct rpki_span *room = new ((point->count + 1) * sizeof *room);
    struct rpki_authority listed;
    bool well;
    memset(&listed, 0, sizeof listed);
    well = holds("a list", rpki_authority_list(bare, point->list.octets, point->list.size, &listed)) &&
           holds("a manifest", rpki_authority_manifest(&listed, point->manifest.octets, point->manifest.size, false,
                                                       room, point->count, whole));
    free(room);
    return well;
}

/* Visits an authority, where its key wasn't visited. */
static void visit(const struct rpki_authority *bare) {
    struct point point;
    struct rpki_authority whole;
    struct rpki_span rest;
    size_t at;
    memset(&point, 0, sizeof point);
    memset(&whole, 0, sizeof whole);
    for (at = 0; at < visits; at++) {
        if (memcmp(&visited[at], &bare->keys[bare->depth], sizeof *visited) == 0) return;
    }
    if (visits < VISITS && read_point(bare, &point) && complete(bare, &point, &whole)) {
        visited[visits++] = whole.keys[whole.depth];
        at = 0;
        for (rest = whole.files; rest.size > 0; at++) {
            struct rpki_manifest_file_parts listed;
            memset(&listed, 0, sizeof listed);
            if (!holds("a file of a manifest", rpki_manifest_file(&rest, &listed))) break;
            take_file(&whole, listed.name, point.files[at]);
        }
    }
    for (at = 0; at < point.count; at++) free(point.files[at].octets);
    free(point.files);
    free(point.manifest.octets);
}

/* The authority of the trust anchor: that of the first URI of the locator at which one is. */
static bool anchor(struct file locator, const struct rpki_moment *now, struct room *room, struct rpki_authority *out) {
    static uint8_t key[PATH], text[PATH];
    size_t number, key_size = 0, size = 0;
    if (!holds("the locator", rpki_locator_key(locator.octets, locator.size, key, sizeof key, &key_size))) return false;
    for (number = 0; rpki_locator_uri(locator.octets, locator.size, number, text, sizeof text, &size) == RPKI_OK;
         number++) {
        struct rpki_span uri = {text, size};
        struct file found = read_uri(uri);
        if (holds("the trust anchor", rpki_authority_anchor(found.octets, found.size, key, key_size, now, room->ip,
                                                            BLOCKS, room->as, BLOCKS, out))) {
            return true;
        }
        free(found.octets);
    }
    return false;
}

int main(int count, char **words) {
    struct rpki_authority bare;
    struct rpki_moment now;
    struct file locator;
    memset(&bare, 0, sizeof bare);
    if (count != 4) return 2;
    top = words[2];
    locator = read_path(words[1]);
    if (!holds("the moment", rpki_time_of_seconds(strtoll(words[3], NULL, 10), &now))) return 2;
    if (!anchor(locator, &now, new (sizeof(struct room)), &bare)) return 1;
    visit(&bare);
    return 0;
}
