/* Prints the valid route origins, providers and keys of routers of a copied repository; to stderr what isn't, and why.
 * usage: validate LOCATOR FOLDER [SECONDS]      FOLDER has HOST/MODULE/PATH; SECONDS since 1970, where not now */
#include <arpa/inet.h>
#include <stdio.h>
#include <stdlib.h>
#include <string.h>
#include <time.h>
#include <unistd.h>
#include "rpki.h"
#define OF(span) (span).data, (span).size
#define ROOM(depth) ip[depth], MOST_BLOCKS, as[depth], MOST_BLOCKS
enum { MOST_OCTETS = 1 << 28, MOST_BLOCKS = 1 << 12, MOST_FILES = 1 << 16, MOST = RPKI_MOST_STEPS + 2, TEXT = 4096 };
static struct rpki_ip_block ip[MOST][MOST_BLOCKS]; /* of the path, and of what its last authority has issued */
static struct rpki_as_block as[MOST][MOST_BLOCKS];
static struct rpki_span names[MOST_FILES];
static struct rpki_key_octets seen[MOST_FILES];                       /* of the authorities that were visited */
static uint8_t octets[MOST_OCTETS], uri[TEXT], key[TEXT], text[TEXT]; /* files; where one is; the anchor's; to print */
static size_t used, visited, length, key_size;                        /* of octets, seen, uri, key */
static struct rpki_known_extensions known;
static bool ok(rpki_status s) { return !s || fprintf(stderr, "%s: %s\n", (char *)uri, rpki_status_text(s)) < 0; }
static bool ends(const char *ending) { return !strcmp(strrchr((char *)uri, '.'), ending); }
static struct rpki_span read_file(const char *path) {
    struct rpki_span found = {octets + used, 0};
    FILE *file = fopen(path, "rb");
    if (file) used += found.size = fread(octets + used, 1, MOST_OCTETS - used, file), fclose(file);
    return found;
}
static struct rpki_span read_uri(void) { return uri[length] = 0, read_file((char *)uri + 8); } /* behind SCHEME:// */
static void print(const struct rpki_authority *by, struct rpki_span file) {
    struct rpki_roa_parts roa = {0};
    struct rpki_roa_address_parts at;
    struct rpki_aspa_parts aspa = {0};
    struct rpki_resources has = {0};
    uint32_t provider;
    if (ends(".roa") && ok(rpki_authority_origin(by, OF(file), false, &roa)))
        for (int v6 = 0; v6 < 2; v6++)
            while (rpki_roa_address(v6 ? &roa.v6 : &roa.v4, v6 ? RPKI_IPV6 : RPKI_IPV4, &at) == RPKI_OK)
                printf("AS%lu,%s/%d,%d\n", (unsigned long)roa.as_id,
                       inet_ntop(v6 ? AF_INET6 : AF_INET, at.address, (char *)text, TEXT), at.length, at.max_length);
    if (ends(".asa") && ok(rpki_authority_providers(by, OF(file), false, &aspa)))
        for (printf("aspa AS%lu", (unsigned long)aspa.customer); !rpki_aspa_provider(&aspa.providers, &provider);)
            printf(aspa.providers.size > 0 ? " AS%lu" : " AS%lu\n", (unsigned long)provider);
    if (ends(".cer") && ok(rpki_authority_end(by, OF(file), RPKI_CERTIFICATE_ROUTER, ROOM(MOST - 1), &has)) &&
        ok(rpki_hex(known.subject_key, sizeof known.subject_key, text, TEXT, &length)))
        for (size_t block = 0; block < has.as_count; block++)
            for (uint64_t number = has.as_blocks[block].low; number <= has.as_blocks[block].high; number++)
                printf("router AS%lu %.40s\n", (unsigned long)number, (char *)text);
}
static bool place(uint8_t method) { /* puts the first rsync URI of this method that `known` has in `uri` */
    struct rpki_span rest = {0}, all = known.subject_info_access.octets;
    struct rpki_access_parts to = {0};
    struct rpki_rsync_parts at;
    for (bool is = ok(rpki_take(&all, RPKI_SEQUENCE, &rest)); is && rpki_access_description(&rest, &to) == RPKI_OK;)
        if (to.method == method && rpki_rsync_parse(OF(to.uri), &at) == RPKI_OK)
            return ok(rpki_rsync_parts_canonical(OF(to.uri), &at, uri, TEXT - 1, &length));
    return false;
}
static bool visit(const struct rpki_authority *above) { /* once; all files count, or none, where one is not as listed */
    struct rpki_span list = {0}, files, object, found;
    struct rpki_signed_object_parts cms = {0};
    struct rpki_manifest_parts manifest = {0};
    struct rpki_manifest_file_parts file = {0};
    struct rpki_authority by = {0}, below = {0};
    uint8_t folder[TEXT];
    size_t size = 0, i = 0;
    while (i < visited && memcmp(&seen[i], &above->keys[above->depth], sizeof *seen)) i++;
    bool reads = i == visited && i < MOST_FILES && ok(rpki_certificate_extensions(OF(above->certificate), &known));
    if (!reads || !place(RPKI_ACCESS_CA_REPOSITORY) || !memcpy(folder, uri, size = length)) return false;
    object = place(RPKI_ACCESS_RPKI_MANIFEST) ? read_uri() : list;
    reads = ok(rpki_signed_object(OF(object), false, &cms)) && ok(rpki_manifest(OF(cms.content), &manifest));
    if (!reads) return false;
    for (int pass = 0;; pass++) { /* first whether all files are as listed, then what they are */
        for (files = pass ? by.files : manifest.files; files.size > 0;) {
            if (!ok(rpki_manifest_file(&files, &file))) return false;
            if (!ok(rpki_rsync_join(folder, size, OF(file.name), uri, TEXT - 1, &length))) return false;
            found = read_uri();
            if (!ok(rpki_manifest_file_is(file.digest, OF(found)))) return false;
            if (ends(".crl")) list = found;
            if (!pass || (ends(".cer") && !ok(rpki_certificate_extensions(OF(found), &known)))) continue;
            bool is_ca = ends(".cer") && known.is_ca;
            if (!is_ca) print(&by, found);
            if (is_ca && ok(rpki_authority_under(&by, OF(found), ROOM(by.depth + 1), &below))) visit(&below);
        }
        if (pass || !ok(rpki_authority_list(above, OF(list), &below))) return pass;
        if (!ok(rpki_authority_manifest(&below, OF(object), false, names, MOST_FILES, &by))) return false;
        seen[visited++] = by.keys[by.depth];
    }
}
int main(int count, char **words) {
    struct rpki_span locator = read_file(count > 2 ? words[1] : ""), cert;
    struct rpki_moment now;
    struct rpki_authority anchor = {0};
    bool reads = ok(rpki_time_of_seconds(count > 3 ? atoll(words[3]) : time(NULL), &now));
    if (!reads || !ok(rpki_locator_key(OF(locator), key, TEXT, &key_size)) || chdir(words[2])) return 2;
    for (size_t at = 0; ok(rpki_locator_uri(OF(locator), at, uri, TEXT - 1, &length)); at++) {
        cert = read_uri();
        if (ok(rpki_authority_anchor(OF(cert), key, key_size, &now, ROOM(0), &anchor))) return !visit(&anchor);
    }
    return 1;
}
