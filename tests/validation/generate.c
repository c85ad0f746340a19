/*
 * Makes a repository of the RPKI of any size with libcrypto alone: a trust anchor, N authorities below it, in a tree of
 * the given width, each with a revocation list, a manifest and R route origins. DER is written by hand; keys of
 * authorities are of their own, those of end entities come from a pool.
 *
 * usage: generate FOLDER AUTHORITIES WIDTH ROAS PREFIXES KEYS
 *
 * FOLDER/rpki.example/repo is the rsync module, FOLDER/example.tal the locator. KEYS is a file that keeps the keys.
 * With HOSTS each authority N publishes on a host of its own: FOLDER/hN.example/repo. NUMBER is that of its manifest.
 * With SAME all route origins of an authority are one; the certificate of number ROAOF of each ends in ROAUNTIL.
 * OTHERLIST is an authority whose manifest's certificate names another list. With CAPITALS hosts are spelled with some.
 * HEIRS authorities that publish nothing inherit from the first, which has HELD blocks of one address each beside 10/8;
 * with TRIMMED they list all addresses, and have so much of that as it has (RFC 8360).
 * With OUTSIDE the first route origin of an authority is of a prefix that its certificate doesn't have.
 */
#include <openssl/evp.h>
#include <openssl/pem.h>
#include <openssl/rsa.h>
#include <openssl/sha.h>
#include <openssl/x509.h>
#include <stdarg.h>
#include <stdint.h>
#include <stdio.h>
#include <stdlib.h>
#include <string.h>
#include <sys/stat.h>

#define POOL 64
#define FOREVER "360101000000Z"

struct buf {
    uint8_t *at;
    size_t size;
};

static struct buf raw(const void *at, size_t size) {
    struct buf b = {malloc(size + 1), size};
    memcpy(b.at, at, size);
    return b;
}
static struct buf hexed(const char *hex) {
    struct buf b = {malloc(strlen(hex) / 2 + 1), strlen(hex) / 2};
    for (size_t i = 0; i < b.size; i++) {
        unsigned v;
        sscanf(hex + 2 * i, "%2x", &v);
        b.at[i] = (uint8_t)v;
    }
    return b;
}
/* joins and frees */
static struct buf cat(int n, ...) {
    va_list list;
    struct buf out = {malloc(1), 0};
    va_start(list, n);
    for (int i = 0; i < n; i++) {
        struct buf b = va_arg(list, struct buf);
        out.at = realloc(out.at, out.size + b.size + 1);
        memcpy(out.at + out.size, b.at, b.size);
        out.size += b.size;
        free(b.at);
    }
    va_end(list);
    return out;
}
static struct buf tlv(int tag, struct buf body) {
    uint8_t head[6] = {(uint8_t)tag};
    size_t n = 2;
    if (body.size < 128) head[1] = (uint8_t)body.size;
    else if (body.size < 256) {
        head[1] = 0x81;
        head[2] = (uint8_t)body.size;
        n = 3;
    } else if (body.size < 65536) {
        head[1] = 0x82;
        head[2] = (uint8_t)(body.size >> 8);
        head[3] = (uint8_t)body.size;
        n = 4;
    } else {
        head[1] = 0x83;
        head[2] = (uint8_t)(body.size >> 16);
        head[3] = (uint8_t)(body.size >> 8);
        head[4] = (uint8_t)body.size;
        n = 5;
    }
    return cat(2, raw(head, n), body);
}
static struct buf copy(struct buf b) { return raw(b.at, b.size); }
static struct buf text(int tag, const char *s) { return tlv(tag, raw(s, strlen(s))); }
static struct buf integer(uint64_t v) {
    uint8_t o[9];
    int n = 0;
    for (int i = 7; i >= 0; i--) {
        uint8_t x = (uint8_t)(v >> (8 * i));
        if (n == 0 && x == 0 && i) continue;
        if (n == 0 && x >= 128) o[n++] = 0;
        o[n++] = x;
    }
    return tlv(2, raw(o, (size_t)n));
}
static struct buf seq(struct buf b) { return tlv(0x30, b); }
static struct buf bits(struct buf b) { return tlv(3, cat(2, hexed("00"), b)); }
static struct buf octets(struct buf b) { return tlv(4, b); }

static struct buf sha256rsa(void) { return hexed("300d06092a864886f70d01010b0500"); }

static struct buf sign(EVP_PKEY *key, struct buf data) {
    EVP_MD_CTX *c = EVP_MD_CTX_new();
    size_t n = 256;
    struct buf s = {malloc(256), 256};
    EVP_DigestSignInit(c, NULL, EVP_sha256(), NULL, key);
    if (EVP_DigestSign(c, s.at, &n, data.at, data.size) != 1) abort();
    EVP_MD_CTX_free(c);
    return s;
}

struct key {
    EVP_PKEY *key;
    struct buf spki;
    uint8_t id[20];
};

static struct key keyed(EVP_PKEY *pkey) {
    struct key k = {pkey, {NULL, 0}, {0}};
    uint8_t *der = NULL;
    int n = i2d_PUBKEY(pkey, &der);
    k.spki = raw(der, (size_t)n);
    /* of 2,048 bits: SEQUENCE header 4, algorithm 15, BIT STRING header 4 and unused 1 */
    SHA1(der + 24, (size_t)n - 24, k.id);
    return k;
}

static struct buf extension(const char *oid, int critical, struct buf value) {
    struct buf o = tlv(6, hexed(oid));
    return critical ? seq(cat(3, o, hexed("0101ff"), octets(value))) : seq(cat(2, o, octets(value)));
}
static struct buf name(const char *cn) { return seq(tlv(0x31, seq(cat(2, hexed("0603550403"), text(0x13, cn))))); }
static struct buf access(const char *oid, const char *uri) { return seq(cat(2, tlv(6, hexed(oid)), text(0x86, uri))); }
/* the end of a certificate's period */
static const char *until = FOREVER;
static struct buf period(void) { return seq(cat(2, text(0x17, "260101000000Z"), text(0x17, until))); }

static struct buf prefix(uint32_t address, int length) {
    uint8_t o[5] = {0, (uint8_t)(address >> 24), (uint8_t)(address >> 16), (uint8_t)(address >> 8), (uint8_t)address};
    size_t n = (size_t)(length + 7) / 8;
    o[0] = (uint8_t)(8 * n - (size_t)length);
    return tlv(3, raw(o, n + 1));
}

static uint64_t serials = 1000;

/* whether certificates are of RFC 8360, whose resources are those that their issuer has of them */
static int trimmed;

/* a certificate; issuer NULL: of itself. kind: 0 authority, 1 end entity. ip: the blocks, or empty: all */
static struct buf certificate(const struct key *subject, const char *cn, const struct key *issuer,
                              const char *issuer_cn, int is_authority, struct buf sia, const char *aia, const char *crl,
                              struct buf ip, struct buf as) {
    char ski[64];
    struct buf exts = {malloc(1), 0}, tbs, out;
    (void)ski;
    if (is_authority == 1) exts = cat(2, exts, extension("551d13", 1, hexed("30030101ff")));
    exts = cat(2, exts, extension("551d0e", 0, octets(raw(subject->id, 20))));
    if (issuer != subject) exts = cat(2, exts, extension("551d23", 0, seq(tlv(0x80, raw(issuer->id, 20)))));
    exts = cat(2, exts, extension("551d0f", 1, is_authority == 1 ? hexed("03020106") : hexed("03020780")));
    if (is_authority == 2) exts = cat(2, exts, extension("551d25", 0, hexed("300a06082b0601050507031e")));
    if (issuer != subject) {
        exts = cat(2, exts, extension("551d1f", 0, seq(seq(tlv(0xa0, tlv(0xa0, text(0x86, crl)))))));
        exts = cat(2, exts, extension("2b06010505070101", 0, seq(access("2b06010505073002", aia))));
    }
    if (is_authority != 2) exts = cat(2, exts, extension("2b0601050507010b", 0, seq(sia)));
    exts =
        cat(2, exts,
            extension("551d20", 1, hexed(trimmed ? "300c300a06082b06010505070e03" : "300c300a06082b06010505070e02")));
    if (ip.size) exts = cat(2, exts, extension(trimmed ? "2b0601050507011c" : "2b06010505070107", 1, ip));
    if (as.size) exts = cat(2, exts, extension(trimmed ? "2b0601050507011d" : "2b06010505070108", 1, as));
    tbs = seq(cat(9, hexed("a003020102"), integer(serials++), sha256rsa(), name(issuer_cn), period(), name(cn),
                  copy(subject->spki), raw("", 0), tlv(0xa3, seq(exts))));
    out = sign(issuer->key, tbs);
    return seq(cat(3, tbs, sha256rsa(), bits(out)));
}

static const char *list_from = "260101000000Z", *list_until = FOREVER;
static const char *manifest_from = "20260101000000Z", *manifest_until = "20360101000000Z";

static struct buf list(const struct key *issuer, const char *cn, int revoked) {
    struct buf tbs, s, entries = {malloc(1), 0};
    for (int i = 0; i < revoked; i++) {
        entries = cat(2, entries, seq(cat(2, integer((uint64_t)(i + 1)), text(0x17, "260101000000Z"))));
    }
    entries = revoked ? seq(entries) : entries;
    tbs = seq(cat(7, integer(1), sha256rsa(), name(cn), text(0x17, list_from), text(0x17, list_until), entries,
                  tlv(0xa0, seq(cat(2, extension("551d23", 0, seq(tlv(0x80, raw(issuer->id, 20)))),
                                    extension("551d14", 0, integer(7)))))));
    s = sign(issuer->key, tbs);
    return seq(cat(3, tbs, sha256rsa(), bits(s)));
}

/* signed data of RFC 6488 */
static struct buf object(const char *type, struct buf content, const struct key *ee, struct buf cert) {
    uint8_t digest[32];
    struct buf attributes, set, signature, info;
    SHA256(content.at, content.size, digest);
    attributes = cat(3, seq(cat(2, hexed("06092a864886f70d010903"), tlv(0x31, tlv(6, hexed(type))))),
                     seq(cat(2, hexed("06092a864886f70d010905"), tlv(0x31, text(0x17, "260101000000Z")))),
                     seq(cat(2, hexed("06092a864886f70d010904"), tlv(0x31, octets(raw(digest, 32))))));
    set = tlv(0x31, copy(attributes));
    signature = sign(ee->key, set);
    free(set.at);
    info = seq(cat(6, integer(3), tlv(0x80, raw(ee->id, 20)), hexed("300b0609608648016503040201"),
                   tlv(0xa0, attributes), hexed("300d06092a864886f70d0101010500"), octets(signature)));
    return seq(cat(2, hexed("06092a864886f70d010702"),
                   tlv(0xa0, seq(cat(5, integer(3), tlv(0x31, hexed("300b0609608648016503040201")),
                                     seq(cat(2, tlv(6, hexed(type)), tlv(0xa0, octets(content)))), tlv(0xa0, cert),
                                     tlv(0x31, info))))));
}

static const char *folder;
static size_t files, all;

/* the host of an authority whose folder is dN; and as URIs name it, which URIHOST may spell otherwise */
static void host_of(char *host, size_t size, const char *dir) {
    snprintf(host, size, getenv("HOSTS") ? "h%s.example" : "rpki.example", dir + 1);
}
static void base_of(char *base, size_t size, const char *dir) {
    char host[32];
    host_of(host, sizeof host, dir);
    snprintf(base, size, "rsync://%s/repo", getenv("URIHOST") ? getenv("URIHOST") : host);
}

/* spells the host of a URI with capitals, in one of so many ways, where CAPITALS asks for that */
static void spell(char *uri, int which) {
    if (!getenv("CAPITALS")) return;
    for (char *c = uri + strlen("rsync://"); *c && *c != '/'; c++) {
        if (*c < 'a' || *c > 'z') continue;
        if (which & 1) *c -= 'a' - 'A';
        which >>= 1;
    }
}

static void keep(const char *dir, const char *file, struct buf b) {
    char path[512], host[32];
    FILE *f;
    host_of(host, sizeof host, dir);
    snprintf(path, sizeof path, "%s/%s", folder, host);
    mkdir(path, 0755);
    snprintf(path, sizeof path, "%s/%s/repo", folder, host);
    mkdir(path, 0755);
    snprintf(path, sizeof path, "%s/%s/repo/%s", folder, host, dir);
    mkdir(path, 0755);
    snprintf(path, sizeof path, "%s/%s/repo/%s/%s", folder, host, dir, file);
    f = fopen(path, "wb");
    if (!f) {
        perror(path);
        exit(1);
    }
    fwrite(b.at, 1, b.size, f);
    fclose(f);
    files++;
    all += b.size;
}

static struct buf entry(const char *file, struct buf b) {
    uint8_t digest[32];
    SHA256(b.at, b.size, digest);
    return seq(cat(2, text(0x16, file), bits(raw(digest, 32))));
}

#define MANIFEST "2a864886f70d010910011a"
#define ROA "2a864886f70d0109100118"

static EVP_PKEY *fresh(void) { return EVP_RSA_gen(2048); }

/* A key of a prime of one key and a prime of another: of 64 keys 4,032 others are made at once. For tests alone. */
static EVP_PKEY *crossed(EVP_PKEY *one, EVP_PKEY *other) {
    BIGNUM *p = NULL, *q = NULL, *e = BN_new(), *n = BN_new(), *d = BN_new(), *p1 = BN_new(), *q1 = BN_new();
    BIGNUM *phi = BN_new(), *dp = BN_new(), *dq = BN_new(), *iq = BN_new();
    BN_CTX *c = BN_CTX_new();
    RSA *rsa = RSA_new();
    EVP_PKEY *key = EVP_PKEY_new();
    EVP_PKEY_get_bn_param(one, "rsa-factor1", &p);
    EVP_PKEY_get_bn_param(other, "rsa-factor2", &q);
    BN_set_word(e, 65537);
    BN_mul(n, p, q, c);
    BN_sub(p1, p, BN_value_one());
    BN_sub(q1, q, BN_value_one());
    BN_mul(phi, p1, q1, c);
    BN_mod_inverse(d, e, phi, c);
    BN_mod(dp, d, p1, c);
    BN_mod(dq, d, q1, c);
    BN_mod_inverse(iq, q, p, c);
    RSA_set0_key(rsa, n, e, d);
    RSA_set0_factors(rsa, p, q);
    RSA_set0_crt_params(rsa, dp, dq, iq);
    EVP_PKEY_assign_RSA(key, rsa);
    BN_CTX_free(c);
    return key;
}

int main(int count, char **words) {
    int n, width, roas, prefixes;
    FILE *kept;
    int crossings = getenv("CROSS") ? atoi(getenv("CROSS")) : 0, again = getenv("AGAIN") ? atoi(getenv("AGAIN")) : 0;
    int heirs = getenv("HEIRS") ? atoi(getenv("HEIRS")) : 0, held = getenv("HELD") ? atoi(getenv("HELD")) : 0;
    struct key pool[POOL], *keys;
    struct buf *entries, inherit, everything, none = {NULL, 0};
    uint64_t number = getenv("NUMBER") ? (uint64_t)atoi(getenv("NUMBER")) : 7;
    (void)none;
    if (count != 7) return 2;
    if (getenv("LISTFROM")) list_from = getenv("LISTFROM");
    if (getenv("MANIFESTFROM")) manifest_from = getenv("MANIFESTFROM");
    if (getenv("LISTUNTIL")) list_until = getenv("LISTUNTIL");
    if (getenv("MANIFESTUNTIL")) manifest_until = getenv("MANIFESTUNTIL");
    folder = words[1];
    n = atoi(words[2]) + 1;
    width = atoi(words[3]);
    roas = atoi(words[4]);
    prefixes = atoi(words[5]);
    keys = calloc((size_t)n, sizeof *keys);
    entries = calloc((size_t)n, sizeof *entries);
    kept = fopen(words[6], "r");
    for (int i = 0; i < POOL; i++) {
        EVP_PKEY *k = kept ? PEM_read_PrivateKey(kept, NULL, NULL, NULL) : NULL;
        if (!k) {
            FILE *more = fopen(words[6], "a");
            if (kept) fclose(kept);
            kept = NULL;
            k = fresh();
            PEM_write_PrivateKey(more, k, NULL, NULL, 0, NULL, NULL);
            fclose(more);
        }
        pool[i] = keyed(k);
    }
    if (n > POOL * (POOL - 1)) return 2;
    for (int i = 0; i < n; i++) {
        keys[i] = keyed(crossed(pool[i % POOL].key, pool[(i % POOL + 1 + i / POOL) % POOL].key));
    }
    mkdir(folder, 0755);
    inherit = hexed("301030060402000105003006040200020500");
    everything = seq(cat(2, seq(cat(2, hexed("04020001"), seq(hexed("030100")))),
                         seq(cat(2, hexed("04020002"), seq(hexed("030100"))))));
    /* authority 0 is the trust anchor; the parent of i is (i - 1) / width; the leaves' blocks: /24s of 10/8 and on */
    for (int i = n - 1; i >= 0; i--) {
        int parent = i ? (i - 1) / width : 0;
        char cn[32], pcn[32], dir[32], pdir[32], gdir[32], own[32], up[128], sia1[128], sia2[128], aia[128], crl[128],
            pcrl[128], file[32], base[64], pbase[64], gbase[64];
        struct buf list_octets, listed = {malloc(1), 0}, mft, c, ip;
        uint32_t address = 0x0a000000u + ((uint32_t)i << 8);
        snprintf(cn, sizeof cn, "ca%d", i);
        snprintf(pcn, sizeof pcn, "ca%d", parent);
        snprintf(dir, sizeof dir, "d%d", i);
        snprintf(pdir, sizeof pdir, "d%d", parent);
        snprintf(gdir, sizeof gdir, "d%d", parent ? (parent - 1) / width : 0);
        snprintf(own, sizeof own, "ca%d.cer", i);
        base_of(base, sizeof base, dir);
        base_of(pbase, sizeof pbase, pdir);
        base_of(gbase, sizeof gbase, gdir);
        snprintf(sia1, sizeof sia1, "%s/%s/", base, dir);
        snprintf(sia2, sizeof sia2, "%s/%s/m.mft", base, dir);
        snprintf(crl, sizeof crl, "%s/%s/l.crl", base, dir);
        snprintf(pcrl, sizeof pcrl, "%s/%s/l.crl", pbase, pdir);
        snprintf(aia, sizeof aia, "%s/%s/ca%d.cer", pbase, pdir, i);
        /* where the certificate of the parent is */
        snprintf(up, sizeof up, "%s/%s/ca%d.cer", gbase, gdir, parent);
        /* its own objects */
        for (int r = 0; r < roas && i; r++) {
            struct key *ee = &pool[(i * 7 + r) % POOL];
            char een[32], uri[128];
            struct buf blocks = {malloc(1), 0}, addresses = {malloc(1), 0}, cert, content, o;
            int said = getenv("SAME") ? 0 : r;
            snprintf(een, sizeof een, "ee%d-%d", i, r);
            snprintf(file, sizeof file, "r%d.roa", r);
            snprintf(uri, sizeof uri, "%s/%s/%s", base, dir, file);
            if (prefixes == 1) {
                /* one /28 of the authority's /24 a route origin */
                uint32_t at = address + 16u * (uint32_t)(said % 16);
                blocks = cat(2, blocks, prefix(at, 28));
                if (r == 0 && getenv("OUTSIDE")) at += 16;
                addresses = cat(2, addresses, seq(cat(2, prefix(at, 28), integer(28 + (uint64_t)(said % 4)))));
            } else {
                for (int p = 0; p < prefixes; p++) {
                    uint32_t at = address + 2u * (uint32_t)p;
                    blocks = cat(2, blocks, prefix(at, 32));
                    addresses = cat(2, addresses, seq(prefix(at, 32)));
                }
            }
            {
                char other[160], othercrl[160], otheraia[160];
                snprintf(other, sizeof other, "%s/%s/other.roa", base, dir);
                snprintf(othercrl, sizeof othercrl, "%s/%s/other.crl", base, dir);
                snprintf(otheraia, sizeof otheraia, "%s/%s/other.cer", base, dir);
                if (getenv("ROAOF") && r == atoi(getenv("ROAOF"))) until = getenv("ROAUNTIL");
                cert = certificate(
                    ee, een, &keys[i], cn, 0, access("2b0601050507300b", r == 0 && getenv("BADSIA") ? other : uri),
                    r == 0 && getenv("BADAIA") ? otheraia : aia, r == 0 && getenv("BADCRL") ? othercrl : crl,
                    seq(seq(cat(2, hexed("04020001"), seq(blocks)))), none);
                until = FOREVER;
            }
            content = seq(cat(2, integer(64512 + (uint64_t)(i * 16 + said)),
                              seq(seq(cat(2, hexed("04020001"), seq(addresses))))));
            o = object(ROA, content, ee, cert);
            keep(dir, file, o);
            listed = cat(2, listed, entry(file, o));
            free(o.at);
        }
        if (getenv("ASPA") && i) {
            struct key *ee = &pool[(i * 3 + 1) % POOL];
            char uri[128];
            struct buf cert, o;
            snprintf(uri, sizeof uri, "%s/%s/p.asa", base, dir);
            cert = certificate(ee, "aspa", &keys[i], cn, 0, access("2b0601050507300b", uri), aia, crl, none,
                               seq(tlv(0xa0, seq(integer((uint64_t)i)))));
            o = object(
                "2a864886f70d0109100131",
                seq(cat(3, tlv(0xa0, integer(1)), integer((uint64_t)i), seq(cat(2, integer(64496), integer(64500))))),
                ee, cert);
            keep(dir, "p.asa", o);
            listed = cat(2, listed, entry("p.asa", o));
            free(o.at);
        }
        if (getenv("ROUTER") && i) {
            static struct key point;
            struct buf c;
            if (!point.key) {
                uint8_t *der = NULL;
                int size;
                point.key = EVP_EC_gen("P-256");
                size = i2d_PUBKEY(point.key, &der);
                point.spki = raw(der, (size_t)size);
                SHA1(der + size - 65, 65, point.id);
            }
            int numbers = getenv("ROUTERNUMBERS") ? atoi(getenv("ROUTERNUMBERS")) : 1;
            struct buf asn = integer((uint64_t)i);
            if (numbers > 1) asn = seq(cat(2, asn, integer((uint64_t)(i + numbers - 1))));
            int blocks = getenv("ROUTERBLOCKS") ? atoi(getenv("ROUTERBLOCKS")) : 1;
            for (int j = 1; j < blocks; j++) asn = cat(2, asn, integer((uint64_t)(i + 2 * j)));
            c = certificate(&point, "ROUTER-0000FC00", &keys[i], cn, 2, none, aia, crl, none, seq(tlv(0xa0, seq(asn))));
            keep(dir, "router.cer", c);
            listed = cat(2, listed, entry("router.cer", c));
            free(c.at);
        }
        /* crossed certificates: this authority certifies the first ones too, so that paths run in circles */
        for (int j = 1; j <= crossings && i && j < n; j++) {
            char jcn[32], j1[128], j2[128];
            struct buf x;
            snprintf(jcn, sizeof jcn, "ca%d", j);
            snprintf(gdir, sizeof gdir, "d%d", j);
            base_of(gbase, sizeof gbase, gdir);
            snprintf(j1, sizeof j1, "%s/%s/", gbase, gdir);
            snprintf(j2, sizeof j2, "%s/%s/m.mft", gbase, gdir);
            snprintf(file, sizeof file, "x%d.cer", j);
            x = certificate(&keys[j], jcn, &keys[i], cn, 1,
                            cat(2, access("2b06010505073005", j1),
                                access("2b060105050730"
                                       "0a",
                                       j2)),
                            aia, crl,
                            seq(cat(2, seq(cat(2, hexed("04020001"), seq(prefix(0x0a000000u, 7)))),
                                    seq(cat(2, hexed("04020002"), seq(hexed("03050020010db8")))))),
                            hexed("300ea00c300a3008020100020300ffff"));
            keep(dir, file, x);
            listed = cat(2, listed, entry(file, x));
            free(x.at);
        }
        /* the first authority certifies itself, so many times, each without another one of so many blocks */
        for (int j = 0; i == 1 && j < again; j++) {
            struct key same = keys[i];
            struct buf blocks = prefix(0x0a000000u, 9), x;
            char s1[sizeof sia1], s2[sizeof sia2];
            memcpy(s1, sia1, sizeof s1);
            memcpy(s2, sia2, sizeof s2);
            spell(s1, j + 1);
            spell(s2, j + 1);
            for (int k = 0; k < again; k++) {
                if (k != j) blocks = cat(2, blocks, prefix(0x0a800100u + ((uint32_t)k << 9), 24));
            }
            snprintf(file, sizeof file, "again%d.cer", j);
            trimmed = 1;
            x = certificate(&same, cn, &keys[i], cn, 1,
                            cat(2, access("2b06010505073005", s1),
                                access("2b060105050730"
                                       "0a",
                                       s2)),
                            aia, crl, seq(seq(cat(2, hexed("04020001"), seq(blocks)))), none);
            trimmed = 0;
            keep(dir, file, x);
            listed = cat(2, listed, entry(file, x));
            free(x.at);
        }
        for (int j = 0; i == 1 && j < heirs; j++) {
            char heir[16], s1[128], s2[128];
            struct buf x;
            snprintf(heir, sizeof heir, "heir%d", j);
            snprintf(s1, sizeof s1, "%s/%s/", base, heir);
            snprintf(s2, sizeof s2, "%s/%s/m.mft", base, heir);
            snprintf(file, sizeof file, "%s.cer", heir);
            trimmed = getenv("TRIMMED") != NULL;
            x = certificate(&pool[j % POOL], heir, &keys[i], cn, 1,
                            cat(2, access("2b06010505073005", s1),
                                access("2b060105050730"
                                       "0a",
                                       s2)),
                            aia, crl, trimmed ? copy(everything) : copy(inherit), hexed("3004a0020500"));
            trimmed = 0;
            keep(dir, file, x);
            listed = cat(2, listed, entry(file, x));
            free(x.at);
        }
        /* and the last one, with resources of its own choice */
        if (i == 1 && getenv("STOLEN")) {
            char vcn[32], v1[128], v2[128];
            struct buf x;
            snprintf(vcn, sizeof vcn, "ca%d", n - 1);
            snprintf(gdir, sizeof gdir, "d%d", n - 1);
            base_of(gbase, sizeof gbase, gdir);
            snprintf(v1, sizeof v1, "%s/%s/", gbase, gdir);
            snprintf(v2, sizeof v2, "%s/%s/m.mft", gbase, gdir);
            x = certificate(&keys[n - 1], vcn, &keys[i], cn, 1,
                            cat(2, access("2b06010505073005", v1),
                                access("2b060105050730"
                                       "0a",
                                       v2)),
                            aia, crl, seq(seq(cat(2, hexed("04020001"), seq(prefix(0x0bff0000u, 24))))), none);
            keep(dir, "stolen.cer", x);
            listed = cat(2, listed, entry("stolen.cer", x));
            free(x.at);
        }
        listed = cat(3, listed, entries[i].at ? entries[i] : raw("", 0), raw("", 0));
        if (getenv("LISTOF")) list_until = i == atoi(getenv("LISTOF")) ? getenv("LISTUNTIL") : FOREVER;
        list_octets = list(&keys[i], cn, i ? 3 : 0);
        keep(dir, "l.crl", list_octets);
        listed = cat(2, listed, entry("l.crl", list_octets));
        if (getenv("TWOCRL")) {
            struct buf other = list(&keys[i], cn, 0);
            keep(dir, "k.crl", other);
            listed = cat(2, listed, entry("k.crl", other));
            free(other.at);
        }
        if (getenv("UNKNOWN")) {
            struct buf text = raw("abc", 3);
            keep(dir, "text.xyz", text);
            listed = cat(2, listed, entry("text.xyz", text));
            free(text.at);
        }
        if (getenv("BADROA") && i) {
            struct buf text = raw("abc", 3);
            keep(dir, "bad.roa", text);
            listed = cat(2, listed, entry("bad.roa", text));
            free(text.at);
        }
        if (getenv("BADCER") && i) {
            struct buf text = raw("abc", 3);
            keep(dir, "bad.cer", text);
            listed = cat(2, listed, entry("bad.cer", text));
            free(text.at);
        }
        if (getenv("BADGBR") && i) {
            struct buf text = raw("abc", 3);
            keep(dir, "bad.gbr", text);
            listed = cat(2, listed, entry("bad.gbr", text));
            free(text.at);
        }
        free(list_octets.at);
        {
            struct key *ee = &pool[i % POOL];
            char een[32], stray[160], list[160];
            struct buf cert, content;
            snprintf(een, sizeof een, "m%d", i);
            snprintf(stray, sizeof stray, "%s/%s/gone.cer", base, dir);
            snprintf(list, sizeof list, "%s/%s/%s", base, dir,
                     getenv("OTHERLIST") && i == atoi(getenv("OTHERLIST")) ? "1.crl" : "l.crl");
            spell(list, 5);
            cert = certificate(ee, een, &keys[i], cn, 0, access("2b0601050507300b", sia2),
                               getenv("STRAY") && i == atoi(getenv("STRAY")) ? stray : aia, list, copy(inherit),
                               hexed("3004a0020500"));
            content = seq(cat(5, integer(number), text(0x18, manifest_from), text(0x18, manifest_until),
                              hexed("0609608648016503040201"), seq(listed)));
            mft = object(MANIFEST, content, ee, cert);
            keep(dir, "m.mft", mft);
            free(mft.at);
        }
        if (i == 0) {
            ip = copy(everything);
        } else {
            /* its own /24 and those of all below it: numbers in a tree lie apart, so all of 10/7 */
            struct buf blocks = i == 1 && held ? prefix(0x0a000000u, 8) : prefix(0x0a000000u, 7);
            for (int k = 0; i == 1 && k < held; k++) {
                blocks = cat(2, blocks, prefix(0x0b000001u + 2 * (uint32_t)k, 32));
            }
            ip = seq(cat(2, seq(cat(2, hexed("04020001"), seq(blocks))),
                         seq(cat(2, hexed("04020002"), seq(hexed("03050020010db8"))))));
        }
        c = certificate(&keys[i], cn, &keys[parent], pcn, 1,
                        cat(2, access("2b06010505073005", sia1),
                            access("2b060105050730"
                                   "0a",
                                   sia2)),
                        up, pcrl, ip,
                        i ? hexed("300ea00c300a3008020100020300ffff") : hexed("3010a00e300c300a020100020500ffffffff"));
        if (i) {
            struct buf e = entry(own, c);
            keep(pdir, own, c);
            entries[parent] = entries[parent].at ? cat(2, entries[parent], e) : e;
        } else {
            char path[512];
            FILE *f;
            uint8_t b64[1024];
            keep(dir, own, c);
            snprintf(path, sizeof path, "%s/example.tal", folder);
            f = fopen(path, "w");
            fprintf(f, "%s/d0/ca0.cer\n\n", base);
            EVP_EncodeBlock(b64, keys[0].spki.at, (int)keys[0].spki.size);
            for (size_t k = 0; k < strlen((char *)b64); k += 64) fprintf(f, "%.64s\n", b64 + k);
            fclose(f);
        }
        free(c.at);
    }
    printf("%zu files, %zu octets\n", files, all);
    return 0;
}
