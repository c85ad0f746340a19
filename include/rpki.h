/*
 * rpki.h: the DER and X.509 layer of the RPKI, for C99 and C++.
 *
 * Each call below is proved: its contract is in crates/rpki_c/src, and docs/PROVED.md lists it. A call reads octets
 * of the caller's, returns a status, and where the status is 0 (RPKI_OK) writes what it found to `out`. Nothing is kept
 * from call to call, nothing has to be freed, and no call writes to its input. Parts of the input are handed out as
 * spans (struct rpki_span), a pointer into it and a size; those of URIs, which are passed in again beside the text, as
 * places (struct rpki_place): where they start, counted from the first octet of the text, and how many octets they
 * have.
 *
 * Where the status is not 0, `out` is left as it was; only `*count` and `*written` of the calls that say so are written
 * with RPKI_TOO_SMALL too, `*at` of rpki_base64_read with RPKI_INVALID_SYMBOL to RPKI_INVALID_PADDING, `*line` of
 * rpki_locator with RPKI_LOCATOR_URI to RPKI_LOCATOR_KEY, and `*error` of rpki_certificate_error and the other calls so
 * named with each status but RPKI_OK.
 *
 * What a call takes of memory it frees before it returns. At the peak rpki_walk, rpki_index, rpki_fault and
 * rpki_signed_data take up to 24 octets for each level of nesting, and 64 more. rpki_signed_data_write and
 * rpki_signed_data_make take that, and once it is freed as many octets as they write. The others that write values take
 * up to two octets for each that they read or write, and 512 more; rpki_base64_read of more than 128 octets takes up to
 * three for each that it reads, and 512 more. rpki_ip_settle, rpki_as_settle, rpki_roa_is_within and the calls on
 * authorities take up to 384 octets for each block and prefix that they read or write, and 1,024 more, but for
 * rpki_authority_list and rpki_authority_manifest; rpki_locator, rpki_locator_uri and rpki_locator_key up to 64 for
 * each octet that they read, and 1,024 more. All others take none (those on names and certificates, the others on
 * resources, rpki_hex, rpki_base64_write, rpki_serial_decimal, those that count times on, and the calls on URIs too),
 * and so never return RPKI_OUT_OF_MEMORY.
 * So bound the size of what strangers send before you hand it in.
 *
 * What the caller owes, which no call can check:
 *  - A pointer and the size after it, as in a span, are octets that may be read, fewer than 2^63, and that nobody
 *    writes to during the call. Only read-only data is needed: they may be in constant memory or in a mapped file. A
 *    pointer and the capacity after it are so many entries or octets that may be written, fewer than 2^63 octets in
 *    all, of one object.
 *  - A pointer may be NULL only where the size or the capacity after it is 0. (The proofs speak of pointers that are
 *    not NULL. With NULL and 0 each compiled call does what it does with another pointer and 0, which is tested.)
 *  - `out`, and each other parameter that is written, is aligned for its type and is inside neither the octets that are
 *    read nor another parameter. It need not be initialised, unless it has spans: then it is zeroed before, or was
 *    filled by a call.
 *    A zeroed struct, which no call has filled, is refused: it has no manifest (rpki_authority, RPKI_NO_MANIFEST; for
 *    rpki_authority_list and _manifest it has no certificate, RPKI_NO_ISSUER), no moment and no period (RPKI_CONTENT),
 *    no places (RPKI_OTHER_PARTS), or no octets (RPKI_TRUNCATED, or the first part). But of what there may be none
 *    there is none: no entries of a list (rpki_crl_contains and rpki_serials return RPKI_OK, rpki_crl_revokes doesn't),
 *    no value that may be missing (rpki_take_optional), no blocks of an issuer, no extension.
 *  - malloc, realloc and free are of one allocator, and align a block to each power of two up to 16 that divides its
 *    size. Calls are not made from a signal handler, or between fork and exec of a process with threads.
 *
 * Calls may be made from several threads at once, on the same octets too. A call takes at most 32,768 octets of stack,
 * which do not grow with the input, however deeply values are nested.
 *
 * Link with librpki.a, or with librpki.so: -lrpki, or what `pkg-config --cflags --libs rpki` says. The library needs
 * malloc, realloc, free, memcpy, memmove and memset alone. Each call of librpki.a is a section of its own: with
 * -Wl,--gc-sections a program holds those that it makes, and no others.
 *
 * The processor is the one that the library was built for, and no call checks it. librpki.a and librpki.so of a package
 * run on every processor of their kind, x86-64 (v1) or aarch64. The library in the folder x86_64-v2 asks for x86-64-v2
 * (SSE4.2, SSSE3, POPCNT); `/lib64/ld-linux-x86-64.so.2 --help` says whether the machine has that. librpki.proof beside
 * an archive names what it was built for: the target, and the processor, as in `cpu=x86-64-v2`, where not every one of
 * the target will do.
 *
 * Versions. A program that was compiled with this header runs with the library of this major number and of this minor
 * number or a later one; below 1.0 with this minor number alone, and librpki.so, whose name and names have that number,
 * is refused by the loader else. Within a major number, below 1.0 a minor one,
 *  - nothing changes of what is here: no call, type or constant goes away or gets another meaning, no call gets another
 *    parameter or a status that is not said of it here, no number of a status or another constant changes, and no
 *    struct gets another size, member, offset or order;
 *  - calls, structs, constants, and statuses of new calls may be added, with the next minor number from 1.0 on;
 *  - which octets a call accepts, and what it writes then, changes only where it was not what the standard says that is
 *    named with it. CHANGELOG.md names each such correction.
 */
#ifndef RPKI_H
#define RPKI_H

#include <stdbool.h>
#include <stddef.h>
#include <stdint.h>

#ifdef __cplusplus
extern "C" {
#endif

/* ---- Version ---- */

/* The version of this header. */
#define RPKI_VERSION_MAJOR 0
#define RPKI_VERSION_MINOR 2
#define RPKI_VERSION_PATCH 0

/* A version in one number; a later version has a larger one. */
#define RPKI_VERSION_NUMBER(major, minor, patch) ((uint32_t)(major)*65536 + (uint32_t)(minor)*256 + (uint32_t)(patch))
#define RPKI_VERSION RPKI_VERSION_NUMBER(RPKI_VERSION_MAJOR, RPKI_VERSION_MINOR, RPKI_VERSION_PATCH)

/* The version of the library that is linked. It is RPKI_VERSION where both are of one release. */
uint32_t rpki_version(void);

/* ---- Statuses ---- */

/* Compilers that know the attributes warn where a status is not looked at, and where a former name is used. */
#if defined(__GNUC__)
#define RPKI_CHECKED __attribute__((warn_unused_result))
#define RPKI_RENAMED \
    __attribute__((warn_unused_result, deprecated("verifies nothing: its name ends in _of_profile now")))
#else
#define RPKI_CHECKED
#define RPKI_RENAMED
#endif

/*
 * What a call returns: RPKI_OK, or the number of what is wrong. It has one octet. Where a compiler has such
 * enumerations it is one, so that another number in its place is an error in C++ and may be told in C; else it is a
 * uint8_t.
 */
#if defined(__cplusplus) && __cplusplus >= 201103L
enum rpki_status : uint8_t {
#elif defined(__GNUC__)
typedef enum __attribute__((packed)) {
#else
enum {
#endif
    RPKI_OK = 0,

    /* Of calls that read DER (X.690). */
    RPKI_TRUNCATED = 1,     /* the octets end before the value does */
    RPKI_BAD_TAG = 2,       /* the identifier octets are not in the shortest form, of a number of 2^28 or more, or of
                               the tag universal 0 (X.690 8.1.2) */
    RPKI_BAD_LENGTH = 3,    /* the length octets are not in the shortest definite form, or announce 2^32 octets or more
                               (X.690 8.1.3, 10.1) */
    RPKI_UNEXPECTED = 4,    /* the value has another tag, or another form */
    RPKI_CONTENT = 5,       /* the contents are not those of the type that is read */
    RPKI_TRAILING = 6,      /* octets follow the value */
    RPKI_OUT_OF_MEMORY = 7, /* malloc or realloc returned NULL */

    /* Of single calls, which name them. */
    RPKI_TOO_SMALL = 9,        /* the caller's array or buffer has no room */
    RPKI_NO_ANSWER = 10,       /* there is nothing to answer: no path leads there, no parent, no fault, no such time,
                                  resources that are not told */
    RPKI_NO_PROFILE = 12,      /* no profile has this number */
    RPKI_OTHER_ALGORITHM = 13, /* an algorithm identifier, but of none of the algorithms that the call reads */
    RPKI_OTHER_PARTS = 14,     /* the places are not laid out as those of the parts of a text of this size: the first
                                  part begins right after the scheme and the slashes, each other one an octet after the
                                  one before, or in an https URI right after it, and the last ends with the text */
    RPKI_TOO_LONG = 15,        /* what is written would have contents of 2^32 octets or more, or numbers have more
                                  octets than a key may have, or an arc more than rpki_oid_text writes */

    /* Of rpki_locator: why the text is no trust anchor locator. */
    RPKI_LOCATOR_URI = 24,    /* a line before the empty one is neither a comment nor such a URI */
    RPKI_LOCATOR_NO_URI = 25, /* no URI follows the comments */
    RPKI_LOCATOR_NO_KEY = 26, /* no empty line follows the URIs */
    RPKI_LOCATOR_TEXT = 27,   /* what follows the empty line is no base 64 */
    RPKI_LOCATOR_KEY = 28,    /* what that stands for is no public key */

    /* Of rpki_base64_read: why the text is not base 64. */
    RPKI_INVALID_SYMBOL = 40,      /* an octet that is no symbol, or padding that is not at the end or too much */
    RPKI_INVALID_LENGTH = 41,      /* no octets have a text of this length */
    RPKI_INVALID_LAST_SYMBOL = 42, /* the last symbol has bits that stand for nothing */
    RPKI_INVALID_PADDING = 43,     /* padding is missing */

    /* Of the calls on authorities, beside 62 and 63. */
    RPKI_TOO_DEEP = 44,       /* the path has RPKI_MOST_STEPS steps already */
    RPKI_NO_LIST = 45,        /* the authority has no revocation list yet: rpki_authority_list gives it one */
    RPKI_SAME_NAMES = 46,     /* a manifest names two of its files alike (RFC 9286 4.2.1) */
    RPKI_OTHER_LIST = 47,     /* a manifest lists another revocation list than the authority's, none, or several */
    RPKI_NO_MANIFEST = 48,    /* the authority has no manifest yet: rpki_authority_manifest gives it one */
    RPKI_OTHER_LIST_URI = 49, /* a manifest's certificate names another list than the manifest (RFC 6487 4.8.6) */

    /* Of rpki_validity_at: why a period doesn't hold at a moment. */
    RPKI_TOO_NEW = 50, /* the period begins after the moment */
    RPKI_TOO_OLD = 51, /* the period ended before the moment */

    /* Of rpki_verify. */
    RPKI_KEY_NOT_ACCEPTED = 52, /* a public key, but none that signatures are verified by */
    RPKI_BAD_SIGNATURE = 53,    /* the signature is not one of the message by the key */

    /* Of the calls that decide, which name them. */
    RPKI_OTHER_DIGEST = 54,    /* the digest by SHA-256 is not the one that is said */
    RPKI_OTHER_TYPE = 55,      /* the type of a content is not the one that is signed (RFC 5652 11.1) */
    RPKI_OTHER_SIGNER = 56,    /* a certificate's subject key identifier is not that of the signer (RFC 6488 3) */
    RPKI_OTHER_KEY = 57,       /* a certificate's subject key identifier is not that of its own key (RFC 6487 4.8.2) */
    RPKI_OTHER_RESOURCES = 58, /* resources that the issuer, or the signer, does not have (RFC 6487 7.2, RFC 9582 5) */
    RPKI_NOT_INHERITED = 59,   /* a manifest's certificate has resources of its own (RFC 9286 5.1) */
    RPKI_OTHER_ANCHOR = 60,    /* a certificate's key is not that of the locator (RFC 8630 3) */
    RPKI_OTHER_KINDS = 61,     /* a signer's certificate lists other kinds of resources than it has to (RFC 9582 5) */
    RPKI_REVOKED = 62,         /* a certificate is on the revocation list of its issuer (RFC 6487 7.2) */
    RPKI_ON_PATH = 63,         /* an authority's key is that of one on its path already, itself among them */

    /* The parts below are tested in the order of their numbers, but where a call says another; a part is also what
       follows a SEQUENCE that is to be all, or the last. So octets after the whole come before all that is inside. */

    /* Of rpki_certificate, and of rpki_crl, which has none of 70, 73 to 75, 77 and 78: the malformed part. */
    RPKI_PART_CERTIFICATE = 64,     /* the SEQUENCE around all: it isn't there, or something follows it */
    RPKI_PART_SIGNED = 65,          /* what is signed is no value, with everything nested in it */
    RPKI_PART_ALGORITHM = 66,       /* the algorithm identifier after it is not that of RSA with SHA-256 */
    RPKI_PART_SIGNATURE = 67,       /* the signature: it is no BIT STRING, has unused bits, or something follows */
    RPKI_PART_TBS = 68,             /* what is signed is no SEQUENCE */
    RPKI_PART_VERSION = 69,         /* the version is not v3, or of a list not v2 */
    RPKI_PART_SERIAL_NUMBER = 70,   /* the serial number is no unsigned INTEGER of at most 20 octets */
    RPKI_PART_TBS_ALGORITHM = 71,   /* the algorithm identifier in what is signed */
    RPKI_PART_ISSUER = 72,          /* the issuer is no name */
    RPKI_PART_VALIDITY = 73,        /* the period of validity */
    RPKI_PART_SUBJECT = 74,         /* the subject is no name */
    RPKI_PART_PUBLIC_KEY = 75,      /* the subject's key */
    RPKI_PART_EXTENSIONS = 76,      /* the extensions: there are none, one is malformed, or something follows; of a
                                       list: they are not exactly the two of RFC 6487 5, neither of them critical */
    RPKI_PART_EXTENSION_COUNT = 77, /* there are more extensions than RPKI_MOST_EXTENSIONS */
    RPKI_PART_EXTENSION_IDENTIFIERS = 78, /* two extensions have the same identifier */
    RPKI_PART_SAME_ALGORITHM = 79,        /* the two algorithm identifiers differ in their parameters */

    /* Of rpki_certificate_extensions: an extension that is there, but malformed, or not as critical as it has to be. */
    RPKI_WRONG_BASIC_CONSTRAINTS = 80,        /* critical; cA is TRUE, and there is no length of paths */
    RPKI_WRONG_SUBJECT_KEY_IDENTIFIER = 81,   /* not critical; twenty octets */
    RPKI_WRONG_AUTHORITY_KEY_IDENTIFIER = 82, /* not critical; twenty octets, and nothing else of the issuer */
    RPKI_WRONG_KEY_USAGE = 83,                /* critical; exactly the bits of one of the two uses */
    RPKI_WRONG_CERTIFICATE_POLICIES = 84,     /* critical; exactly one policy of the RPKI, with one qualifier at most */

    /* Of rpki_certificate_inspect: the rule of the profile that the certificate breaks first. */
    RPKI_RULE_SERIAL_NUMBER = 85,            /* it is positive (RFC 5280 4.1.2.2) */
    RPKI_RULE_CRITICAL_EXTENSIONS = 86,      /* every critical one is known (RFC 5280 4.2) */
    RPKI_RULE_ISSUER = 87,                   /* a name of the RPKI (RFC 6487 4.4) */
    RPKI_RULE_SUBJECT = 88,                  /* a name of the RPKI (RFC 6487 4.5) */
    RPKI_RULE_ROUTER_SUBJECT = 89,           /* a name of a router (RFC 8209 3.1.1) */
    RPKI_RULE_RSA_KEY = 90,                  /* RSA: 2,048 bits, exponent 65537 (RFC 7935 3) */
    RPKI_RULE_ROUTER_KEY = 91,               /* P-256: 65 octets that begin with 04 (RFC 8608 3.1) */
    RPKI_RULE_BASIC_CONSTRAINTS = 92,        /* there, and as 80 has it (RFC 6487 4.8.1) */
    RPKI_RULE_NO_BASIC_CONSTRAINTS = 93,     /* not there (RFC 6487 4.8.1) */
    RPKI_RULE_SUBJECT_KEY_IDENTIFIER = 94,   /* there, and as 81 has it (RFC 6487 4.8.2) */
    RPKI_RULE_AUTHORITY_KEY_IDENTIFIER = 95, /* there, and as 82 has it (RFC 6487 4.8.3) */
    RPKI_RULE_AUTHORITY_USAGE = 96,          /* there, critical: keyCertSign and cRLSign (RFC 6487 4.8.4) */
    RPKI_RULE_END_USAGE = 97,                /* there, critical: digitalSignature (RFC 6487 4.8.4) */
    RPKI_RULE_NO_EXTENDED_KEY_USAGE = 98,    /* not there (RFC 6487 4.8.5) */
    RPKI_RULE_ROUTER_PURPOSE = 99,           /* there, not critical, with id-kp-bgpsec-router */
    RPKI_RULE_REVOCATION_LIST = 100,         /* an rsync URI (RFC 6487 4.8.6) */
    RPKI_RULE_NO_REVOCATION_LIST = 101,      /* no CRL distribution points (RFC 6487 4.8.6) */
    RPKI_RULE_ISSUER_CERTIFICATE = 102,      /* an rsync URI (RFC 6487 4.8.7) */
    RPKI_RULE_NO_ISSUER_CERTIFICATE = 103,   /* no authority information access (RFC 6487 4.8.7) */
    RPKI_RULE_REPOSITORY = 104,              /* an rsync URI (RFC 6487 4.8.8.1) */
    RPKI_RULE_MANIFEST = 105,                /* an rsync URI (RFC 6487 4.8.8.1) */
    RPKI_RULE_SIGNED_OBJECT = 106,           /* an rsync URI (RFC 6487 4.8.8.2) */
    RPKI_RULE_NO_SUBJECT_ACCESS = 107,       /* no subject information access (RFC 8209, RFC 9323) */
    RPKI_RULE_CERTIFICATE_POLICIES = 108,    /* there, and as 84 has it (RFC 6487 4.8.9) */
    RPKI_RULE_RESOURCES = 109,               /* there, each critical (RFC 6487 4.8.10, 4.8.11) */
    RPKI_RULE_ROUTER_NUMBERS = 110,          /* AS numbers, and no addresses (RFC 8209 3.1.3.4) */
    RPKI_RULE_OBJECT_ACCESS = 111,           /* no method but signedObject and rpkiNotify (RFC 6487 4.8.8.2) */
    RPKI_RULE_VALIDITY = 112,                /* ends no earlier than it begins (RFC 5280 4.1.2.5) */
    RPKI_RULE_OWN_AUTHORITY = 113,           /* of a trust anchor: none, or its own (RFC 6487 4.8.3) */
    RPKI_RULE_SELF_ISSUED = 114,             /* the issuer of a trust anchor is its subject (RFC 8630 2.3) */
    RPKI_RULE_RESOURCE_VERSION = 115,        /* policy and resources of one version (RFC 8360 4.2) */
    RPKI_RULE_RESOURCE_BLOCKS = 116,         /* in canonical form (RFC 3779, RFC 6487 4.8.10, 4.8.11) */
    RPKI_RULE_OWN_RESOURCES = 117,           /* none of the issuer's (RFC 8630 2.3, RFC 8209 3.1.3.5) */
    RPKI_RULE_MANIFEST_PLACE = 118,          /* the manifest lies below the repository (RFC 6487 4.8.8.1, RFC 9286 2) */
    RPKI_RULE_NOTIFICATIONS = 119,           /* told by https URIs alone (RFC 8182 3.2) */
    RPKI_RULE_ISSUER_SIZE = 156,             /* each value a string of 1 to 64 characters (RFC 5280 A.1) */
    RPKI_RULE_SUBJECT_SIZE = 157,            /* each value a string of 1 to 64 characters (RFC 5280 A.1) */
    RPKI_RULE_ROUTER_SERIAL_NUMBER = 158,    /* in a router's name a PrintableString (RFC 8209 3.1.1) */

    /* Of rpki_crl alone: the malformed part. */
    RPKI_PART_THIS_UPDATE = 120, /* when the list was issued */
    RPKI_PART_NEXT_UPDATE = 121, /* when the next list is issued at the latest */
    RPKI_PART_REVOKED_CERTS =
        122, /* the certificates that are revoked: one is no serial number and time, and no more */

    /* Of rpki_signed_object, beside those of rpki_certificate: the malformed part. */
    RPKI_PART_OBJECT = 123,              /* the SEQUENCE around all: it isn't there, or something follows it */
    RPKI_PART_OBJECT_TYPE = 124,         /* the type is not id-signedData */
    RPKI_PART_SIGNED_DATA = 125,         /* the tag and the SEQUENCE of signed data, or something follows it */
    RPKI_PART_OBJECT_VERSION = 126,      /* the version of the signed data is not 3 */
    RPKI_PART_DIGEST_ALGORITHMS = 127,   /* they are not SHA-256 alone */
    RPKI_PART_CONTENT = 128,             /* the content and its type: not there, or something follows them */
    RPKI_PART_CERTIFICATES = 129,        /* the set of the certificate; what it contains has statuses from 64 to 79 */
    RPKI_PART_SIGNERS = 130,             /* the set of the signer: revocation lists are there, or something follows */
    RPKI_PART_SIGNER = 131,              /* the signer is no SEQUENCE, or another follows it */
    RPKI_PART_SIGNER_VERSION = 132,      /* the version of the signer is not 3 */
    RPKI_PART_SIGNER_IDENTIFIER = 133,   /* the signer has no key identifier of twenty octets */
    RPKI_PART_SIGNER_DIGEST = 134,       /* the signer's digest algorithm is not SHA-256 */
    RPKI_PART_SIGNED_ATTRIBUTES = 135,   /* the signed attributes are others than those of RFC 6488 2.1.6.4 */
    RPKI_PART_SIGNATURE_ALGORITHM = 136, /* not that of RSA, or of RSA with SHA-256 (RFC 7935 2) */
    RPKI_PART_OBJECT_SIGNATURE = 137,    /* no OCTET STRING, or something follows: unsigned attributes may not */

    /* Of rpki_manifest: the malformed part. */
    RPKI_PART_MANIFEST = 138,             /* the SEQUENCE around all: it isn't there, or something follows it */
    RPKI_PART_MANIFEST_NUMBER = 139,      /* the number is no unsigned INTEGER of at most 20 octets, or a version is */
    RPKI_PART_MANIFEST_THIS_UPDATE = 140, /* when the manifest was issued: no GeneralizedTime */
    RPKI_PART_MANIFEST_NEXT_UPDATE = 141, /* when the next manifest is issued at the latest: likewise */
    RPKI_PART_HASH_ALGORITHM = 142,       /* the algorithm of the digests is not SHA-256 */
    RPKI_PART_FILE_LIST = 143,            /* the files: one is no name and digest, and no more; or something follows */
    RPKI_PART_UPDATE_ORDER = 144,         /* the next update is not after this update */

    /* Of rpki_roa: the malformed part. */
    RPKI_PART_ROA = 145,            /* the SEQUENCE around all: it isn't there, or something follows it */
    RPKI_PART_AS_ID = 146,          /* the AS number is no INTEGER below 2^32, or a version is there */
    RPKI_PART_ADDRESS_BLOCKS = 147, /* the prefixes: a family, a prefix, or something that follows them */

    /* Of rpki_aspa: the malformed part. */
    RPKI_PART_ASPA = 148,         /* the SEQUENCE around all: it isn't there, or something follows it */
    RPKI_PART_ASPA_VERSION = 149, /* the version is not 1 */
    RPKI_PART_CUSTOMER = 150,     /* the customer is no INTEGER below 2^32 */
    RPKI_PART_PROVIDERS = 151,    /* the providers: none, one is no such INTEGER, not above the one before it, or the
                                     customer; or something follows them */

    /* Of rpki_checklist: the malformed part. */
    RPKI_PART_CHECKLIST = 184,           /* the SEQUENCE around all: it isn't there, or something follows it */
    RPKI_PART_CHECKLIST_VERSION = 185,   /* a version is there: 0 is left out */
    RPKI_PART_CHECKLIST_RESOURCES = 186, /* the SEQUENCE of resources: it isn't there, or none are in it */
    RPKI_PART_CHECKLIST_ALGORITHM = 187, /* the algorithm of the digests is not SHA-256 */
    RPKI_PART_CHECKLIST_FILES = 188,     /* the files: none, one is no name and digest; or something follows them */

    /* Of rpki_tak: the malformed part. */
    RPKI_PART_TAK = 192,             /* the SEQUENCE around all: it isn't there, or something follows it or its keys */
    RPKI_PART_TAK_VERSION = 193,     /* a version is there: 0 is left out */
    RPKI_PART_TAK_CURRENT = 194,     /* the current key: its comments, its URIs, none of them, or the key itself */
    RPKI_PART_TAK_PREDECESSOR = 195, /* the key that was current before, likewise */
    RPKI_PART_TAK_SUCCESSOR = 196,   /* the key that will be current, likewise */

    /* Of rpki_certificate_issued_by: why the certificate was not issued by the other. */
    RPKI_NO_ISSUER = 152,       /* the other is no certificate: rpki_certificate says why */
    RPKI_OTHER_ISSUER = 153,    /* its issuer has another name than the other's subject */
    RPKI_OTHER_AUTHORITY = 154, /* it has no authority key identifier, or not that of the other's key */

    /* Of calls that read URIs: the first of these that is broken, in the order 160, 163, 162, then 164 to 166 from the
       left, then 161. Of a path that is joined to a URI: 160, 162 of the path alone, then 164 to 166 from the left, and
       last 162 of the text that joining gives. */
    RPKI_URI_INVALID_CHARACTERS = 160, /* a character that a URI may not have */
    RPKI_URI_BAD_URI = 161,            /* no authority, no module, or no slash after the module, in an rsync URI; an
                                          authority of 256 octets or more in an https URI */
    RPKI_URI_LONG_URI = 162,           /* 3,072 octets or more after the scheme and the slashes of an rsync URI; as many
                                          in a path that is joined, or in all of the text that joining gives */
    RPKI_URI_BAD_SCHEME = 163,     /* the text does not begin with the scheme that is read, a colon and two slashes */
    RPKI_URI_DOT_SEGMENTS = 164,   /* a segment is `.` or `..` (here and below, the authority and the module of an
                                      rsync URI count as segments) */
    RPKI_URI_EMPTY_SEGMENTS = 165, /* a segment that is not the last is empty */
    RPKI_URI_LONG_SEGMENTS = 166,  /* a segment has 256 octets or more */

    /* Calls on two texts, or on two contents, add this to the number of what is wrong with the second: 17 to 22 and
       176 to 182 are such sums. */
    RPKI_SECOND = 16,

    /* Of rpki_name_inspect: the rule of the profile that the name breaks first, from the left. */
    RPKI_MISSING_COMMON_NAME = 32,      /* no attribute is a common name, and no other rule is broken */
    RPKI_SECOND_COMMON_NAME = 33,       /* a second common name */
    RPKI_SECOND_SERIAL_NUMBER = 34,     /* a second serial number */
    RPKI_SECOND_ORGANIZATION_NAME = 35, /* a second organization name */
    RPKI_STRING_NOT_PERMITTED = 36,     /* a value that is no string of the profile, or one of another type */
    RPKI_ATTRIBUTE_NOT_PERMITTED = 37   /* an attribute that is none of these three */
#if defined(__cplusplus) && __cplusplus >= 201103L
};
#elif defined(__GNUC__)
} rpki_status;
#else
};
typedef uint8_t rpki_status;
#endif

/* ---- Structs ---- */

/*
 * A part of the octets that were passed: data[0] to data[size - 1], all of them inside. It lasts as long as those
 * octets do. Where `size` is 0, `data` is not to be read, and may point elsewhere.
 *
 * A call with a parameter `rest` takes the value at the front of that span: `rest` becomes what follows the value,
 * which is not looked at. Where the status is not RPKI_OK it stays. So all entries of a list are read by
 *
 *     for (rest = manifest.files; rest.size > 0;) {
 *         if (rpki_manifest_file(&rest, &file) != RPKI_OK) ...
 *     }
 */
struct rpki_span {
    const uint8_t *data;
    size_t size;
};

/* A part of the text or of the octets that were passed: text[start] to text[start + length - 1], all of them inside. */
struct rpki_place {
    size_t start;
    size_t length;
};

/* Classes of tags (X.690 8.1.2.2). */
enum { RPKI_UNIVERSAL = 0, RPKI_APPLICATION = 1, RPKI_CONTEXT = 2, RPKI_PRIVATE = 3 };

/* Identifier octets, as rpki_take wants them (X.690 8.1.2, 8.2 and on); the number of a context-specific tag is added.
 */
enum {
    RPKI_BOOLEAN = 0x01,
    RPKI_INTEGER = 0x02,
    RPKI_BIT_STRING = 0x03,
    RPKI_OCTET_STRING = 0x04,
    RPKI_NULL = 0x05,
    RPKI_OBJECT_IDENTIFIER = 0x06,
    RPKI_UTF8_STRING = 0x0C,
    RPKI_PRINTABLE_STRING = 0x13,
    RPKI_IA5_STRING = 0x16,
    RPKI_UTC_TIME = 0x17,
    RPKI_GENERALIZED_TIME = 0x18,
    RPKI_SEQUENCE = 0x30,
    RPKI_SET = 0x31,
    RPKI_CONTEXT_PRIMITIVE = 0x80,  /* a context-specific tag, around octets */
    RPKI_CONTEXT_CONSTRUCTED = 0xA0 /* the same, around values */
};

/* The header of a value (X.690 8.1.2, 8.1.3). */
struct rpki_header_parts {
    uint8_t tag_class; /* RPKI_UNIVERSAL to RPKI_PRIVATE */
    bool constructed;  /* whether the contents are values themselves */
    uint32_t number;   /* the number of the tag, below 2^28 */
    uint32_t length;   /* how many contents octets the header announces */
    size_t size;       /* how many octets the header itself has */
};

/* One value, at the front of the octets. */
struct rpki_walked {
    uint64_t headers; /* how many headers it has, its own among them */
    size_t size;      /* how many octets it has */
};

/* The parent of an entry that is inside no other. */
#define RPKI_NO_PARENT SIZE_MAX

/* One header of a value, and where its value is. */
struct rpki_entry {
    size_t start;      /* where the header begins */
    size_t contents;   /* where the contents begin */
    size_t end;        /* where the value ends: the place after its last octet */
    size_t parent;     /* the number of the entry of the value around it, or RPKI_NO_PARENT */
    uint32_t number;   /* the number of the tag */
    uint8_t tag_class; /* RPKI_UNIVERSAL to RPKI_PRIVATE */
    bool constructed;  /* whether the contents are values, which then have entries of their own */
};

/* The parts of signed data (RFC 5280 4.1), as of a certificate or a revocation list. */
struct rpki_signed_parts {
    struct rpki_span data;      /* what is signed: one value, its header included */
    struct rpki_span algorithm; /* the algorithm identifier, its header included */
    struct rpki_span signature; /* the octets of the signature's bits */
    uint8_t unused;             /* how many bits of the last of them are unused: 0 to 7, and they are zero */
    bool has_parameters;        /* whether the algorithm identifier has parameters, a NULL */
};

/* Formats of public keys. */
enum {
    RPKI_RSA = 0,       /* rsaEncryption (RFC 8017 A.1) */
    RPKI_ECDSA_P256 = 1 /* id-ecPublicKey on the curve secp256r1 (RFC 5480 2.1.1) */
};

/* The parts of a public key (RFC 5280 4.1.2.7). */
struct rpki_key_parts {
    uint8_t format;        /* RPKI_RSA or RPKI_ECDSA_P256 */
    uint8_t unused;        /* how many bits of the last octet are unused: 0 to 7, and they are zero */
    struct rpki_span bits; /* the octets of the key's bits, without the count of unused bits before them */
};

/* Profiles of names. */
enum {
    RPKI_PROFILE_RPKI = 0,  /* of resource certificates (RFC 6487 4.4, 4.5) */
    RPKI_PROFILE_ROUTER = 1 /* of router certificates (RFC 8209 3.1.1) */
};

/* Profiles of certificates. */
enum {
    RPKI_CERTIFICATE_TA = 0,         /* of trust anchors (RFC 6487 4) */
    RPKI_CERTIFICATE_CA = 1,         /* of certification authorities (RFC 6487 4) */
    RPKI_CERTIFICATE_EE = 2,         /* of end entities that sign an object (RFC 6487 4) */
    RPKI_CERTIFICATE_ROUTER = 3,     /* of BGPsec routers (RFC 8209 3.1) */
    RPKI_CERTIFICATE_DETACHED_EE = 4 /* of end entities without subject information access (RFC 9323 2) */
};

/* A moment in UTC. */
struct rpki_moment {
    int64_t seconds; /* seconds since 1970-01-01 00:00:00, every day with 86,400; negative before */
    int32_t year;    /* 0 to 9999 */
    uint32_t month;  /* 1 to 12 */
    uint32_t day;    /* 1 to 31 */
    uint32_t hour;   /* 0 to 23 */
    uint32_t minute; /* 0 to 59 */
    uint32_t second; /* 0 to 59 */
};

/* A period of validity (RFC 5280 4.1.2.5). Nothing is said of which moment is earlier. */
struct rpki_period {
    struct rpki_moment not_before;
    struct rpki_moment not_after;
};

/* The parts of an extension of a certificate (RFC 5280 4.1). */
struct rpki_extension_parts {
    struct rpki_span id;     /* the contents octets of its object identifier */
    struct rpki_span octets; /* the contents octets of its OCTET STRING */
    bool critical;           /* false where there is no BOOLEAN */
};

/* How many extensions of a certificate rpki_certificate compares with one another at most. */
#define RPKI_MOST_EXTENSIONS 64

/* The parts of a certificate (RFC 5280 4.1). Names and the key have their headers, for the calls that read them. */
struct rpki_certificate_parts {
    struct rpki_span data;       /* what is signed: a SEQUENCE, its header included */
    struct rpki_span algorithm;  /* the algorithm identifier after it, its header included */
    struct rpki_span signature;  /* the octets of the signature's bits */
    struct rpki_span issuer;     /* the issuer's name, its header included */
    struct rpki_span subject;    /* the subject's name, its header included */
    struct rpki_span public_key; /* the subject's key, its header included */
    struct rpki_span extensions; /* the extensions, in sequence, each with its header */
    struct rpki_period validity; /* the period of validity */
    uint8_t serial_number[20];   /* the serial number, with zeros in front */
    uint8_t key_format;          /* RPKI_RSA or RPKI_ECDSA_P256 */
    uint8_t key_unused;          /* how many bits of the key's last octet are unused: 0 to 7 */
    bool has_parameters;         /* whether the algorithm identifiers have parameters, a NULL */
};

/* The extensions of certificates of the RPKI (RFC 6487 4.8, RFC 8360 4.2), in the order of rpki_known_extensions. */
enum {
    RPKI_EXTENSION_BASIC_CONSTRAINTS = 0,
    RPKI_EXTENSION_SUBJECT_KEY_IDENTIFIER = 1,
    RPKI_EXTENSION_AUTHORITY_KEY_IDENTIFIER = 2,
    RPKI_EXTENSION_KEY_USAGE = 3,
    RPKI_EXTENSION_EXTENDED_KEY_USAGE = 4,
    RPKI_EXTENSION_CRL_DISTRIBUTION_POINTS = 5,
    RPKI_EXTENSION_AUTHORITY_INFO_ACCESS = 6,
    RPKI_EXTENSION_SUBJECT_INFO_ACCESS = 7,
    RPKI_EXTENSION_CERTIFICATE_POLICIES = 8,
    RPKI_EXTENSION_IP_RESOURCES = 9,
    RPKI_EXTENSION_IP_RESOURCES_V2 = 10,
    RPKI_EXTENSION_AS_RESOURCES = 11,
    RPKI_EXTENSION_AS_RESOURCES_V2 = 12
};

/* An extension of a certificate, or that there is none. */
struct rpki_known_extension {
    struct rpki_span octets; /* the contents octets of its OCTET STRING; of size 0 where it isn't there */
    bool is_there;           /* whether the extension is there; false in a struct of zeros that no call has filled */
    bool critical;           /* whether it is critical; false where it isn't there */
};

/* What a key may be used for (RFC 6487 4.8.4). */
enum {
    RPKI_USAGE_NONE = 0, /* there is no key usage */
    RPKI_USAGE_CA = 1,   /* keyCertSign and cRLSign: to sign certificates and revocation lists */
    RPKI_USAGE_EE = 2    /* digitalSignature: to sign objects */
};

/* What a policy says of resources that the issuer's certificate hasn't (RFC 8360 4). */
enum {
    RPKI_POLICY_NONE = 0,   /* there are no certificate policies */
    RPKI_POLICY_REFUSE = 1, /* id-cp-ipAddr-asNumber: the certificate is rejected (RFC 6484 1.2) */
    RPKI_POLICY_TRIM = 2    /* id-cp-ipAddr-asNumber-v2: the resources that both have remain (RFC 8360 4.2.1) */
};

/* The extensions that certificates of the RPKI have (RFC 6487 4.8), and what five of them say. */
struct rpki_known_extensions {
    struct rpki_known_extension basic_constraints;        /* RFC 6487 4.8.1 */
    struct rpki_known_extension subject_key_identifier;   /* RFC 6487 4.8.2 */
    struct rpki_known_extension authority_key_identifier; /* RFC 6487 4.8.3 */
    struct rpki_known_extension key_usage;                /* RFC 6487 4.8.4 */
    struct rpki_known_extension extended_key_usage;       /* RFC 6487 4.8.5, RFC 8209 3.1.3.2 */
    struct rpki_known_extension crl_distribution_points;  /* RFC 6487 4.8.6 */
    struct rpki_known_extension authority_info_access;    /* RFC 6487 4.8.7 */
    struct rpki_known_extension subject_info_access;      /* RFC 6487 4.8.8 */
    struct rpki_known_extension certificate_policies;     /* RFC 6487 4.8.9 */
    struct rpki_known_extension ip_resources;             /* RFC 6487 4.8.10 */
    struct rpki_known_extension ip_resources_v2;          /* with validation reconsidered (RFC 8360 4.2.2.1) */
    struct rpki_known_extension as_resources;             /* RFC 6487 4.8.11 */
    struct rpki_known_extension as_resources_v2;          /* with validation reconsidered (RFC 8360 4.2.2.3) */
    uint8_t subject_key[20];                              /* the subject key identifier; zeros where it isn't there */
    uint8_t authority_key[20];                            /* the authority key identifier; zeros where it isn't there */
    bool is_ca;     /* whether the basic constraints are there: the subject is a certification authority */
    uint8_t usage;  /* RPKI_USAGE_NONE to RPKI_USAGE_EE */
    uint8_t policy; /* RPKI_POLICY_NONE to RPKI_POLICY_TRIM */
};

/* Methods of access (RFC 5280 4.2.2). */
enum {
    RPKI_ACCESS_OTHER = 0,         /* none of these */
    RPKI_ACCESS_CA_ISSUERS = 1,    /* id-ad-caIssuers: the certificate of the issuer (RFC 6487 4.8.7) */
    RPKI_ACCESS_CA_REPOSITORY = 2, /* id-ad-caRepository: where the subject publishes (RFC 6487 4.8.8.1) */
    RPKI_ACCESS_RPKI_MANIFEST = 3, /* id-ad-rpkiManifest: the subject's manifest (RFC 6487 4.8.8.1) */
    RPKI_ACCESS_SIGNED_OBJECT = 4, /* id-ad-signedObject: what the subject's key signs (RFC 6487 4.8.8.2) */
    RPKI_ACCESS_RPKI_NOTIFY = 5    /* id-ad-rpkiNotify: where changes are notified (RFC 8182 3.2) */
};

/* The parts of an access description (RFC 5280 4.2.2.1). */
struct rpki_access_parts {
    struct rpki_span id;  /* the contents octets of the object identifier of its method */
    struct rpki_span uri; /* the text of the URI that says where; of size 0 where the name is of another form */
    uint8_t method;       /* RPKI_ACCESS_OTHER to RPKI_ACCESS_RPKI_NOTIFY */
    bool is_uri;          /* whether the name is a URI */
};

/* A general name (RFC 5280 4.2.1.6). */
struct rpki_general_name_parts {
    struct rpki_span uri; /* the text of the URI; of size 0 where the name is of another form */
    bool is_uri;          /* whether the name is a URI */
};

/* The parts of a revocation list (RFC 5280 5.1). The name has its header, for the calls that read names. */
struct rpki_crl_parts {
    struct rpki_span data;                /* what is signed: a SEQUENCE, its header included */
    struct rpki_span algorithm;           /* the algorithm identifier after it, its header included */
    struct rpki_span signature;           /* the octets of the signature's bits */
    struct rpki_span issuer;              /* the issuer's name, its header included */
    struct rpki_span revoked_certs;       /* the certificates that are revoked, in sequence, each with its header; of
                                             size 0 where there are none, or the list of them is left out */
    struct rpki_moment this_update;       /* when the list was issued */
    struct rpki_moment next_update;       /* when the next list is issued at the latest */
    uint8_t crl_number[20];               /* the number of the list, with zeros in front (RFC 5280 5.2.3) */
    uint8_t authority_key_identifier[20]; /* the identifier of the key that signed the list (RFC 5280 5.2.1) */
    bool has_parameters;                  /* whether the algorithm identifiers have parameters, a NULL */
};

/* A certificate that is revoked (RFC 5280 5.1.2.6). */
struct rpki_revoked_certificate {
    uint8_t serial_number[20];          /* the serial number, with zeros in front */
    struct rpki_moment revocation_date; /* when it was revoked */
};

/* A serial number in a table of rpki_serials. */
struct rpki_serial_number {
    uint8_t octets[20]; /* the most significant octet first, with zeros in front */
};

/* The parts of a signed object (RFC 5652 3, 5; RFC 6488 2). */
struct rpki_signed_object_parts {
    struct rpki_span content_type;      /* the type of the content: the contents octets of its object identifier */
    struct rpki_span content;           /* the octets of the content */
    struct rpki_span certificate;       /* the signer's certificate, its header included */
    struct rpki_span signed_attributes; /* the signed attributes, their header included: what is signed are these
                                           octets, but with 0x31 in place of the first (RFC 5652 5.4) */
    struct rpki_span signature;         /* the octets of the signature */
    struct rpki_moment signing_time;    /* when the attributes were signed, where has_signing_time; else zeros */
    uint64_t binary_signing_time;       /* the same in seconds since 1970, where has_binary_signing_time; else 0 */
    uint8_t message_digest[32];         /* the digest of the content, by SHA-256, that is signed */
    uint8_t signer_identifier[20];      /* the identifier of the signer's key */
    bool is_type_signed;                /* whether the type of the content is the one that is signed */
    bool has_signing_time;
    bool has_binary_signing_time;
    bool has_parameters; /* whether the algorithm of the signature has parameters, a NULL */
};

/* The parts of a manifest (RFC 9286 4.2). */
struct rpki_manifest_parts {
    struct rpki_span files;         /* the files, in sequence, each with its header; of size 0 if none */
    size_t count;                   /* how many files there are */
    struct rpki_moment this_update; /* when the manifest was issued */
    struct rpki_moment next_update; /* when the next manifest is issued at the latest */
    uint8_t manifest_number[20];    /* the number of the manifest, with zeros in front */
};

/* A file that a manifest lists (RFC 9286 4.2.1). */
struct rpki_manifest_file_parts {
    struct rpki_span name; /* the octets of its name, which are ASCII characters */
    uint8_t digest[32];    /* the digest of the file, by SHA-256 */
};

/* The parts of a route origin attestation (RFC 9582 4). */
struct rpki_roa_parts {
    struct rpki_span v4; /* the prefixes of IPv4, in sequence, each with its header; of size 0 if none */
    struct rpki_span v6; /* those of IPv6 */
    size_t v4_count;     /* how many prefixes of IPv4 there are */
    size_t v6_count;     /* how many prefixes of IPv6 there are */
    uint32_t as_id;      /* the AS number that may announce them */
};

/* A prefix of a route origin attestation (RFC 9582 4.3.2). */
struct rpki_roa_address_parts {
    uint8_t address[16]; /* the lowest address; after the four octets of IPv4 are zeros */
    uint8_t length;      /* how many bits the prefix has */
    uint8_t max_length;  /* how many bits a prefix in it that is announced may have: `length` unless has_max_length */
    bool has_max_length; /* whether the maximum length is there; it may be `length` all the same */
};

/* The parts of an attestation of providers (draft-ietf-sidrops-aspa-profile, version 1). */
struct rpki_aspa_parts {
    struct rpki_span providers; /* the providers, in sequence, each with its header */
    size_t count;               /* how many providers there are */
    uint32_t customer;          /* the AS number of the customer */
};

/* The parts of a signed checklist (RFC 9323 4). */
struct rpki_checklist_parts {
    struct rpki_span as_numbers; /* the AS numbers, as rpki_as_blocks reads them; no octets where they aren't there */
    struct rpki_span addresses;  /* the addresses, as rpki_ip_blocks reads them; no octets where they aren't there */
    struct rpki_span files;      /* the files, in sequence, each with its header */
    size_t count;                /* how many files there are */
    bool has_as_numbers;         /* whether AS numbers are there */
    bool has_addresses;          /* whether addresses are there */
};

/* A file of a checklist. */
struct rpki_checklist_file_parts {
    struct rpki_span name; /* its name: letters, digits, `.`, `_` and `-`, one at least; no octets where it has none */
    uint8_t digest[32];    /* the digest of its octets by SHA-256 */
    bool has_name;         /* whether it has a name */
};

/* A key of a trust anchor, with what a locator says of it (RFC 9691 3.2.2). */
struct rpki_anchor_key_parts {
    struct rpki_span comments; /* the comments, each a UTF8String with its header, for rpki_take */
    size_t comment_count;      /* how many comments there are */
    struct rpki_span uris;     /* the URIs of its certificate, each an IA5String with its header, in order */
    size_t uri_count;          /* how many URIs there are, one at least */
    struct rpki_span key;      /* the key, a SubjectPublicKeyInfo, with its header */
};

/* The parts of trust anchor keys (RFC 9691 3.2). */
struct rpki_tak_parts {
    struct rpki_anchor_key_parts current;     /* the current key */
    struct rpki_anchor_key_parts predecessor; /* the one before; no octets where there is none */
    struct rpki_anchor_key_parts successor;   /* the key that will be current, likewise */
    bool has_predecessor;                     /* whether there is a predecessor */
    bool has_successor;                       /* whether there is a successor */
};

/* Types of what signed objects contain, by rpki_content_type. */
enum {
    RPKI_TYPE_OTHER = 0,            /* none of these */
    RPKI_TYPE_ROA = 1,              /* route origin attestations (RFC 9582 3) */
    RPKI_TYPE_MANIFEST = 2,         /* manifests (RFC 9286 4.1) */
    RPKI_TYPE_ASPA = 3,             /* attestations of providers (draft-ietf-sidrops-aspa-profile) */
    RPKI_TYPE_GHOSTBUSTERS = 4,     /* contacts (RFC 6493 6) */
    RPKI_TYPE_CHECKLIST = 5,        /* signed checklists (RFC 9323 3) */
    RPKI_TYPE_TRUST_ANCHOR_KEYS = 6 /* keys of trust anchors (RFC 9691 4) */
};

/* Families of addresses, by the version of IP. */
enum { RPKI_IPV4 = 4, RPKI_IPV6 = 6 };

/* A block of addresses, or that the addresses of a family are those of the issuer (RFC 3779 2.2.3). */
struct rpki_ip_block {
    uint8_t low[16];   /* the lowest address, most significant octet first; after the 4 octets of IPv4 are zeros */
    uint8_t high[16];  /* the highest address, likewise */
    uint8_t family;    /* RPKI_IPV4 or RPKI_IPV6 */
    bool is_inherited; /* whether the family's addresses are those of the issuer; then `low` and `high` are zeros */
};

/* A block of AS numbers, or that the AS numbers are those of the issuer (RFC 3779 3.2.3). */
struct rpki_as_block {
    uint32_t low;      /* the lowest number */
    uint32_t high;     /* the highest number */
    bool is_inherited; /* whether the AS numbers are those of the issuer; then `low` and `high` are 0 */
};

/* The resources of a certificate, settled under those of its issuer, in the caller's two arrays. */
struct rpki_resources {
    const struct rpki_ip_block *ip_blocks; /* the addresses, those of IPv4 first, in canonical form */
    size_t ip_count;
    const struct rpki_as_block *as_blocks; /* the AS numbers, likewise */
    size_t as_count;
};

/* The identifier of a key: the SHA-1 digest of its bits (RFC 6487 4.8.2). */
struct rpki_key_octets {
    uint8_t octets[20];
};

/* How many steps a path has at most, from its trust anchor down. */
#define RPKI_MOST_STEPS 32

/*
 * An authority of a path, which begins at a trust anchor: what is asked of all that the authority issues. Only
 * rpki_authority_anchor, _list, _manifest and _under fill it in, and nothing else is to write to it: what they say of
 * an authority rests on that of the one that they were given. It lends the octets of its certificate, its list and its
 * manifest, and the arrays of its blocks, as long as it is used. One that is zeroed is refused: it has neither a
 * certificate nor a manifest.
 */
struct rpki_authority {
    struct rpki_span certificate;          /* its certificate */
    struct rpki_span revoked_certs;        /* the entries of its list, in sequence */
    struct rpki_span files;                /* the files that its manifest lists, in sequence, for rpki_manifest_file */
    const struct rpki_ip_block *ip_blocks; /* the addresses that it has, in canonical form */
    size_t ip_count;
    const struct rpki_as_block *as_blocks; /* the AS numbers that it has, likewise */
    size_t as_count;
    struct rpki_moment moment;       /* the moment at which all of the path is asked */
    uint8_t list_digest[32];         /* the digest of its list by SHA-256, as the manifest lists it */
    struct rpki_key_octets keys[33]; /* the keys of the path: the trust anchor's first, its own at keys[depth] */
    uint32_t depth;                  /* how many steps lead up to the trust anchor, at most RPKI_MOST_STEPS */
    bool has_list;                   /* whether it has a list */
    bool has_manifest;               /* whether it has a manifest, which lists that list: so what it issues counts */
};

/* The parts of an rsync URI, rsync://AUTHORITY/MODULE/PATH (RFC 5781). */
struct rpki_rsync_parts {
    struct rpki_place authority;   /* not empty; a port is in it */
    struct rpki_place module_name; /* not empty, without slashes */
    struct rpki_place path;        /* what follows the slash after the module; may be empty */
};

/* The parts of an https URI. */
struct rpki_https_parts {
    struct rpki_place authority; /* may be empty */
    struct rpki_place path;      /* empty, or begins with its slash */
};

/* ---- Values at the front of the octets: more may follow them ---- */

/*
 * Reads the header at the front of the octets. Its contents need not be there. Takes no memory.
 *
 * RPKI_TRUNCATED: the octets end within a header; there may be none. RPKI_BAD_TAG, RPKI_BAD_LENGTH: there is no header,
 * by the first octet from the left that no header goes on with.
 */
rpki_status rpki_header(const uint8_t *octets, size_t size, struct rpki_header_parts *out) RPKI_CHECKED;

/*
 * Takes the value at the front of `rest`: a line for each part of a format. `contents` becomes the contents of the
 * value, off which values are taken likewise. To skip a value take it. `identifier` is one octet (X.690 8.1.2): the
 * class of the tag in the two highest bits, the form in the next, and the number of the tag, from 0 to 31, in the
 * others. Takes no memory.
 *
 *     struct rpki_span rest = {octets, size}, fields = {0}, serial = {0};
 *     if (rpki_take(&rest, RPKI_SEQUENCE, &fields) == RPKI_OK &&
 *         rpki_take(&fields, RPKI_INTEGER, &serial) == RPKI_OK && rest.size == 0) ...
 *
 * In this order: RPKI_BAD_TAG: `identifier` is 0x00 or 0x20, of the tag universal 0, which no value has.
 * RPKI_TRUNCATED, RPKI_BAD_TAG, RPKI_BAD_LENGTH: as rpki_header. RPKI_UNEXPECTED: a header of another tag or form
 * begins `rest`. RPKI_TRUNCATED: its contents pass the end.
 */
rpki_status rpki_take(struct rpki_span *rest, uint8_t identifier, struct rpki_span *contents) RPKI_CHECKED;

/*
 * Takes the value at the front of `rest` as rpki_take does, where it has the tag that `identifier` names: an element
 * that may be left out. `*is_there` becomes whether it has. Where it hasn't, or nothing remains, the status is RPKI_OK,
 * `rest` stays, and `contents` has size 0: the element has its default. So it is too where octets remain that no header
 * begins: a reader whose last elements may be left out has to see in the end that `rest.size` is 0.
 *
 * Where the tag is there the statuses are those of rpki_take: RPKI_UNEXPECTED says that the form is another one. Before
 * that RPKI_BAD_TAG, also where nothing remains: `identifier` is 0x00 or 0x20. Unless RPKI_OK, `contents` and
 * `*is_there` are left as they were.
 */
rpki_status rpki_take_optional(struct rpki_span *rest, uint8_t identifier, struct rpki_span *contents,
                               bool *is_there) RPKI_CHECKED;

/*
 * Walks the value at the front of the octets, with all that is nested in it, to any depth. Structure alone counts: the
 * contents of a primitive value are not looked at.
 *
 * RPKI_TRUNCATED, RPKI_BAD_TAG, RPKI_BAD_LENGTH: from the left, the first header that is none, or with RPKI_TRUNCATED
 * the first value that passes the end of the value around it or of the octets. RPKI_OUT_OF_MEMORY: the walk keeps eight
 * octets or more for each value that it is inside of, and could not; never where the value is primitive.
 */
rpki_status rpki_walk(const uint8_t *octets, size_t size, struct rpki_walked *out) RPKI_CHECKED;

/*
 * Walks as rpki_walk does, and writes an entry for each header, in order of place: the first is that of the value
 * itself, and the values in a value follow its entry. `entries` has room for `capacity` entries.
 *
 * RPKI_OK: `*count` entries were written, and the rest of the array is as it was. RPKI_TOO_SMALL: `*count` is how many
 * entries there are, and none was written. The others are those of rpki_walk, and then neither is written. The entries
 * go straight to the array: beside that the call takes no more memory than rpki_walk.
 */
rpki_status rpki_index(const uint8_t *octets, size_t size, struct rpki_entry *entries, size_t capacity,
                       size_t *count) RPKI_CHECKED;

/*
 * Says where the value at the front of the octets goes wrong. `*at` becomes the place where the leftmost value begins
 * that is none, itself or nested in it: there no header begins; or one does, and the contents that it announces pass
 * the end of the value around it or of the octets. It is the place of what rpki_walk and rpki_index return, and 0 where
 * there are no octets.
 *
 * RPKI_NO_ANSWER: a value begins the octets, so nothing is wrong. RPKI_OUT_OF_MEMORY as rpki_walk.
 */
rpki_status rpki_fault(const uint8_t *octets, size_t size, size_t *at) RPKI_CHECKED;

/*
 * Takes the value at the front of a span, whatever its tag (X.690 8.1): its header, its contents, and all of it, the
 * header included. What is inside of the contents is not looked at. RPKI_TRUNCATED, RPKI_BAD_TAG or RPKI_BAD_LENGTH,
 * and nothing is written.
 */
rpki_status rpki_value(struct rpki_span *rest, struct rpki_header_parts *header, struct rpki_span *contents,
                       struct rpki_span *whole) RPKI_CHECKED;

/* Takes the BOOLEAN at the front of a span (X.690 8.2, 11.1): RPKI_TRUNCATED to RPKI_CONTENT, and nothing is written.
 */
rpki_status rpki_boolean(struct rpki_span *rest, bool *out) RPKI_CHECKED;

/*
 * Takes the INTEGER at the front of a span, which is not negative (X.690 8.3): the octets of its number, the most
 * significant first, without zeros in front. RPKI_TRUNCATED to RPKI_CONTENT, and nothing is written.
 */
rpki_status rpki_unsigned(struct rpki_span *rest, struct rpki_span *out) RPKI_CHECKED;

/*
 * Takes the BIT STRING at the front of a span (X.690 8.6, 11.2): the octets of its bits, and how many of the last of
 * them are unused, which are zeros. RPKI_TRUNCATED to RPKI_CONTENT, and nothing is written.
 */
rpki_status rpki_bit_string(struct rpki_span *rest, struct rpki_span *bits, uint8_t *unused) RPKI_CHECKED;

/*
 * Takes the OBJECT IDENTIFIER at the front of a span (X.690 8.19): its contents octets, which rpki_oid_text writes as
 * text. RPKI_TRUNCATED to RPKI_CONTENT, and nothing is written.
 */
rpki_status rpki_object_identifier(struct rpki_span *rest, struct rpki_span *out) RPKI_CHECKED;

/* ---- Values that are all of the octets ---- */

/*
 * The calls below read one value of a type, and nothing may follow it. Which status where:
 *
 * RPKI_TRUNCATED, RPKI_BAD_TAG, RPKI_BAD_LENGTH, RPKI_UNEXPECTED or RPKI_CONTENT: no beginning of the octets is such a
 * value. RPKI_TRAILING: a beginning is, and octets follow it; or octets follow the last part in the value's contents.
 * RPKI_OUT_OF_MEMORY: malloc or realloc returned NULL.
 */

/*
 * Signed data of the RPKI (RFC 5280 4.1): a SEQUENCE of one value, an algorithm identifier and a BIT STRING. The
 * algorithm identifier is sha256WithRSAEncryption, with NULL for parameters or with none (RFC 7935 2).
 *
 * RPKI_OTHER_ALGORITHM: the octets are well formed as far as the algorithm identifier, and that is another one. The
 * SEQUENCE is all there; one value begins its contents, with all that is nested in it; and what follows that is a
 * SEQUENCE of an object identifier and perhaps one value more (RFC 5280 4.1.1.2), but not the one above. What is in
 * that one value, and what follows the algorithm identifier, is not looked at.
 *
 * Nothing is verified: rpki_verify says whether the signature's octets sign exactly the octets of `data`.
 */
rpki_status rpki_signed_data(const uint8_t *octets, size_t size, struct rpki_signed_parts *out) RPKI_CHECKED;

/*
 * A public key, a SubjectPublicKeyInfo (RFC 5280 4.1.2.7): an algorithm identifier of RSA (rsaEncryption with NULL or
 * without parameters) or of P-256 (id-ecPublicKey with secp256r1), and a BIT STRING. The bits are not looked at.
 *
 * RPKI_OTHER_ALGORITHM: the SEQUENCE is all there, and its contents begin with a SEQUENCE of an object identifier and
 * perhaps one value more (RFC 5280 4.1.1.2), but with neither of the two above: another object identifier, curve or
 * parameters. What is in that one value, and what follows the algorithm identifier, is not looked at.
 */
rpki_status rpki_public_key(const uint8_t *octets, size_t size, struct rpki_key_parts *out) RPKI_CHECKED;

/* The key identifier of a public key: the SHA-1 digest of its bits (RFC 5280 4.2.1.2). Statuses as rpki_public_key. */
rpki_status rpki_key_identifier(const uint8_t *octets, size_t size, uint8_t out[20]) RPKI_CHECKED;

/*
 * Verifies that the signature is one of the message by the public key (a SubjectPublicKeyInfo): by RSA with PKCS #1
 * v1.5 padding and SHA-256 (RFC 7935 2, RFC 8017 8.2.2). Of a certificate or a list the message is `data` of
 * rpki_signed_data; of a signed object the signed attributes, with 0x31 for their first octet.
 *
 * RPKI_KEY_NOT_ACCEPTED: a key on P-256; or one by RSA whose bits are not a SEQUENCE of two INTEGERs that are not
 * negative, the modulus odd, of 2,048 to 4,096 bits, and the exponent odd, not 1, below 2^64 (RFC 7935 3 asks for 2,048
 * and 65537, which RPKI_RULE_RSA_KEY says). RPKI_BAD_SIGNATURE: it is a key, and the signature is not one of the
 * message by it. Else as rpki_public_key.
 */
rpki_status rpki_verify(const uint8_t *key, size_t key_size, const uint8_t *message, size_t message_size,
                        const uint8_t *signature, size_t signature_size) RPKI_CHECKED;

/* The digest of octets by SHA-256 (FIPS 180-4). */
void rpki_sha256(const uint8_t *octets, size_t size, uint8_t out[32]);

/*
 * Inspects a name (RFC 5280 4.1.2.4). `profile` is RPKI_PROFILE_RPKI or RPKI_PROFILE_ROUTER, in eight bits: C cuts a
 * larger number down to them before the call, so that 256 is RPKI_PROFILE_RPKI. Where `strict` is false, any name will
 * do; where it is true, it has to be of the profile: one common name, at most one serial number, of the
 * strings that the profile permits, and what else docs/SPECIFICATION.md, "Names", permits.
 *
 * RPKI_MISSING_COMMON_NAME to RPKI_ATTRIBUTE_NOT_PERMITTED: it is a name, `strict` is true, and it is not of the
 * profile. The status is that of the first attribute, from the left, with which a rule is broken: a second one of its
 * kind; else a string that is not permitted. Where none breaks a rule, a common name is missing. A relative
 * distinguished name may have several attributes. RPKI_NO_PROFILE: `profile` is another number, whatever the octets
 * are. Else as above: RPKI_CONTENT also for a name without relative distinguished names, for one of those without
 * attributes, and for an attribute without a value.
 */
rpki_status rpki_name_inspect(const uint8_t *octets, size_t size, uint8_t profile, bool strict) RPKI_CHECKED;

/*
 * A serial number (RFC 5280 4.1.2.2): an INTEGER that is not negative, of at most 20 contents octets. `out` becomes the
 * number, most significant octet first, with zeros in front. RPKI_CONTENT: another INTEGER.
 */
rpki_status rpki_serial(const uint8_t *octets, size_t size, uint8_t out[20]) RPKI_CHECKED;

/*
 * A time: UTC time YYMMDDHHMMSSZ, of the years 1950 to 2049, or generalized time YYYYMMDDHHMMSSZ (RFC 5280 4.1.2.5).
 * RPKI_CONTENT: another primitive value, or a date or time of day that there is not.
 */
rpki_status rpki_time(const uint8_t *octets, size_t size, struct rpki_moment *out) RPKI_CHECKED;

/* A period of validity (RFC 5280 4.1.2.5): a SEQUENCE of two times. */
rpki_status rpki_validity(const uint8_t *octets, size_t size, struct rpki_period *out) RPKI_CHECKED;

/*
 * An extension of a certificate (RFC 5280 4.1): a SEQUENCE of an object identifier, perhaps a BOOLEAN, and an OCTET
 * STRING. A BOOLEAN that is FALSE, which DER leaves out, is read. What is in the OCTET STRING is not looked at.
 */
rpki_status rpki_extension(const uint8_t *octets, size_t size, struct rpki_extension_parts *out) RPKI_CHECKED;

/* ---- Certificates: all of the octets are one ---- */

/*
 * Reads a resource certificate (RFC 5280 4.1, in the form of RFC 6487 4), and says what its parts are: signed data of
 * RSA with SHA-256; version 3; each extension's identifier once; and what is signed names the same algorithm. Names
 * have attributes with any values; rpki_name_inspect checks them against a profile. The extensions are read in sequence
 * with rpki_header and rpki_extension. Whether they are those of a profile, and whether the signature is that of a key,
 * is not looked at. Takes no memory.
 *
 * Where a status is not 0, it is an RPKI_PART_ number: from 64 to 67 the malformed part of the signed data, the
 * leftmost (of RPKI_PART_ALGORITHM rpki_signed_data says whether that is another algorithm); else from 68 to 78 the
 * part of what is signed, the leftmost; else 79. RPKI_PART_EXTENSION_COUNT says nothing else of the octets: the
 * certificate may be well-formed. No certificate of the RPKI has so many. Where there are so many, a malformed one
 * among them is 76, and two of one identifier are 77.
 */
rpki_status rpki_certificate(const uint8_t *octets, size_t size, struct rpki_certificate_parts *out) RPKI_CHECKED;

/*
 * What is wrong with the malformed part. The status is that of rpki_certificate. Where it is an RPKI_PART_ number,
 * `*error` becomes one of RPKI_TRUNCATED to RPKI_TRAILING, as a reader of that part returns it; RPKI_CONTENT of
 * RPKI_PART_EXTENSION_COUNT, RPKI_PART_EXTENSION_IDENTIFIERS and RPKI_PART_SAME_ALGORITHM. Of RPKI_PART_SIGNATURE
 * RPKI_TRAILING, for what follows it, comes before RPKI_CONTENT, for unused bits. RPKI_OK: the octets are a
 * certificate, and `*error` is left as it was. Takes no memory.
 */
rpki_status rpki_certificate_error(const uint8_t *octets, size_t size, rpki_status *error) RPKI_CHECKED;

/*
 * Reads a resource certificate, as rpki_certificate does, and says what its extensions are (RFC 6487 4.8), and what
 * five of them say: basic constraints, both key identifiers, key usage and certificate policies. The others are not
 * looked at, nor is which of them a profile wants. Takes no memory.
 *
 * The status is from 80 to 84 where one of the five is there, but malformed, or not as critical as it has to be: the
 * first of them, in the order of these numbers. Else, where it is not 0, it is that of rpki_certificate.
 */
rpki_status rpki_certificate_extensions(const uint8_t *octets, size_t size,
                                        struct rpki_known_extensions *out) RPKI_CHECKED;

/*
 * Reads a resource certificate, as rpki_certificate does, and says what one extension is, and whether it is
 * critical: that of this number, an RPKI_EXTENSION_ constant. `is_there` is false where it has none. Neither its octets
 * nor other extensions are looked at, so a malformed one hides no other. Takes no memory.
 *
 * RPKI_NO_ANSWER: no extension has the number; then the octets are not looked at. Else as rpki_certificate.
 */
rpki_status rpki_certificate_extension(const uint8_t *octets, size_t size, uint8_t number,
                                       struct rpki_known_extension *out) RPKI_CHECKED;

/*
 * Reads a resource certificate, as rpki_certificate does, and holds it to the profile of this number, an
 * RPKI_CERTIFICATE_ constant (RFC 6487 4, RFC 8209 3.1, RFC 9323 2). With `strict` false the names are not checked
 * against theirs. Whether the signature is that of a key, a moment is in the period, or the issuer has the resources,
 * is not looked at. Takes no memory.
 *
 * The status is from 85 to 119, or from 156 to 158, where the octets are a certificate that breaks a rule of the
 * profile: the first of these that is broken. Of a trust anchor they are tested in the order 85, 86, 87, 156, 112, 94,
 * 108, 109, 115, 116, 88, 157, 90, 98, 92, 96, 101, 103, 104, 105, 118, 119, 114, 113, 117; of an authority as far as
 * 96 in the same order, then 104, 105, 118, 119, 95, 100, 102; of an end entity as far as 98, then 93, 97, 106, 111,
 * 119, 95, 100, 102; of one without subject information access as far as 97, then 107, 95, 100, 102; of a router as far
 * as 116, then 89, 157, 158, 91, 93, 97, 110, 117, 107, 99, 95, 100, 102. An extension that a rule wants, and that is
 * malformed or not as critical as it has to be, breaks the rule. RPKI_NO_PROFILE: no profile has the number; then the
 * octets are not looked at. Else, where it is not 0, it is that of rpki_certificate.
 */
rpki_status rpki_certificate_inspect(const uint8_t *octets, size_t size, uint8_t profile, bool strict) RPKI_CHECKED;

/*
 * Reads a resource certificate once for all that the three calls above say: writes what rpki_certificate writes to
 * `parts` and what rpki_certificate_extensions writes to `extensions`, and holds the certificate to the profile of this
 * number, an RPKI_CERTIFICATE_ constant. Takes no memory.
 *
 * RPKI_NO_PROFILE: no profile has the number; then the octets are not looked at. Else, where the status is not 0, it is
 * the first that rpki_certificate, rpki_certificate_extensions and rpki_certificate_inspect have, in this order. Where
 * it is not 0 neither `parts` nor `extensions` is written to. Nothing is verified: neither the signature, nor the
 * period, nor that it isn't revoked.
 */
rpki_status rpki_certificate_of_profile(const uint8_t *octets, size_t size, uint8_t profile, bool strict,
                                        struct rpki_certificate_parts *parts,
                                        struct rpki_known_extensions *extensions) RPKI_CHECKED;

/*
 * Whether a resource certificate may have been issued by another (RFC 5280 6.1.3, RFC 6487 4.8.3): the name of its
 * issuer is that of the other's subject, octet for octet, and its authority key identifier is the SHA-1 digest of the
 * other's key. Takes no memory.
 *
 * Neither the first's own key nor the signature is looked at: rpki_certificate_signed_by asks all that this call does,
 * and both.
 *
 * The statuses, in this order: those of rpki_certificate_extensions, of the first; RPKI_NO_ISSUER; RPKI_OTHER_ISSUER;
 * RPKI_OTHER_AUTHORITY.
 */
rpki_status rpki_certificate_issued_by(const uint8_t *octets, size_t size, const uint8_t *issuer,
                                       size_t issuer_size) RPKI_CHECKED;

/*
 * Which profile a certificate says that it has, an RPKI_CERTIFICATE_ constant, which rpki_certificate_of_profile asks
 * and this call does not: with basic constraints _TA where its issuer is its subject, octet for octet, and else _CA;
 * without them _ROUTER where there are extended purposes, else _EE where there is access information of the subject,
 * and else _DETACHED_EE. Takes no memory. The statuses are those of rpki_certificate_extensions.
 */
rpki_status rpki_certificate_kind(const uint8_t *octets, size_t size, uint8_t *kind) RPKI_CHECKED;

/* ---- Where something is, as extensions of a certificate say ---- */

/*
 * The calls below read what is inside the octets of an extension, as of rpki_certificate_extensions, and take no
 * memory. Their statuses are those of the calls that read values; RPKI_CONTENT also for what is no general name, which
 * has a tag from [0] to [8] and contents of its form (RFC 5280 4.2.1.6): IA5String under [1], [2] and [6], a Name under
 * [4], 4 or 16 octets under [7], an object identifier under [8], any values, or none, under [0], [3] and [5]. Of a
 * general name RPKI_UNEXPECTED is for a constructed [6], and comes first; then RPKI_TRUNCATED, RPKI_BAD_TAG and
 * RPKI_BAD_LENGTH of its own header; each other fault in it is RPKI_CONTENT, whatever is wrong inside. Whether a text
 * is a URI of a scheme is for rpki_rsync_parse and rpki_https_parse to say.
 */

/*
 * Takes the access description at the front of `rest` (RFC 5280 4.2.2.1): a SEQUENCE of an object identifier and a
 * general name, and nothing else. A subject or authority information access is a SEQUENCE of descriptions, whose
 * header rpki_header reads.
 */
rpki_status rpki_access_description(struct rpki_span *rest, struct rpki_access_parts *out) RPKI_CHECKED;

/* Takes the general name at the front of `rest`. */
rpki_status rpki_general_name(struct rpki_span *rest, struct rpki_general_name_parts *out) RPKI_CHECKED;

/*
 * The general names, in sequence, of CRL distribution points, which are all of the octets (RFC 5280 4.2.1.13): of
 * exactly one point, which has a full name and nothing else (RFC 6487 4.8.6). The names are not read; a
 * full name of no names, which RFC 5280 forbids, is accepted.
 */
rpki_status rpki_distribution_point(const uint8_t *octets, size_t size, struct rpki_span *out) RPKI_CHECKED;

/* ---- Revocation lists ---- */

/*
 * Reads a revocation list, which is all of the octets (RFC 5280 5.1, in the form of RFC 6487 5), and says what its
 * parts are: signed data of RSA with SHA-256, no bit of whose signature is unused; version 2; entries without
 * extensions; an authority key identifier of twenty octets and a number, in either order, neither critical, and no
 * other extension; and what is signed names the same algorithm. Whether the signature is that of a key, and whether a
 * later list is due, is not looked at. Takes no memory.
 *
 * Where a status is not 0, it is an RPKI_PART_ number: from 64 to 67 the malformed part of the signed data, the
 * leftmost; else of 68, 69, 71, 72, 120, 121, 122, 76, in this order, the part of what is signed, the leftmost;
 * else 79.
 */
rpki_status rpki_crl(const uint8_t *octets, size_t size, struct rpki_crl_parts *out) RPKI_CHECKED;

/*
 * What is wrong with the malformed part. The status is that of rpki_crl. Where it is an RPKI_PART_ number, `*error`
 * becomes one of RPKI_TRUNCATED to RPKI_TRAILING, as a reader of that part returns it: of RPKI_PART_REVOKED_CERTS the
 * error of the first that is no entry; of RPKI_PART_EXTENSIONS that of the first that is no extension, then
 * RPKI_CONTENT, where they are not the two, then RPKI_TRAILING; RPKI_CONTENT of RPKI_PART_SAME_ALGORITHM. Of
 * RPKI_PART_SIGNATURE RPKI_TRAILING, for what follows it, comes before RPKI_CONTENT, for unused bits. RPKI_OK: the
 * octets are a revocation list, and `*error` is left as it was. Takes no memory.
 */
rpki_status rpki_crl_error(const uint8_t *octets, size_t size, rpki_status *error) RPKI_CHECKED;

/*
 * Takes the entry at the front of `rest`, as of revoked_certs: a SEQUENCE of a serial number and a time, and nothing
 * else. Takes no memory. The statuses are those of the calls that read values.
 */
rpki_status rpki_crl_entry(struct rpki_span *rest, struct rpki_revoked_certificate *out) RPKI_CHECKED;

/*
 * Whether one of these entries, as of revoked_certs, which are all of the octets, is of the certificate of this serial
 * number. `out` is written where the status is RPKI_OK. All entries are read, in a step each: for many questions make a
 * table of them by rpki_serials. Takes no memory. RPKI_CONTENT: the first bit of the serial number is set. Else the
 * status is that of the first that is no entry, a SEQUENCE of a serial number and a time and nothing else, as of the
 * calls that read values.
 *
 * No octets are no entries, so that nothing is revoked: those of a struct that rpki_crl hasn't filled too. So look at
 * the status of rpki_crl first, or ask rpki_crl_revokes.
 */
rpki_status rpki_crl_contains(const uint8_t *octets, size_t size, const uint8_t serial[20], bool *out) RPKI_CHECKED;

/*
 * Whether a revocation list has the certificate of this serial number: RPKI_REVOKED, or RPKI_OK where it doesn't have
 * it. Whether the list is in force, rpki_crl_issued_by says. Takes no memory. The statuses, in this order: those of
 * rpki_crl; RPKI_CONTENT: the first bit of the serial number is set; RPKI_REVOKED.
 */
rpki_status rpki_crl_revokes(const uint8_t *octets, size_t size, const uint8_t serial[20]) RPKI_CHECKED;

/*
 * Makes a table of these entries, as of revoked_certs, which are all of the octets, for rpki_serials_have: their serial
 * numbers, sorted. `serials` has room for `capacity` of them, of which there are fewer than octets; it may be NULL
 * where `capacity` is 0. Takes no memory; n entries take n log n steps.
 *
 * RPKI_OK: `*count` of them were written, and the rest of the array is as it was. RPKI_TOO_SMALL: `*count` is how many
 * entries there are, and the array holds nothing of use. Else neither is written, and the status is that of the first
 * that is no entry, as of rpki_crl_contains. No octets are no entries here too.
 */
rpki_status rpki_serials(const uint8_t *octets, size_t size, struct rpki_serial_number *serials, size_t capacity,
                         size_t *count) RPKI_CHECKED;

/*
 * Whether the table of a list's entries, the `count` serial numbers that rpki_serials wrote, has this one: exactly
 * where one of the entries is of the certificate of this serial number. In log n steps, without memory.
 */
bool rpki_serials_have(const struct rpki_serial_number *serials, size_t count, const uint8_t serial[20]);

/* ---- Signed objects ---- */

/*
 * Reads a signed object, which is all of the octets (RFC 5652, in the profile of RFC 6488 2), and says what its parts
 * are: version 3; SHA-256 alone; a content with its type; one certificate, of at most RPKI_MOST_EXTENSIONS extensions;
 * no revocation lists; one signer of version 3, named by a key identifier, without unsigned attributes, whose signed
 * attributes are a content type and a message digest, once each, a signing time and a binary signing time, at most once
 * each, and no others. If `strict`, the signing time is there, and the binary signing time is not (RFC 9589 4). Takes
 * no memory.
 *
 * Nothing is verified: rpki_object_verify does that, of the object alone. An object is valid (RFC 6488 3) where that
 * returns RPKI_OK, its certificate is that of an end entity and valid, and the resources that the content speaks of are
 * the certificate's: "What decides whether something is valid" has the calls. What is signed are the octets of
 * signed_attributes, with 0x31 for their first (RFC 5652 5.4).
 *
 * Where a status is not 0, it is an RPKI_PART_ number: the leftmost malformed part; of the certificate the one that
 * rpki_certificate names, from 64 to 79.
 */
rpki_status rpki_signed_object(const uint8_t *octets, size_t size, bool strict,
                               struct rpki_signed_object_parts *out) RPKI_CHECKED;

/*
 * What is wrong with the malformed part. The status is that of rpki_signed_object. Where it is an RPKI_PART_ number,
 * `*error` becomes one of RPKI_TRUNCATED to RPKI_TRAILING, as a reader of that part returns it: of a part of the
 * certificate as of rpki_certificate_error; of RPKI_PART_SIGNED_ATTRIBUTES the error of their tag, then that of the
 * first that is no SEQUENCE of an object identifier and a SET, then RPKI_CONTENT, whatever is wrong in such a SET, and
 * where they are others than those of RFC 6488 2.1.6.4. RPKI_OK: the octets are a signed object, and `*error` is left
 * as it was. Takes no memory.
 */
rpki_status rpki_signed_object_error(const uint8_t *octets, size_t size, bool strict, rpki_status *error) RPKI_CHECKED;

/*
 * Reads a signed object and its signer's certificate once: writes what rpki_signed_object writes to `object`, and what
 * rpki_certificate_of_profile writes of that certificate, by the profile RPKI_CERTIFICATE_EE, to `certificate` and
 * `extensions`. `attributes` and `names` are what these calls have as `strict`. Takes no memory, and verifies nothing.
 *
 * Where the status is not 0, it is the first that these two calls have, in this order, and nothing is written.
 */
rpki_status rpki_signed_object_of_profile(const uint8_t *octets, size_t size, bool attributes, bool names,
                                          struct rpki_signed_object_parts *object,
                                          struct rpki_certificate_parts *certificate,
                                          struct rpki_known_extensions *extensions) RPKI_CHECKED;

/* ---- What signed objects contain: all of the octets are a content, as of rpki_signed_object ---- */

/*
 * Reads a manifest (RFC 9286 4.2), and says what its parts are: version 0, which is left out; a number; two times;
 * SHA-256; and files, each of a name of letters, digits, `-` and `_`, one at least, a dot and three small letters, and
 * of a digest. Whether a later manifest is due is not looked at. Takes no memory.
 *
 * Whether two files have the same name, which RFC 9286 4.2.1 forbids, is not looked at either: ask rpki_manifest_names.
 *
 * Where a status is not 0, it is an RPKI_PART_ number: from 138 to 143 the leftmost malformed part; else 144.
 */
rpki_status rpki_manifest(const uint8_t *octets, size_t size, struct rpki_manifest_parts *out) RPKI_CHECKED;

/*
 * What is wrong with the malformed part. The status is that of rpki_manifest. Where it is an RPKI_PART_ number,
 * `*error` becomes one of RPKI_TRUNCATED to RPKI_TRAILING, as a reader of that part returns it; RPKI_CONTENT of
 * RPKI_PART_UPDATE_ORDER. Of RPKI_PART_FILE_LIST RPKI_TRAILING, for what follows it, comes before what is wrong in it.
 * RPKI_OK: the octets are a manifest, and `*error` is left as it was. Takes no memory.
 */
rpki_status rpki_manifest_error(const uint8_t *octets, size_t size, rpki_status *error) RPKI_CHECKED;

/*
 * Takes the file at the front of `rest`, as of `files`: a SEQUENCE of a name and a digest, and nothing else. Takes no
 * memory. The statuses are those of the calls that read values; RPKI_CONTENT also for a name of other characters, and
 * for a digest of another size or with bits that are not used.
 */
rpki_status rpki_manifest_file(struct rpki_span *rest, struct rpki_manifest_file_parts *out) RPKI_CHECKED;

/*
 * Reads a manifest as rpki_manifest does, and says whether no two of its files have the same name, as RFC 9286 4.2.1
 * asks. `room` has a span for each file, `count` of rpki_manifest_parts; they are zeroed before, and written over; it
 * may be NULL where `capacity` is 0. Takes no memory; n files take n log n steps.
 *
 * The statuses of rpki_manifest; then RPKI_TOO_SMALL: there are more files than `capacity`. `out` is written at status
 * 0 alone.
 */
rpki_status rpki_manifest_names(const uint8_t *octets, size_t size, struct rpki_span *room, size_t capacity,
                                bool *out) RPKI_CHECKED;

/*
 * Reads a route origin attestation (RFC 9582 4), and says which AS number it is for and what its prefixes are: version
 * 0, which is left out; the AS number; and one or two families, each at most once, with a prefix at least. If `strict`,
 * IPv4 is in front of IPv6 (RFC 9582 4.3.3). Prefixes in another order, or twice, are accepted. Whether they are
 * resources of the certificate is not looked at. Takes no memory.
 *
 * Where a status is not 0, it is an RPKI_PART_ number, from 145 to 147: the leftmost malformed part.
 */
rpki_status rpki_roa(const uint8_t *octets, size_t size, bool strict, struct rpki_roa_parts *out) RPKI_CHECKED;

/*
 * What is wrong with the malformed part. The status is that of rpki_roa. Where it is an RPKI_PART_ number, `*error`
 * becomes one of RPKI_TRUNCATED to RPKI_TRAILING: the leftmost error, as a reader of that part returns it; RPKI_CONTENT
 * also of a list of no families, of a third one, of one that is there twice, and of IPv6 in front if `strict`: of both
 * after all of that family was read. Of a prefix of more bits than an address has, what follows the bits comes first.
 * RPKI_OK: the octets are an attestation, and `*error` is left as it was. Takes no memory.
 */
rpki_status rpki_roa_error(const uint8_t *octets, size_t size, bool strict, rpki_status *error) RPKI_CHECKED;

/*
 * Takes the prefix at the front of `rest`, as of `v4` or `v6`, of this family, RPKI_IPV4 or RPKI_IPV6: a SEQUENCE of
 * its bits and of a maximum length, which may be left out, and nothing else. Takes no memory.
 *
 * RPKI_CONTENT: the family is another. Else the statuses are those of the calls that read values; RPKI_CONTENT also for
 * more bits than an address has, and for a maximum length below that of the prefix or above that of an address. What
 * follows a maximum length of one octet is told before its range (RPKI_TRAILING); that it has more octets, before that.
 */
rpki_status rpki_roa_address(struct rpki_span *rest, uint8_t family, struct rpki_roa_address_parts *out) RPKI_CHECKED;

/*
 * Reads an attestation of the providers of an autonomous system (draft-ietf-sidrops-aspa-profile), and says who the
 * customer and the providers are: version 1; the customer; and providers, one at least, each above the one
 * before it, none of which is the customer. Takes no memory.
 *
 * Where a status is not 0, it is an RPKI_PART_ number, from 148 to 151: the leftmost malformed part.
 */
rpki_status rpki_aspa(const uint8_t *octets, size_t size, struct rpki_aspa_parts *out) RPKI_CHECKED;

/*
 * What is wrong with the malformed part. The status is that of rpki_aspa. Where it is an RPKI_PART_ number, `*error`
 * becomes one of RPKI_TRUNCATED to RPKI_TRAILING: the leftmost error, as a reader of that part returns it; RPKI_CONTENT
 * also of another version, of no providers, and of one that is not above the one before it, or is the customer.
 * RPKI_OK: the octets are an attestation, and `*error` is left as it was. Takes no memory.
 */
rpki_status rpki_aspa_error(const uint8_t *octets, size_t size, rpki_status *error) RPKI_CHECKED;

/*
 * Takes the provider at the front of `rest`, as of `providers`, and writes its AS number: an INTEGER below 2^32. Takes
 * no memory. The statuses are those of the calls that read values.
 */
rpki_status rpki_aspa_provider(struct rpki_span *rest, uint32_t *out) RPKI_CHECKED;

/*
 * Reads a signed checklist (RFC 9323 4), a content, and says what its parts are: version 0, which is left out; AS
 * numbers, addresses, or both; SHA-256; and files, one at least. What the resources are, rpki_as_blocks and
 * rpki_ip_blocks say: none may be the issuer's (RFC 9323 4.2). Whether two files are named alike is not looked at.
 * Takes no memory.
 *
 * Where a status is not 0, it is an RPKI_PART_ number, from 184 to 188: the leftmost malformed part.
 */
rpki_status rpki_checklist(const uint8_t *octets, size_t size, struct rpki_checklist_parts *out) RPKI_CHECKED;

/*
 * What is wrong with the malformed part. The status is that of rpki_checklist. Where it is an RPKI_PART_ number,
 * `*error` becomes one of RPKI_TRUNCATED to RPKI_TRAILING: the leftmost error, as a reader of that part returns it;
 * RPKI_CONTENT also of a version, of no resources and of no files. RPKI_OK: the octets are a checklist, and `*error` is
 * left as it was. Takes no memory.
 */
rpki_status rpki_checklist_error(const uint8_t *octets, size_t size, rpki_status *error) RPKI_CHECKED;

/*
 * Takes the file at the front of `rest`, as of `files`: a SEQUENCE of its name, which may be left out, and its digest
 * (RFC 9323 4.4). rpki_manifest_file_is compares the digest. Takes no memory. The statuses are those of the calls that
 * read values; RPKI_CONTENT also of a name that is none, and of a digest of another size.
 */
rpki_status rpki_checklist_file(struct rpki_span *rest, struct rpki_checklist_file_parts *out) RPKI_CHECKED;

/*
 * Reads trust anchor keys (RFC 9691 3.2), a content, and says what their parts are: version 0, which is left out; the
 * current key, and one before and one after it, which may be left out; of each its comments, the URIs of its
 * certificate, one at least, each an rsync URI of an object or an https URI, and the key. Takes no memory.
 *
 * Where a status is not 0, it is an RPKI_PART_ number, from 192 to 196: the leftmost malformed part.
 */
rpki_status rpki_tak(const uint8_t *octets, size_t size, struct rpki_tak_parts *out) RPKI_CHECKED;

/*
 * What is wrong with the malformed part. The status is that of rpki_tak. Where it is an RPKI_PART_ number, `*error`
 * becomes one of RPKI_TRUNCATED to RPKI_TRAILING: the leftmost error, as a reader of that part returns it; RPKI_CONTENT
 * also of a version, of no URI, and of one that is no such URI. RPKI_OK: the octets are trust anchor keys, and `*error`
 * is left as it was. Takes no memory.
 */
rpki_status rpki_tak_error(const uint8_t *octets, size_t size, rpki_status *error) RPKI_CHECKED;

/* ---- Resources: all of the octets are the contents of one extension ---- */

/*
 * The calls below read the contents octets of an extension of resources, as of rpki_extension and
 * rpki_certificate_extensions, in exactly the canonical form (RFC 3779, RFC 6487 4.8.10, 4.8.11). Both
 * policies have the same contents (RFC 8360 4.2.2). None takes memory. Which status where:
 *
 * RPKI_TRUNCATED, RPKI_BAD_TAG, RPKI_BAD_LENGTH, RPKI_UNEXPECTED or RPKI_CONTENT: no beginning of the octets is such
 * contents, by the leftmost part that isn't there. RPKI_CONTENT also for a first or second family that is neither IPv4
 * nor IPv6, and for IPv4 twice (the second is read whole before that); for no blocks; for a block that is empty, that
 * should be a prefix or a shorter spelling, or that has no number between it and the one before; and for an AS number
 * of 2^32 or more. RPKI_TRUNCATED also for no family. RPKI_TRAILING: a beginning is such contents, and octets follow
 * it; or octets follow the last part in the contents of a SEQUENCE, as all do that follow IPv6, another family too.
 */

/*
 * The addresses of id-pe-ipAddrBlocks (RFC 3779 2.2.3): an entry for each block, those of IPv4 first, in order. A
 * family whose addresses are those of the issuer has one entry, with `is_inherited`; one that isn't named has none.
 * `blocks` has room for `capacity` entries. There are fewer of them than octets.
 *
 * RPKI_OK: `*count` entries were written, and the rest of the array is as it was. RPKI_TOO_SMALL: `*count` is how many
 * entries there are, and none was written. With another status neither is written.
 */
rpki_status rpki_ip_blocks(const uint8_t *octets, size_t size, struct rpki_ip_block *blocks, size_t capacity,
                           size_t *count) RPKI_CHECKED;

/* The AS numbers of id-pe-autonomousSysIds (RFC 3779 3.2.3), as rpki_ip_blocks. There are no routing domain ones. */
rpki_status rpki_as_blocks(const uint8_t *octets, size_t size, struct rpki_as_block *blocks, size_t capacity,
                           size_t *count) RPKI_CHECKED;

/*
 * Whether the addresses of `inner` are within those of `outer`, its issuer's (RFC 6487 7.2): in each family `inner`
 * lists none, or says that they are the issuer's, or each address that it lists is one that `outer` lists.
 *
 * RPKI_NO_ANSWER: both are such contents, and `inner` lists addresses of a family of which `outer` says that it has
 * those of its own issuer, so that its octets don't tell. Another status: that of `outer`; with RPKI_SECOND added,
 * where `outer` is right, that of `inner`.
 */
rpki_status rpki_ip_blocks_encompass(const uint8_t *outer, size_t outer_size, const uint8_t *inner, size_t inner_size,
                                     bool *out) RPKI_CHECKED;

/* The same of AS numbers. */
rpki_status rpki_as_blocks_encompass(const uint8_t *outer, size_t outer_size, const uint8_t *inner, size_t inner_size,
                                     bool *out) RPKI_CHECKED;

/*
 * Writes the text of a block, of at most 79 octets, to the front of `out`, which has room for `capacity` octets: that
 * of a prefix, as `10.0.0.0/8`, or of a range that is none, as `10.0.0.0-10.0.0.5`; IPv6 as RFC 5952 says, in mixed
 * notation only in ::ffff:0:0/96; `inherit` where `is_inherited`. `*written` becomes the count of the octets. What is
 * after them in `out` stays.
 *
 * RPKI_TOO_SMALL: there are more than `capacity`. Nothing is written to `out`, and `*written` is the count too.
 * RPKI_CONTENT: the family is another, or the highest address is below the lowest. Of IPv4 only the first four octets
 * are looked at, and where `is_inherited` nothing else.
 */
rpki_status rpki_ip_block_text(const struct rpki_ip_block *block, uint8_t *out, size_t capacity,
                               size_t *written) RPKI_CHECKED;

/* The same of AS numbers, of at most 25 octets: `AS64496` of one number, `AS1-AS5` of a range. */
rpki_status rpki_as_block_text(const struct rpki_as_block *block, uint8_t *out, size_t capacity,
                               size_t *written) RPKI_CHECKED;

/* ---- What decides whether something is valid ---- */

/*
 * Each call below returns RPKI_OK where all holds that it asks, and else the first that does not; rpki_crl_contains and
 * rpki_manifest_names answer by `*out`, which is to be looked at too. They ask of one thing each. "Authorities of a
 * path" has calls that ask all at once, and that can't be asked in another order: each is given what the one before it
 * has made, and refuses another (RPKI_NO_LIST, RPKI_NO_MANIFEST).
 *
 *     rpki_authority_anchor(certificate, key of the locator, &now, .., &bare)   begins a path
 *     rpki_authority_list(&bare, list, .., &listed)                             its revocation list
 *     rpki_authority_manifest(&listed, manifest, .., &whole)                    its manifest, which lists that list,
 *                                                                               and which the list does not revoke
 *     rpki_manifest_file_is(digest, ..)                                         of each of whole.files
 *     rpki_authority_origin, _providers(&whole, object, .., &parts)
 *     rpki_authority_end(&whole, certificate, .., _ROUTER, ..)
 *     rpki_authority_under(&whole, certificate, .., &bare)                      an authority below it; then likewise
 *
 * Where things are say the authority's certificate, by rpki_certificate_extensions, and its manifest: the manifest is
 * at the first rsync URI of RPKI_ACCESS_RPKI_MANIFEST in subject_info_access, and each file that it lists in the folder
 * of the first of RPKI_ACCESS_CA_REPOSITORY, under its name (rpki_rsync_join). Its contents, by rpki_signed_object and
 * rpki_manifest, say which file is the list, the one that ends in `.crl`, before the manifest is valid:
 * rpki_authority_manifest refuses another list than the manifest's. Each file has to be there, with its digest: that is
 * in the caller's care, and where one isn't, nothing of the authority counts (RFC 9286 6.6). What a file is says the
 * end of its name: `.roa`, `.asa`, `.cer`; and of a certificate rpki_certificate_kind, whether it is that of an
 * authority, _CA or _TA, or a router's. One that is refused takes away itself alone, with what is below it.
 *
 * Each path ends, but many may lead to one authority: visit it once, by its key, keys[depth], where its manifest is
 * valid. rpki_rsync_parts_canonical has the host of a URI in lower case, as the names of files have to be.
 *
 * The URIs that certificates have of their issuer's list, of its certificate and of their own object are asked for
 * (RPKI_RULE_REVOCATION_LIST, _ISSUER_CERTIFICATE, _SIGNED_OBJECT; RFC 6487 4.8.6, 4.8.7, 4.8.8.2). One is compared
 * with where that is: a manifest's certificate has to name the manifest's list (RPKI_OTHER_LIST_URI).
 *
 * The small calls look at no more than they say, so an extension that is unknown and critical, that is missing or is
 * too much, is for rpki_certificate_inspect to refuse; two of one identifier each call refuses
 * (RPKI_PART_EXTENSION_IDENTIFIERS). Those that look at resources ask for a policy, and that all resources are of its
 * version, so that one extension of each kind says what they are: RPKI_RULE_RESOURCE_VERSION where those of RFC 3779
 * are beside a policy of RFC 8360, or the other way round. examples/validate does all this.
 */

/*
 * Whether a certificate is that of the trust anchor with this public key, a SubjectPublicKeyInfo, which its locator has
 * (RFC 8630 2.2, 3): its key has these octets; its subject key identifier is that of the key (RFC 6487 4.8.2); and the
 * key has signed it, by RSA with SHA-256. Its profile and its period are not looked at. Takes no memory.
 *
 * The statuses, in this order: those of rpki_certificate_extensions; RPKI_OTHER_ANCHOR; RPKI_OTHER_KEY;
 * RPKI_KEY_NOT_ACCEPTED or RPKI_BAD_SIGNATURE, as of rpki_verify.
 */
rpki_status rpki_anchor_verify(const uint8_t *octets, size_t size, const uint8_t *key, size_t key_size) RPKI_CHECKED;

/*
 * Whether a certificate was issued by another, but for periods, resources, revocation, and the profiles of both (RFC
 * 5280 6.1.3, RFC 6487 7.2): what rpki_certificate_issued_by asks; its subject key identifier is that of its own key
 * (RFC 6487 4.8.2); and the other's key has signed it, by RSA with SHA-256. Takes no memory.
 *
 * The statuses, in this order: those of rpki_certificate_issued_by; RPKI_OTHER_KEY; RPKI_KEY_NOT_ACCEPTED or
 * RPKI_BAD_SIGNATURE, as of rpki_verify.
 */
rpki_status rpki_certificate_signed_by(const uint8_t *octets, size_t size, const uint8_t *issuer,
                                       size_t issuer_size) RPKI_CHECKED;

/*
 * Whether a revocation list was issued by the subject of a certificate (RFC 5280 6.3.3, RFC 6487 5), and is in force at
 * the moment: it has the subject's name, octet for octet, and the identifier of its key; that key has signed it, by RSA
 * with SHA-256; and the moment is not before this update nor after the next. Whether the certificate is valid is not
 * looked at. Of the moment the seconds are not looked at. Takes no memory.
 *
 * The statuses, in this order: those of rpki_crl; RPKI_NO_ISSUER; RPKI_OTHER_ISSUER; RPKI_OTHER_AUTHORITY;
 * RPKI_KEY_NOT_ACCEPTED or RPKI_BAD_SIGNATURE, as of rpki_verify; RPKI_CONTENT: the years 0 to 9999 have no such
 * moment; RPKI_TOO_NEW; RPKI_TOO_OLD.
 */
rpki_status rpki_crl_issued_by(const uint8_t *octets, size_t size, const uint8_t *issuer, size_t issuer_size,
                               const struct rpki_moment *moment) RPKI_CHECKED;

/*
 * Whether a signed object was signed by the key of the certificate in it (RFC 6488 3, RFC 5652 5.4, 5.6): the type of
 * the content and its digest are those that are signed; the signer is named by the certificate's subject key
 * identifier; and the certificate's key has signed the attributes, by RSA with SHA-256. Whether the certificate is
 * valid is not looked at. `strict` is as of rpki_signed_object. Takes no memory.
 *
 * The statuses, in this order: those of rpki_signed_object; RPKI_OTHER_TYPE; RPKI_OTHER_DIGEST; of the certificate,
 * those of rpki_certificate_extensions; RPKI_OTHER_SIGNER; RPKI_KEY_NOT_ACCEPTED or RPKI_BAD_SIGNATURE, as of
 * rpki_verify.
 */
rpki_status rpki_object_verify(const uint8_t *octets, size_t size, bool strict) RPKI_CHECKED;

/* The type of a content, an RPKI_TYPE_ constant, by the contents octets of its object identifier. */
uint8_t rpki_content_type(const uint8_t *octets, size_t size);

/*
 * The addresses that a certificate has under those of its issuer: of each family none, its issuer's (`inherit`), or
 * those that it lists. By the policy of RFC 6484 the issuer has to have all that are listed (RFC 6487 7.2); by that of
 * RFC 8360 those remain that the issuer has (RFC 8360 4.2.4.4). `issuer` are the issuer's blocks, in any order, as this
 * call and rpki_ip_blocks write them: they may overlap or touch, one whose highest address is below its lowest is
 * empty, and those of another family are not looked at. `blocks` has room for `capacity` entries, and none of it is in
 * `issuer`. They are in canonical form, those of IPv4 first, and none is inherited.
 *
 * RPKI_OK: `*count` entries were written, and the rest of the array is as it was. RPKI_TOO_SMALL: `*count` is how many
 * entries there are, and none was written. Else neither is written, and the status is, in this order: RPKI_NO_ANSWER: a
 * block of the issuer is inherited; those of rpki_certificate_extensions; RPKI_RULE_CERTIFICATE_POLICIES: there are
 * none; RPKI_RULE_RESOURCE_VERSION; RPKI_RULE_RESOURCE_BLOCKS: the extension is not critical, or not in canonical form;
 * RPKI_OTHER_RESOURCES; or RPKI_OUT_OF_MEMORY.
 */
rpki_status rpki_ip_settle(const uint8_t *octets, size_t size, const struct rpki_ip_block *issuer, size_t issuer_count,
                           struct rpki_ip_block *blocks, size_t capacity, size_t *count) RPKI_CHECKED;

/* The same of AS numbers. */
rpki_status rpki_as_settle(const uint8_t *octets, size_t size, const struct rpki_as_block *issuer, size_t issuer_count,
                           struct rpki_as_block *blocks, size_t capacity, size_t *count) RPKI_CHECKED;

/*
 * Whether all addresses of a route origin attestation, a content, are among the blocks that its certificate has (RFC
 * 9582 5): as rpki_ip_settle writes them, in any order. `strict` is as of rpki_roa. n prefixes and blocks take n log n
 * steps. The statuses, in this order: RPKI_NO_ANSWER: a block is inherited; those of rpki_roa; RPKI_OTHER_RESOURCES; or
 * RPKI_OUT_OF_MEMORY.
 */
rpki_status rpki_roa_is_within(const uint8_t *octets, size_t size, bool strict, const struct rpki_ip_block *blocks,
                               size_t count) RPKI_CHECKED;

/*
 * Whether the customer of an attestation of providers, a content, is among the blocks that its certificate has, as
 * rpki_as_settle writes them, in any order. Takes no memory. The statuses, in this order: RPKI_NO_ANSWER: a block is
 * inherited; those of rpki_aspa; RPKI_OTHER_RESOURCES.
 */
rpki_status rpki_aspa_is_within(const uint8_t *octets, size_t size, const struct rpki_as_block *blocks,
                                size_t count) RPKI_CHECKED;

/*
 * Whether a certificate names addresses, none of which are its issuer's (`inherit`), and no AS numbers, as one has to
 * that signs a route origin attestation (RFC 9582 5). Takes no memory. The statuses, in this order: those of
 * rpki_certificate_extensions; RPKI_RULE_CERTIFICATE_POLICIES: there are none; RPKI_RULE_RESOURCE_VERSION;
 * RPKI_OTHER_KINDS, also where the extension of addresses is not critical, or not in canonical form.
 */
rpki_status rpki_roa_signer(const uint8_t *octets, size_t size) RPKI_CHECKED;

/* The same of AS numbers, and no addresses: of an attestation of providers (draft-ietf-sidrops-aspa-profile 4). */
rpki_status rpki_aspa_signer(const uint8_t *octets, size_t size) RPKI_CHECKED;

/*
 * Whether all resources that a certificate names are its issuer's, as those of a manifest's certificate have to be (RFC
 * 9286 5.1). Takes no memory. The statuses, in this order: those of rpki_certificate_extensions;
 * RPKI_RULE_CERTIFICATE_POLICIES: there are none; RPKI_RULE_RESOURCE_VERSION; RPKI_NOT_INHERITED, also where an
 * extension of resources is not critical, or not in canonical form.
 */
rpki_status rpki_manifest_inherits(const uint8_t *octets, size_t size) RPKI_CHECKED;

/* Whether the octets are those of the file that a manifest lists with this digest (RFC 9286 6.5): RPKI_OTHER_DIGEST. */
rpki_status rpki_manifest_file_is(const uint8_t digest[32], const uint8_t *octets, size_t size) RPKI_CHECKED;

/* ---- Authorities of a path ---- */

/*
 * The authority of a trust anchor, with which a path begins. The certificate has the profile _TA, names included; its
 * key is that of the locator, as rpki_anchor_verify asks; and it is valid at the moment, at which all of the path is
 * asked, and of which the seconds are not looked at. Its blocks are written to the front of the two arrays, which are
 * lent to `out`. It has neither a list nor a manifest yet.
 *
 * The statuses, in this order: those of rpki_certificate_of_profile; RPKI_OTHER_ANCHOR; RPKI_CONTENT: the years 0 to
 * 9999 have no such moment; RPKI_OTHER_KEY; RPKI_KEY_NOT_ACCEPTED or RPKI_BAD_SIGNATURE; RPKI_TOO_NEW; RPKI_TOO_OLD;
 * RPKI_OUT_OF_MEMORY; RPKI_TOO_SMALL: an array has no room. Else than with RPKI_OK the arrays hold nothing of use.
 */
rpki_status rpki_authority_anchor(const uint8_t *octets, size_t size, const uint8_t *key, size_t key_size,
                                  const struct rpki_moment *moment, struct rpki_ip_block *ip_room, size_t ip_capacity,
                                  struct rpki_as_block *as_room, size_t as_capacity,
                                  struct rpki_authority *out) RPKI_CHECKED;

/*
 * The same authority with its revocation list, which it has issued, and which is in force at the moment of the path:
 * what rpki_crl_issued_by asks. It has the list's digest too, by which rpki_authority_manifest finds it in the
 * manifest, and no manifest yet. Takes no memory. The statuses are those of rpki_crl_issued_by, of the authority's
 * certificate and moment.
 */
rpki_status rpki_authority_list(const struct rpki_authority *by, const uint8_t *octets, size_t size,
                                struct rpki_authority *out) RPKI_CHECKED;

/*
 * The authority of a certificate that another one has issued (RFC 5280 6.1.3, RFC 6487 7.2). It has the profile _CA,
 * names included; the other has issued it, as rpki_certificate_signed_by asks; it is valid at the moment of the path;
 * the other's list doesn't have it; and its key is that of none on the path, so that each path ends. Its blocks are
 * those that rpki_ip_settle and rpki_as_settle find under the other's, and are written to the front of the two arrays,
 * which are lent to `out`. It has neither a list nor a manifest yet.
 *
 * The statuses, in this order: RPKI_NO_MANIFEST: the other has none; those of rpki_certificate_of_profile;
 * RPKI_NO_ISSUER: the other has no certificate; RPKI_CONTENT: its moment is none; RPKI_OTHER_ISSUER;
 * RPKI_OTHER_AUTHORITY; RPKI_OTHER_KEY; RPKI_KEY_NOT_ACCEPTED or RPKI_BAD_SIGNATURE; RPKI_TOO_NEW; RPKI_TOO_OLD;
 * RPKI_NO_LIST; those of rpki_crl_contains; RPKI_REVOKED; RPKI_TOO_DEEP; RPKI_ON_PATH; RPKI_NO_ANSWER: a block of the
 * other is inherited; RPKI_OTHER_RESOURCES; RPKI_OUT_OF_MEMORY; RPKI_TOO_SMALL: an array has no room. Else than with
 * RPKI_OK the arrays hold nothing of use.
 */
rpki_status rpki_authority_under(const struct rpki_authority *by, const uint8_t *octets, size_t size,
                                 struct rpki_ip_block *ip_room, size_t ip_capacity, struct rpki_as_block *as_room,
                                 size_t as_capacity, struct rpki_authority *out) RPKI_CHECKED;

/*
 * The resources of an end entity's certificate that an authority has issued: one that signs an object, or a router's.
 * `profile` is RPKI_CERTIFICATE_EE, _ROUTER or _DETACHED_EE; else it is as rpki_authority_under, but that its key may
 * be any. Whether it has signed an object, rpki_object_verify says.
 *
 * The statuses, in this order: RPKI_NO_PROFILE: it is another number; those of rpki_authority_under, but for
 * RPKI_TOO_DEEP and RPKI_ON_PATH. Else than with RPKI_OK the arrays hold nothing of use.
 */
rpki_status rpki_authority_end(const struct rpki_authority *by, const uint8_t *octets, size_t size, uint8_t profile,
                               struct rpki_ip_block *ip_room, size_t ip_capacity, struct rpki_as_block *as_room,
                               size_t as_capacity, struct rpki_resources *out) RPKI_CHECKED;

/*
 * Reads a signed object that is a route origin attestation, and says what its parts are, as rpki_roa, where it is valid
 * below an authority (RFC 6488 3, RFC 9582 5), which has a manifest: the key of its certificate has signed it, as
 * rpki_object_verify asks; its certificate is valid below the authority, as rpki_authority_end asks of one with the
 * profile _EE; it lists addresses alone, as rpki_roa_signer asks; and it has those of each prefix. `strict` is as of
 * rpki_signed_object and rpki_roa.
 *
 * The statuses, in this order: RPKI_NO_MANIFEST: the authority has none; those of rpki_signed_object; RPKI_OTHER_TYPE:
 * the content is of another type, or not of the one that is signed; RPKI_OTHER_DIGEST; of the certificate, those of
 * rpki_authority_under up to RPKI_REVOKED, of the profile _EE; RPKI_OTHER_SIGNER; RPKI_KEY_NOT_ACCEPTED or
 * RPKI_BAD_SIGNATURE; RPKI_OTHER_KINDS; RPKI_NO_ANSWER; RPKI_OTHER_RESOURCES; those of rpki_roa; RPKI_OTHER_RESOURCES;
 * or RPKI_OUT_OF_MEMORY.
 */
rpki_status rpki_authority_origin(const struct rpki_authority *by, const uint8_t *octets, size_t size, bool strict,
                                  struct rpki_roa_parts *out) RPKI_CHECKED;

/*
 * Reads a signed object that is an attestation of providers, and says what its parts are, as rpki_aspa, where it is
 * valid below an authority: as rpki_authority_origin, but that its certificate lists AS numbers alone, as
 * rpki_aspa_signer asks, and has that of the customer (draft-ietf-sidrops-aspa-profile 4). The statuses are those of
 * rpki_authority_origin, but with those of rpki_aspa in place of rpki_roa.
 */
rpki_status rpki_authority_providers(const struct rpki_authority *by, const uint8_t *octets, size_t size, bool strict,
                                     struct rpki_aspa_parts *out) RPKI_CHECKED;

/*
 * The same authority with its manifest, a signed object that is valid below it (RFC 9286 6.2, 6.3): without one,
 * nothing that it issues is valid. The key of its certificate has signed it, as rpki_object_verify asks; its
 * certificate is valid below the authority, as rpki_authority_end asks of one with the profile _EE; all resources that
 * it names are the authority's, as rpki_manifest_inherits asks; no two files have the same name; one alone has a name
 * that ends in `.crl`, and that has the digest of the authority's list (RFC 6481 2.2); the moment of the path is not
 * before this update nor after the next; and its certificate's CRL distribution point is that list (RFC 6487 4.8.6):
 * the first rsync URI there is that name in the first RPKI_ACCESS_CA_REPOSITORY of the authority, as rpki_rsync_join
 * joins them and rpki_rsync_parts_equal compares. `room` has `capacity` places, one for each file at least, and is
 * written over. n files take n log n steps. `files` of `out` are the manifest's; whether the others are as it says,
 * rpki_manifest_file_is asks of each. Takes no memory.
 *
 * The statuses, in this order: those of rpki_authority_origin from rpki_signed_object's up to RPKI_BAD_SIGNATURE;
 * RPKI_NOT_INHERITED; those of rpki_manifest; RPKI_TOO_SMALL: `room` has too few places; RPKI_SAME_NAMES;
 * RPKI_OTHER_LIST; RPKI_CONTENT: the moment is none; RPKI_TOO_NEW; RPKI_TOO_OLD; RPKI_OTHER_LIST_URI.
 */
rpki_status rpki_authority_manifest(const struct rpki_authority *by, const uint8_t *octets, size_t size, bool strict,
                                    struct rpki_span *room, size_t capacity, struct rpki_authority *out) RPKI_CHECKED;

/* ---- Trust anchor locators: all of the octets are the text of one ---- */

/*
 * Reads a trust anchor locator (RFC 8630 2.2): lines of comments, which begin with `#`; a line for each URI, one at
 * least, an rsync URI of an object, not of a folder, or an https URI; an empty line; and the public key, a
 * SubjectPublicKeyInfo, in base 64 with padding, in any number of lines. A line ends with a line feed, and perhaps a
 * carriage return before it, or with the text. `*count` is how many URIs there are.
 *
 * RPKI_OK, and `*line` is left as it was. Else `*count` is, and `*line` is the number of the line, from 1:
 * RPKI_LOCATOR_ statuses, that of the first malformed line. RPKI_OUT_OF_MEMORY: neither is written.
 */
rpki_status rpki_locator(const uint8_t *text, size_t size, size_t *count, size_t *line) RPKI_CHECKED;

/*
 * Writes a URI of a trust anchor locator, that of this number, from 0, as it is spelled, to the front of `out`, which
 * has room for `capacity` octets. The URIs are in the order in which they are to be tried. `*written` is how many
 * octets it has, with RPKI_TOO_SMALL too. Else the status is one of rpki_locator, or RPKI_NO_ANSWER: there are no more.
 */
rpki_status rpki_locator_uri(const uint8_t *text, size_t size, size_t number, uint8_t *out, size_t capacity,
                             size_t *written) RPKI_CHECKED;

/*
 * Writes the public key of a trust anchor locator likewise, as rpki_public_key_write writes it: for
 * rpki_authority_anchor. The statuses are those of rpki_locator, RPKI_TOO_SMALL, and RPKI_TOO_LONG, as of
 * rpki_public_key_write.
 */
rpki_status rpki_locator_key(const uint8_t *text, size_t size, uint8_t *out, size_t capacity,
                             size_t *written) RPKI_CHECKED;

/* ---- URIs ---- */

/*
 * Reads an rsync URI (RFC 5781), and says where its parts are. The scheme may be in upper case. No segment is `.`,
 * `..` or, but for the last, empty: so the path stays in its module. That is a promise on the text as it is spelled:
 * `%2e%2e` is a segment like another, as nothing is decoded. Who decodes `%` and two digits, to make the name of a file
 * for example, has to look for `..` and for slashes after that.
 *
 * Where a status is not 0, it is an RPKI_URI_ number: 160, 163, 162, 164 to 166 or 161, the first that is wrong in this
 * order.
 */
rpki_status rpki_rsync_parse(const uint8_t *text, size_t size, struct rpki_rsync_parts *out) RPKI_CHECKED;

/*
 * Says where in the text `uri` the path is that leads from `base` to it: the segments after those of `base`, with
 * the last slash. The place is empty, at the end of the text, where both have the same segments. Authorities are
 * compared without regard to case, all else exactly.
 *
 * RPKI_NO_ANSWER: both are rsync URIs, in two modules, or the segments of `base` do not begin those of `uri`. An
 * RPKI_URI_ number: what is wrong with `uri`; with RPKI_SECOND added, with `base`, where `uri` is right.
 */
rpki_status rpki_rsync_relative_to(const uint8_t *uri, size_t uri_size, const uint8_t *base, size_t base_size,
                                   struct rpki_place *out) RPKI_CHECKED;

/*
 * Writes `base` with `path` after it to `out`, which has room for `capacity` octets: `base` itself where the path is
 * empty, else with a slash between them where `base` ends with none. `*written` becomes the count of the octets; what
 * is after them in `out` stays. The text has at most base_size + 1 + path_size octets, and 3,080 are always enough.
 *
 * RPKI_TOO_SMALL: the text is longer than `capacity`; nothing is written. An RPKI_URI_ number: what is wrong with
 * `base`; with RPKI_SECOND added, where `base` is right, what is wrong with `path`, or last RPKI_URI_LONG_URI of the
 * text: a base of 3,036 octets and a path of 60 that begins with `../` give RPKI_SECOND + RPKI_URI_DOT_SEGMENTS.
 */
rpki_status rpki_rsync_join(const uint8_t *base, size_t base_size, const uint8_t *path, size_t path_size, uint8_t *out,
                            size_t capacity, size_t *written) RPKI_CHECKED;

/*
 * The parent of an rsync URI, without its last segment and with the slash before that, is the first `*out` octets of
 * the text. RPKI_NO_ANSWER: its path is empty. Else as rpki_rsync_parse.
 */
rpki_status rpki_rsync_parent(const uint8_t *text, size_t size, size_t *out) RPKI_CHECKED;

/*
 * Reads an https URI, and says where its parts are. Its segments and its length are free, and the authority may be
 * empty. RPKI_URI_INVALID_CHARACTERS, RPKI_URI_BAD_SCHEME or RPKI_URI_BAD_URI, the first in this order.
 */
rpki_status rpki_https_parse(const uint8_t *text, size_t size, struct rpki_https_parts *out) RPKI_CHECKED;

/* ---- URIs that were read before ---- */

/*
 * The calls below take the text of a URI and the parts that rpki_rsync_parse or rpki_https_parse found in it, and read
 * the text no second time. They are safe with any parts: where the places are not laid out as those of a text of this
 * size, the status is RPKI_OTHER_PARTS, and nothing is written. With other parts that are laid out so, nothing is
 * promised of the answer.
 *
 * The calls that make a URI tell its text alone: its parts are those of the first URI, but `path.length` becomes the
 * size of the new text less `path.start`.
 */

/* As rpki_rsync_relative_to, with no RPKI_URI_ number. */
rpki_status rpki_rsync_parts_relative_to(const uint8_t *uri, size_t uri_size, const struct rpki_rsync_parts *parts,
                                         const uint8_t *base, size_t base_size,
                                         const struct rpki_rsync_parts *base_parts,
                                         struct rpki_place *out) RPKI_CHECKED;

/* Whether both are the same URI: they differ at most in the case of the scheme and of the authority. */
rpki_status rpki_rsync_parts_equal(const uint8_t *uri, size_t uri_size, const struct rpki_rsync_parts *parts,
                                   const uint8_t *other, size_t other_size, const struct rpki_rsync_parts *other_parts,
                                   bool *out) RPKI_CHECKED;

/* Whether `other` lies below `uri`: in the same module, with more segments, of which the first are those of `uri`. */
rpki_status rpki_rsync_parts_is_parent_of(const uint8_t *uri, size_t uri_size, const struct rpki_rsync_parts *parts,
                                          const uint8_t *other, size_t other_size,
                                          const struct rpki_rsync_parts *other_parts, bool *out) RPKI_CHECKED;

/* Whether both are in the same module and have the same segments, with a slash last or without. */
rpki_status rpki_rsync_parts_is_identical_to(const uint8_t *uri, size_t uri_size, const struct rpki_rsync_parts *parts,
                                             const uint8_t *other, size_t other_size,
                                             const struct rpki_rsync_parts *other_parts, bool *out) RPKI_CHECKED;

/*
 * Writes the text with its scheme and its authority in lower case to the front of `out`, which has room for `capacity`
 * octets. Two URIs are the same exactly where these texts are: so it serves to hash them. `*written` becomes the count
 * of the octets, which is `size`.
 *
 * RPKI_TOO_SMALL: the text is longer than `capacity`. Nothing is written to `out`, and `*written` is the count too.
 */
rpki_status rpki_rsync_parts_canonical(const uint8_t *text, size_t size, const struct rpki_rsync_parts *parts,
                                       uint8_t *out, size_t capacity, size_t *written) RPKI_CHECKED;

/* As rpki_rsync_parent, with no RPKI_URI_ number. */
rpki_status rpki_rsync_parts_parent(const uint8_t *text, size_t size, const struct rpki_rsync_parts *parts,
                                    size_t *out) RPKI_CHECKED;

/*
 * Writes `base` with `path` after it to `out`, as rpki_rsync_join. RPKI_TOO_SMALL: as of rpki_rsync_parts_canonical. An
 * RPKI_URI_ number: what is wrong with `path`, or last RPKI_URI_LONG_URI of the text.
 */
rpki_status rpki_rsync_parts_join(const uint8_t *base, size_t base_size, const struct rpki_rsync_parts *parts,
                                  const uint8_t *path, size_t path_size, uint8_t *out, size_t capacity,
                                  size_t *written) RPKI_CHECKED;

/*
 * Writes the text to `out`, with a slash last unless its path is empty or has one. It may have one octet more than is
 * read again. RPKI_TOO_SMALL: as of rpki_rsync_parts_canonical.
 */
rpki_status rpki_rsync_parts_into_dir(const uint8_t *text, size_t size, const struct rpki_rsync_parts *parts,
                                      uint8_t *out, size_t capacity, size_t *written) RPKI_CHECKED;

/* Whether both are the same https URI: they differ at most in the case of the scheme and of the authority. */
rpki_status rpki_https_parts_equal(const uint8_t *uri, size_t uri_size, const struct rpki_https_parts *parts,
                                   const uint8_t *other, size_t other_size, const struct rpki_https_parts *other_parts,
                                   bool *out) RPKI_CHECKED;

/* As rpki_rsync_parts_canonical. */
rpki_status rpki_https_parts_canonical(const uint8_t *text, size_t size, const struct rpki_https_parts *parts,
                                       uint8_t *out, size_t capacity, size_t *written) RPKI_CHECKED;

/*
 * The URI above is the first `*out` octets of the text: one last slash of the path dropped, and then everything after
 * the last remaining slash. RPKI_NO_ANSWER: nothing remains.
 */
rpki_status rpki_https_parts_parent(const uint8_t *text, size_t size, const struct rpki_https_parts *parts,
                                    size_t *out) RPKI_CHECKED;

/*
 * Writes `base` with `path` after it to `out`, and a slash between them where the path of `base` is empty or ends with
 * none. RPKI_TOO_SMALL: as of rpki_rsync_parts_canonical. RPKI_URI_INVALID_CHARACTERS: of `path`.
 */
rpki_status rpki_https_parts_join(const uint8_t *base, size_t base_size, const struct rpki_https_parts *parts,
                                  const uint8_t *path, size_t path_size, uint8_t *out, size_t capacity,
                                  size_t *written) RPKI_CHECKED;

/* As rpki_rsync_parts_into_dir. */
rpki_status rpki_https_parts_into_dir(const uint8_t *text, size_t size, const struct rpki_https_parts *parts,
                                      uint8_t *out, size_t capacity, size_t *written) RPKI_CHECKED;

/* ---- What is written ---- */

/*
 * The calls below write to the front of `out`, which has room for `capacity` octets, and `*written` becomes the count
 * of the octets. What is after them in `out` stays.
 *
 * RPKI_TOO_SMALL: there are more than `capacity`, and nothing else is wrong. Nothing is written to `out`, and
 * `*written` is the count too. With another status neither is written. RPKI_OUT_OF_MEMORY: malloc or realloc returned
 * NULL; rpki_hex and rpki_base64_write take no memory.
 */

/* The octets in hexadecimal digits, in upper case: two for each (RFC 4648 8). */
rpki_status rpki_hex(const uint8_t *octets, size_t size, uint8_t *out, size_t capacity, size_t *written) RPKI_CHECKED;

/* The INTEGER of a serial number, of at most 22 octets. RPKI_CONTENT: the first bit is set. */
rpki_status rpki_serial_write(const uint8_t serial[20], uint8_t *out, size_t capacity, size_t *written) RPKI_CHECKED;

/*
 * The value of a time, of at most 17 octets: UTC time in the years 1950 to 2049, generalized time in the others (RFC
 * 5280 4.1.2.5). `moment->seconds` is not looked at. RPKI_CONTENT: the years 0 to 9999 have no such moment.
 */
rpki_status rpki_time_write(const struct rpki_moment *moment, uint8_t *out, size_t capacity,
                            size_t *written) RPKI_CHECKED;

/*
 * The moment so many years later, or earlier, on the same day at the same time; 29 February becomes 28 February.
 * `moment->seconds` is not looked at. Takes no memory. `out` is written where the status is RPKI_OK.
 *
 * RPKI_CONTENT: the years 0 to 9999 have no such moment. RPKI_NO_ANSWER: its year is not of these.
 */
rpki_status rpki_time_years_on(const struct rpki_moment *moment, int32_t years, struct rpki_moment *out) RPKI_CHECKED;

/*
 * The text of the octets in base 64: with the standard alphabet and padding (RFC 4648 4), or, where `url_safe` is true,
 * with the one that is safe in URLs, and none (RFC 4648 5).
 */
rpki_status rpki_base64_write(const uint8_t *octets, size_t size, bool url_safe, uint8_t *out, size_t capacity,
                              size_t *written) RPKI_CHECKED;

/*
 * The octets of a text in base 64. `flavour` is one of the three below; another number is RPKI_BASE64_SLURM.
 *
 * RPKI_INVALID_SYMBOL to RPKI_INVALID_PADDING: the text is not base 64 of the flavour, and `*at` becomes the place of
 * the malformed octet, or that where the symbols end, or for missing padding the size of the text. In the flavour
 * of XML a place counts without white space, but for octets that are not UTF-8, and the size with it. In the other two,
 * octets that are not UTF-8 are no symbols. Any other status leaves `*at`.
 *
 * Takes no memory for a text of at most 128 octets, nor for one that is not UTF-8 in the flavour of XML.
 */
enum {
    RPKI_BASE64_XML = 0,   /* the standard alphabet with padding; space, tab, line feed, form feed and carriage return
                              anywhere */
    RPKI_BASE64_SERDE = 1, /* the standard alphabet with padding */
    RPKI_BASE64_SLURM = 2  /* the alphabet that is safe in URLs, with padding or without (RFC 8416) */
};
rpki_status rpki_base64_read(const uint8_t *text, size_t size, uint8_t flavour, uint8_t *out, size_t capacity,
                             size_t *written, size_t *at) RPKI_CHECKED;

/*
 * The signed data of the RPKI that the octets are, in its normal form: exactly the octets that are signed, the
 * algorithm identifier with NULL for parameters, and the signature with no unused bits. The statuses are those of
 * rpki_signed_data too. RPKI_TOO_LONG: its contents would have 2^32 octets or more.
 */
rpki_status rpki_signed_data_write(const uint8_t *octets, size_t size, uint8_t *out, size_t capacity,
                                   size_t *written) RPKI_CHECKED;

/*
 * Signed data of the RPKI (RFC 5280 4.1, RFC 7935 2): exactly the octets of the value, sha256WithRSAEncryption with
 * NULL for parameters, and the signature with no unused bits. The statuses are those of the calls that read values,
 * where the octets are not one value, with all that is nested in it, and nothing else. RPKI_TOO_LONG: its contents
 * would have 2^32 octets or more.
 */
rpki_status rpki_signed_data_make(const uint8_t *value, size_t size, const uint8_t *signature, size_t signature_size,
                                  uint8_t *out, size_t capacity, size_t *written) RPKI_CHECKED;

/*
 * The public key that the octets are, as it is written: with NULL for the parameters of RSA. The statuses are those of
 * rpki_public_key too. RPKI_TOO_LONG: its contents would have 2^32 octets or more.
 */
rpki_status rpki_public_key_write(const uint8_t *octets, size_t size, uint8_t *out, size_t capacity,
                                  size_t *written) RPKI_CHECKED;

/*
 * The RSA key of two numbers, the most significant octet first, as a public key. Leading zeros are left out.
 * RPKI_TOO_LONG: they have more than 2^31 octets together. RPKI_CONTENT: they don't, and one of them has no octets.
 */
rpki_status rpki_rsa_key_write(const uint8_t *modulus, size_t modulus_size, const uint8_t *exponent,
                               size_t exponent_size, uint8_t *out, size_t capacity, size_t *written) RPKI_CHECKED;

/*
 * The RSA key with these bits, as a public key: a SEQUENCE of two INTEGERs that are not negative, and nothing else. The
 * statuses are those of the calls that read values. RPKI_TOO_LONG: as of rpki_public_key_write. RPKI_OUT_OF_MEMORY:
 * only where the bits are a key's.
 */
rpki_status rpki_rsa_key_of_bits(const uint8_t *bits, size_t size, uint8_t *out, size_t capacity,
                                 size_t *written) RPKI_CHECKED;

/*
 * The name of the subject with the public key that the octets are, of 53 octets: one common name, the digits of its key
 * identifier (RFC 6487 4.5). The statuses are those of rpki_public_key too.
 */
rpki_status rpki_name_of_key(const uint8_t *octets, size_t size, uint8_t *out, size_t capacity,
                             size_t *written) RPKI_CHECKED;

/*
 * The extension of a certificate (RFC 5280 4.1) with these contents octets of its identifier, which are not looked at,
 * and an OCTET STRING of the octets. Where it is not critical the BOOLEAN is left out. RPKI_TOO_LONG: as of
 * rpki_public_key_write.
 */
rpki_status rpki_extension_write(const uint8_t *id, size_t id_size, bool critical, const uint8_t *octets, size_t size,
                                 uint8_t *out, size_t capacity, size_t *written) RPKI_CHECKED;

/* ---- Digits ---- */

/*
 * The decimal digits of a serial number, at most 48, without zeros in front. Written as above; takes no memory.
 * RPKI_CONTENT: the first bit is set.
 */
rpki_status rpki_serial_decimal(const uint8_t serial[20], uint8_t *out, size_t capacity, size_t *written) RPKI_CHECKED;

/*
 * The twenty octets of the serial number that decimal digits write, of which any number of zeros may be in front.
 * RPKI_CONTENT: there are none, another octet is among them, or the number is 2^159 or more.
 */
rpki_status rpki_serial_of_decimal(const uint8_t *text, size_t size, uint8_t out[20]) RPKI_CHECKED;

/*
 * The twenty octets of the serial number that the octets write, the most significant first. RPKI_CONTENT: there are
 * none, more than twenty, or twenty of which the first bit is set.
 */
rpki_status rpki_serial_of_octets(const uint8_t *octets, size_t size, uint8_t out[20]) RPKI_CHECKED;

/*
 * The twenty octets of a key identifier that is all of the octets: an OCTET STRING of twenty (RFC 6487 4.8.2). The
 * statuses are those of the calls that read values; RPKI_CONTENT: another number of octets.
 */
rpki_status rpki_key_identifier_read(const uint8_t *octets, size_t size, uint8_t out[20]) RPKI_CHECKED;

/*
 * The twenty octets of the key identifier that forty hexadecimal digits of either case write; rpki_hex writes them.
 * RPKI_CONTENT: the text is not forty of them.
 */
rpki_status rpki_key_identifier_of_hex(const uint8_t *text, size_t size, uint8_t out[20]) RPKI_CHECKED;

/* ---- Times and periods ---- */

/* Of a moment that is passed to these calls the seconds are not looked at. */

/* As rpki_time_write, but UTC time in any year, with its last two digits (X.690 11.8): 15 octets. */
rpki_status rpki_time_write_utc(const struct rpki_moment *moment, uint8_t *out, size_t capacity,
                                size_t *written) RPKI_CHECKED;

/* As rpki_time_write, but generalized time in any year (X.690 11.7): 17 octets. */
rpki_status rpki_time_write_generalized(const struct rpki_moment *moment, uint8_t *out, size_t capacity,
                                        size_t *written) RPKI_CHECKED;

/*
 * The moment so many seconds later, or earlier, every day with 86,400. Takes no memory. `out` is written where the
 * status is RPKI_OK. RPKI_CONTENT and RPKI_NO_ANSWER: as of rpki_time_years_on.
 */
rpki_status rpki_time_seconds_on(const struct rpki_moment *moment, int64_t seconds,
                                 struct rpki_moment *out) RPKI_CHECKED;

/*
 * The moment so many seconds after 1970-01-01 00:00:00, every day with 86,400, or before it: of what time() returns.
 * Takes no memory. RPKI_NO_ANSWER: its year is not of 0 to 9999; then `out` is left as it was.
 */
rpki_status rpki_time_of_seconds(int64_t seconds, struct rpki_moment *out) RPKI_CHECKED;

/*
 * The value of a period of validity, of at most 36 octets: a SEQUENCE of two times, each as rpki_time_write writes it.
 * RPKI_CONTENT: the years 0 to 9999 have no such moment as one of the two.
 */
rpki_status rpki_validity_write(const struct rpki_period *period, uint8_t *out, size_t capacity,
                                size_t *written) RPKI_CHECKED;

/*
 * Whether the period holds at the moment; it does at both of its ends (RFC 5280 4.1.2.5). Takes no memory.
 * RPKI_TOO_NEW: it begins after the moment. Else RPKI_TOO_OLD: it ended before the moment. RPKI_CONTENT: the years 0 to
 * 9999 have no such moment as one of the three.
 */
rpki_status rpki_validity_at(const struct rpki_period *period, const struct rpki_moment *moment) RPKI_CHECKED;

/*
 * The period that holds exactly where both do: from the later start to the earlier end. Takes no memory. RPKI_CONTENT:
 * the years 0 to 9999 have no such moment as one of the four; then `out` is left as it was.
 */
rpki_status rpki_validity_trim(const struct rpki_period *period, const struct rpki_period *other,
                               struct rpki_period *out) RPKI_CHECKED;

/* ---- Sizes ---- */

/* Sizes and offsets are those of the library, which is built for 64 bits: an array of size -1 is refused here. */
#define RPKI_ASSERT(name, condition) typedef char rpki_assert_##name[(condition) ? 1 : -1]
#define RPKI_ASSERT_AT(type, member, at) RPKI_ASSERT(type##_##member, offsetof(struct rpki_##type, member) == (at))
RPKI_ASSERT(size_t, sizeof(size_t) == 8);
RPKI_ASSERT(bool, sizeof(bool) == 1);
RPKI_ASSERT(span, sizeof(struct rpki_span) == 16);
RPKI_ASSERT_AT(span, data, 0);
RPKI_ASSERT_AT(span, size, 8);
RPKI_ASSERT(place, sizeof(struct rpki_place) == 16);
RPKI_ASSERT_AT(place, start, 0);
RPKI_ASSERT_AT(place, length, 8);
RPKI_ASSERT(header_parts, sizeof(struct rpki_header_parts) == 24);
RPKI_ASSERT_AT(header_parts, tag_class, 0);
RPKI_ASSERT_AT(header_parts, constructed, 1);
RPKI_ASSERT_AT(header_parts, number, 4);
RPKI_ASSERT_AT(header_parts, length, 8);
RPKI_ASSERT_AT(header_parts, size, 16);
RPKI_ASSERT(walked, sizeof(struct rpki_walked) == 16);
RPKI_ASSERT_AT(walked, headers, 0);
RPKI_ASSERT_AT(walked, size, 8);
RPKI_ASSERT(entry, sizeof(struct rpki_entry) == 40);
RPKI_ASSERT_AT(entry, start, 0);
RPKI_ASSERT_AT(entry, contents, 8);
RPKI_ASSERT_AT(entry, end, 16);
RPKI_ASSERT_AT(entry, parent, 24);
RPKI_ASSERT_AT(entry, number, 32);
RPKI_ASSERT_AT(entry, tag_class, 36);
RPKI_ASSERT_AT(entry, constructed, 37);
RPKI_ASSERT(signed_parts, sizeof(struct rpki_signed_parts) == 56);
RPKI_ASSERT_AT(signed_parts, data, 0);
RPKI_ASSERT_AT(signed_parts, algorithm, 16);
RPKI_ASSERT_AT(signed_parts, signature, 32);
RPKI_ASSERT_AT(signed_parts, unused, 48);
RPKI_ASSERT_AT(signed_parts, has_parameters, 49);
RPKI_ASSERT(key_parts, sizeof(struct rpki_key_parts) == 24);
RPKI_ASSERT_AT(key_parts, format, 0);
RPKI_ASSERT_AT(key_parts, unused, 1);
RPKI_ASSERT_AT(key_parts, bits, 8);
RPKI_ASSERT(moment, sizeof(struct rpki_moment) == 32);
RPKI_ASSERT_AT(moment, seconds, 0);
RPKI_ASSERT_AT(moment, year, 8);
RPKI_ASSERT_AT(moment, month, 12);
RPKI_ASSERT_AT(moment, day, 16);
RPKI_ASSERT_AT(moment, hour, 20);
RPKI_ASSERT_AT(moment, minute, 24);
RPKI_ASSERT_AT(moment, second, 28);
RPKI_ASSERT(period, sizeof(struct rpki_period) == 64);
RPKI_ASSERT_AT(period, not_before, 0);
RPKI_ASSERT_AT(period, not_after, 32);
RPKI_ASSERT(extension_parts, sizeof(struct rpki_extension_parts) == 40);
RPKI_ASSERT_AT(extension_parts, id, 0);
RPKI_ASSERT_AT(extension_parts, octets, 16);
RPKI_ASSERT_AT(extension_parts, critical, 32);
RPKI_ASSERT(certificate_parts, sizeof(struct rpki_certificate_parts) == 200);
RPKI_ASSERT_AT(certificate_parts, data, 0);
RPKI_ASSERT_AT(certificate_parts, algorithm, 16);
RPKI_ASSERT_AT(certificate_parts, signature, 32);
RPKI_ASSERT_AT(certificate_parts, issuer, 48);
RPKI_ASSERT_AT(certificate_parts, subject, 64);
RPKI_ASSERT_AT(certificate_parts, public_key, 80);
RPKI_ASSERT_AT(certificate_parts, extensions, 96);
RPKI_ASSERT_AT(certificate_parts, validity, 112);
RPKI_ASSERT_AT(certificate_parts, serial_number, 176);
RPKI_ASSERT_AT(certificate_parts, key_format, 196);
RPKI_ASSERT_AT(certificate_parts, key_unused, 197);
RPKI_ASSERT_AT(certificate_parts, has_parameters, 198);
RPKI_ASSERT(access_parts, sizeof(struct rpki_access_parts) == 40);
RPKI_ASSERT_AT(access_parts, id, 0);
RPKI_ASSERT_AT(access_parts, uri, 16);
RPKI_ASSERT_AT(access_parts, method, 32);
RPKI_ASSERT_AT(access_parts, is_uri, 33);
RPKI_ASSERT(general_name_parts, sizeof(struct rpki_general_name_parts) == 24);
RPKI_ASSERT_AT(general_name_parts, uri, 0);
RPKI_ASSERT_AT(general_name_parts, is_uri, 16);
RPKI_ASSERT(crl_parts, sizeof(struct rpki_crl_parts) == 192);
RPKI_ASSERT_AT(crl_parts, data, 0);
RPKI_ASSERT_AT(crl_parts, algorithm, 16);
RPKI_ASSERT_AT(crl_parts, signature, 32);
RPKI_ASSERT_AT(crl_parts, issuer, 48);
RPKI_ASSERT_AT(crl_parts, revoked_certs, 64);
RPKI_ASSERT_AT(crl_parts, this_update, 80);
RPKI_ASSERT_AT(crl_parts, next_update, 112);
RPKI_ASSERT_AT(crl_parts, crl_number, 144);
RPKI_ASSERT_AT(crl_parts, authority_key_identifier, 164);
RPKI_ASSERT_AT(crl_parts, has_parameters, 184);
RPKI_ASSERT(signed_object_parts, sizeof(struct rpki_signed_object_parts) == 176);
RPKI_ASSERT_AT(signed_object_parts, content_type, 0);
RPKI_ASSERT_AT(signed_object_parts, content, 16);
RPKI_ASSERT_AT(signed_object_parts, certificate, 32);
RPKI_ASSERT_AT(signed_object_parts, signed_attributes, 48);
RPKI_ASSERT_AT(signed_object_parts, signature, 64);
RPKI_ASSERT_AT(signed_object_parts, signing_time, 80);
RPKI_ASSERT_AT(signed_object_parts, binary_signing_time, 112);
RPKI_ASSERT_AT(signed_object_parts, message_digest, 120);
RPKI_ASSERT_AT(signed_object_parts, signer_identifier, 152);
RPKI_ASSERT_AT(signed_object_parts, is_type_signed, 172);
RPKI_ASSERT_AT(signed_object_parts, has_signing_time, 173);
RPKI_ASSERT_AT(signed_object_parts, has_binary_signing_time, 174);
RPKI_ASSERT_AT(signed_object_parts, has_parameters, 175);
RPKI_ASSERT(manifest_parts, sizeof(struct rpki_manifest_parts) == 112);
RPKI_ASSERT_AT(manifest_parts, files, 0);
RPKI_ASSERT_AT(manifest_parts, count, 16);
RPKI_ASSERT_AT(manifest_parts, this_update, 24);
RPKI_ASSERT_AT(manifest_parts, next_update, 56);
RPKI_ASSERT_AT(manifest_parts, manifest_number, 88);
RPKI_ASSERT(manifest_file_parts, sizeof(struct rpki_manifest_file_parts) == 48);
RPKI_ASSERT_AT(manifest_file_parts, name, 0);
RPKI_ASSERT_AT(manifest_file_parts, digest, 16);
RPKI_ASSERT(roa_parts, sizeof(struct rpki_roa_parts) == 56);
RPKI_ASSERT_AT(roa_parts, v4, 0);
RPKI_ASSERT_AT(roa_parts, v6, 16);
RPKI_ASSERT_AT(roa_parts, v4_count, 32);
RPKI_ASSERT_AT(roa_parts, v6_count, 40);
RPKI_ASSERT_AT(roa_parts, as_id, 48);
RPKI_ASSERT(roa_address_parts, sizeof(struct rpki_roa_address_parts) == 19);
RPKI_ASSERT_AT(roa_address_parts, address, 0);
RPKI_ASSERT_AT(roa_address_parts, length, 16);
RPKI_ASSERT_AT(roa_address_parts, max_length, 17);
RPKI_ASSERT_AT(roa_address_parts, has_max_length, 18);
RPKI_ASSERT(aspa_parts, sizeof(struct rpki_aspa_parts) == 32);
RPKI_ASSERT_AT(aspa_parts, providers, 0);
RPKI_ASSERT_AT(aspa_parts, count, 16);
RPKI_ASSERT_AT(aspa_parts, customer, 24);
RPKI_ASSERT(checklist_parts, sizeof(struct rpki_checklist_parts) == 64);
RPKI_ASSERT_AT(checklist_parts, as_numbers, 0);
RPKI_ASSERT_AT(checklist_parts, addresses, 16);
RPKI_ASSERT_AT(checklist_parts, files, 32);
RPKI_ASSERT_AT(checklist_parts, count, 48);
RPKI_ASSERT_AT(checklist_parts, has_as_numbers, 56);
RPKI_ASSERT_AT(checklist_parts, has_addresses, 57);
RPKI_ASSERT(checklist_file_parts, sizeof(struct rpki_checklist_file_parts) == 56);
RPKI_ASSERT_AT(checklist_file_parts, name, 0);
RPKI_ASSERT_AT(checklist_file_parts, digest, 16);
RPKI_ASSERT_AT(checklist_file_parts, has_name, 48);
RPKI_ASSERT(anchor_key_parts, sizeof(struct rpki_anchor_key_parts) == 64);
RPKI_ASSERT_AT(anchor_key_parts, comments, 0);
RPKI_ASSERT_AT(anchor_key_parts, comment_count, 16);
RPKI_ASSERT_AT(anchor_key_parts, uris, 24);
RPKI_ASSERT_AT(anchor_key_parts, uri_count, 40);
RPKI_ASSERT_AT(anchor_key_parts, key, 48);
RPKI_ASSERT(tak_parts, sizeof(struct rpki_tak_parts) == 200);
RPKI_ASSERT_AT(tak_parts, current, 0);
RPKI_ASSERT_AT(tak_parts, predecessor, 64);
RPKI_ASSERT_AT(tak_parts, successor, 128);
RPKI_ASSERT_AT(tak_parts, has_predecessor, 192);
RPKI_ASSERT_AT(tak_parts, has_successor, 193);
RPKI_ASSERT(revoked_certificate, sizeof(struct rpki_revoked_certificate) == 56);
RPKI_ASSERT_AT(revoked_certificate, serial_number, 0);
RPKI_ASSERT_AT(revoked_certificate, revocation_date, 24);
RPKI_ASSERT(serial_number, sizeof(struct rpki_serial_number) == 20);
RPKI_ASSERT_AT(serial_number, octets, 0);
RPKI_ASSERT(known_extension, sizeof(struct rpki_known_extension) == 24);
RPKI_ASSERT_AT(known_extension, octets, 0);
RPKI_ASSERT_AT(known_extension, is_there, 16);
RPKI_ASSERT_AT(known_extension, critical, 17);
RPKI_ASSERT(known_extensions, sizeof(struct rpki_known_extensions) == 360);
RPKI_ASSERT_AT(known_extensions, basic_constraints, 0);
RPKI_ASSERT_AT(known_extensions, subject_key_identifier, 24);
RPKI_ASSERT_AT(known_extensions, authority_key_identifier, 48);
RPKI_ASSERT_AT(known_extensions, key_usage, 72);
RPKI_ASSERT_AT(known_extensions, extended_key_usage, 96);
RPKI_ASSERT_AT(known_extensions, crl_distribution_points, 120);
RPKI_ASSERT_AT(known_extensions, authority_info_access, 144);
RPKI_ASSERT_AT(known_extensions, subject_info_access, 168);
RPKI_ASSERT_AT(known_extensions, certificate_policies, 192);
RPKI_ASSERT_AT(known_extensions, ip_resources, 216);
RPKI_ASSERT_AT(known_extensions, ip_resources_v2, 240);
RPKI_ASSERT_AT(known_extensions, as_resources, 264);
RPKI_ASSERT_AT(known_extensions, as_resources_v2, 288);
RPKI_ASSERT_AT(known_extensions, subject_key, 312);
RPKI_ASSERT_AT(known_extensions, authority_key, 332);
RPKI_ASSERT_AT(known_extensions, is_ca, 352);
RPKI_ASSERT_AT(known_extensions, usage, 353);
RPKI_ASSERT_AT(known_extensions, policy, 354);
RPKI_ASSERT(ip_block, sizeof(struct rpki_ip_block) == 34);
RPKI_ASSERT_AT(ip_block, low, 0);
RPKI_ASSERT_AT(ip_block, high, 16);
RPKI_ASSERT_AT(ip_block, family, 32);
RPKI_ASSERT_AT(ip_block, is_inherited, 33);
RPKI_ASSERT(as_block, sizeof(struct rpki_as_block) == 12);
RPKI_ASSERT_AT(as_block, low, 0);
RPKI_ASSERT_AT(as_block, high, 4);
RPKI_ASSERT_AT(as_block, is_inherited, 8);
RPKI_ASSERT(resources, sizeof(struct rpki_resources) == 32);
RPKI_ASSERT_AT(resources, ip_blocks, 0);
RPKI_ASSERT_AT(resources, ip_count, 8);
RPKI_ASSERT_AT(resources, as_blocks, 16);
RPKI_ASSERT_AT(resources, as_count, 24);
RPKI_ASSERT(key_octets, sizeof(struct rpki_key_octets) == 20);
RPKI_ASSERT_AT(key_octets, octets, 0);
RPKI_ASSERT(authority, sizeof(struct rpki_authority) == 816);
RPKI_ASSERT_AT(authority, certificate, 0);
RPKI_ASSERT_AT(authority, revoked_certs, 16);
RPKI_ASSERT_AT(authority, files, 32);
RPKI_ASSERT_AT(authority, ip_blocks, 48);
RPKI_ASSERT_AT(authority, ip_count, 56);
RPKI_ASSERT_AT(authority, as_blocks, 64);
RPKI_ASSERT_AT(authority, as_count, 72);
RPKI_ASSERT_AT(authority, moment, 80);
RPKI_ASSERT_AT(authority, list_digest, 112);
RPKI_ASSERT_AT(authority, keys, 144);
RPKI_ASSERT_AT(authority, depth, 804);
RPKI_ASSERT_AT(authority, has_list, 808);
RPKI_ASSERT_AT(authority, has_manifest, 809);
RPKI_ASSERT(rsync_parts, sizeof(struct rpki_rsync_parts) == 48);
RPKI_ASSERT_AT(rsync_parts, authority, 0);
RPKI_ASSERT_AT(rsync_parts, module_name, 16);
RPKI_ASSERT_AT(rsync_parts, path, 32);
RPKI_ASSERT(https_parts, sizeof(struct rpki_https_parts) == 32);
RPKI_ASSERT_AT(https_parts, authority, 0);
RPKI_ASSERT_AT(https_parts, path, 16);
#undef RPKI_ASSERT_AT
#undef RPKI_ASSERT

/* ---- In this header alone: nothing below is in the library, and nothing below is proved ---- */

/*
 * What a status says, in a few words of English: static text, of one line. "unknown status": no call returns it. A
 * status with RPKI_SECOND added has the text of that without it, with "second: " in front.
 */
static inline const char *rpki_status_text(rpki_status status) {
    switch ((unsigned)status) {
        case RPKI_OK: return "no error";
        case RPKI_TOO_SMALL: return "buffer too small";
        case RPKI_NO_ANSWER: return "no answer";
        case RPKI_TRUNCATED: return "truncated value";
        case RPKI_BAD_TAG: return "malformed tag";
        case RPKI_BAD_LENGTH: return "malformed length";
        case RPKI_UNEXPECTED: return "unexpected value";
        case RPKI_CONTENT: return "malformed contents";
        case RPKI_TRAILING: return "octets after the value";
        case RPKI_OUT_OF_MEMORY: return "out of memory";
        case RPKI_NO_PROFILE: return "no such profile";
        case RPKI_OTHER_ALGORITHM: return "another algorithm";
        case RPKI_OTHER_PARTS: return "other parts";
        case RPKI_TOO_LONG: return "too long to be written";
        case RPKI_LOCATOR_URI: return "not a URI that a trust anchor locator may have";
        case RPKI_LOCATOR_NO_URI: return "no URI in a trust anchor locator";
        case RPKI_LOCATOR_NO_KEY: return "no empty line after the URIs of a trust anchor locator";
        case RPKI_LOCATOR_TEXT: return "key of a trust anchor locator is not base 64";
        case RPKI_LOCATOR_KEY: return "key of a trust anchor locator is not a public key";
        case RPKI_INVALID_SYMBOL: return "no symbol of base 64";
        case RPKI_INVALID_LENGTH: return "no length of base 64";
        case RPKI_INVALID_LAST_SYMBOL: return "no last symbol of base 64";
        case RPKI_INVALID_PADDING: return "missing padding of base 64";
        case RPKI_TOO_NEW: return "object is not yet valid";
        case RPKI_TOO_OLD: return "object has expired";
        case RPKI_KEY_NOT_ACCEPTED: return "public key not accepted";
        case RPKI_BAD_SIGNATURE: return "bad signature";
        case RPKI_OTHER_DIGEST: return "other digest";
        case RPKI_OTHER_TYPE: return "content type is not the one that is signed";
        case RPKI_OTHER_SIGNER: return "subject key identifier is not that of the signer";
        case RPKI_OTHER_KEY: return "subject key identifier is not that of its own key";
        case RPKI_OTHER_RESOURCES: return "resources outside of those of the issuer";
        case RPKI_NOT_INHERITED: return "resources that are not inherited";
        case RPKI_OTHER_ANCHOR: return "key is not that of the locator";
        case RPKI_OTHER_KINDS: return "other kinds of resources than the object asks for";
        case RPKI_REVOKED: return "certificate is revoked";
        case RPKI_ON_PATH: return "authority is on its own path";
        case RPKI_TOO_DEEP: return "path is too long";
        case RPKI_NO_LIST: return "authority has no revocation list";
        case RPKI_SAME_NAMES: return "two files of one name";
        case RPKI_OTHER_LIST: return "manifest lists another revocation list";
        case RPKI_NO_MANIFEST: return "authority has no manifest";
        case RPKI_OTHER_LIST_URI: return "manifest's certificate names another revocation list";
        case RPKI_PART_CERTIFICATE: return "not a certificate";
        case RPKI_PART_SIGNED: return "malformed signed data";
        case RPKI_PART_ALGORITHM: return "signature algorithm is not the RPKI's";
        case RPKI_PART_SIGNATURE: return "malformed signature";
        case RPKI_PART_TBS: return "malformed certificate";
        case RPKI_PART_VERSION: return "other version";
        case RPKI_PART_SERIAL_NUMBER: return "malformed serial number";
        case RPKI_PART_TBS_ALGORITHM: return "signed algorithm is not the RPKI's";
        case RPKI_PART_ISSUER: return "malformed issuer";
        case RPKI_PART_VALIDITY: return "malformed validity";
        case RPKI_PART_SUBJECT: return "malformed subject";
        case RPKI_PART_PUBLIC_KEY: return "public key is not one of the RPKI's";
        case RPKI_PART_EXTENSIONS: return "malformed extensions";
        case RPKI_PART_EXTENSION_COUNT: return "too many extensions";
        case RPKI_PART_EXTENSION_IDENTIFIERS: return "duplicate extension";
        case RPKI_PART_SAME_ALGORITHM: return "signature algorithms differ";
        case RPKI_PART_THIS_UPDATE: return "no time of issue";
        case RPKI_PART_NEXT_UPDATE: return "no time of the next list";
        case RPKI_PART_REVOKED_CERTS: return "malformed entry of a revoked certificate";
        case RPKI_PART_OBJECT: return "not a signed object";
        case RPKI_PART_OBJECT_TYPE: return "type is not that of signed data";
        case RPKI_PART_SIGNED_DATA: return "malformed signed object";
        case RPKI_PART_OBJECT_VERSION: return "other version of signed data";
        case RPKI_PART_DIGEST_ALGORITHMS: return "digest algorithms are not SHA-256 alone";
        case RPKI_PART_CONTENT: return "malformed content";
        case RPKI_PART_CERTIFICATES: return "missing certificate";
        case RPKI_PART_SIGNERS: return "no signers, or more than these";
        case RPKI_PART_SIGNER: return "not one signer";
        case RPKI_PART_SIGNER_VERSION: return "other version of the signer";
        case RPKI_PART_SIGNER_IDENTIFIER: return "malformed key identifier of the signer";
        case RPKI_PART_SIGNER_DIGEST: return "digest algorithm of the signer is not SHA-256";
        case RPKI_PART_SIGNED_ATTRIBUTES: return "signed attributes that no signed object has";
        case RPKI_PART_SIGNATURE_ALGORITHM: return "other algorithm of the signature";
        case RPKI_PART_OBJECT_SIGNATURE: return "malformed signature of the object";
        case RPKI_PART_MANIFEST: return "not a manifest";
        case RPKI_PART_MANIFEST_NUMBER: return "malformed number of the manifest";
        case RPKI_PART_MANIFEST_THIS_UPDATE: return "malformed time of issue of the manifest";
        case RPKI_PART_MANIFEST_NEXT_UPDATE: return "malformed time of the next manifest";
        case RPKI_PART_HASH_ALGORITHM: return "algorithm of digests is not SHA-256";
        case RPKI_PART_FILE_LIST: return "malformed list of files";
        case RPKI_PART_UPDATE_ORDER: return "next update not after this update";
        case RPKI_PART_ROA: return "not a route origin attestation";
        case RPKI_PART_AS_ID: return "malformed AS number";
        case RPKI_PART_ADDRESS_BLOCKS: return "malformed list of prefixes";
        case RPKI_PART_ASPA: return "not an attestation of providers";
        case RPKI_PART_ASPA_VERSION: return "other version of the attestation";
        case RPKI_PART_CUSTOMER: return "malformed customer";
        case RPKI_PART_PROVIDERS: return "malformed list of providers";
        case RPKI_PART_CHECKLIST: return "not a checklist";
        case RPKI_PART_CHECKLIST_VERSION: return "version of the checklist is there";
        case RPKI_PART_CHECKLIST_RESOURCES: return "malformed resources of the checklist";
        case RPKI_PART_CHECKLIST_ALGORITHM: return "digest algorithm of the checklist is not SHA-256";
        case RPKI_PART_CHECKLIST_FILES: return "malformed files of the checklist";
        case RPKI_PART_TAK: return "not trust anchor keys";
        case RPKI_PART_TAK_VERSION: return "version of the keys is there";
        case RPKI_PART_TAK_CURRENT: return "malformed current key";
        case RPKI_PART_TAK_PREDECESSOR: return "malformed predecessor of the key";
        case RPKI_PART_TAK_SUCCESSOR: return "malformed successor of the key";
        case RPKI_NO_ISSUER: return "issuer is no certificate";
        case RPKI_OTHER_ISSUER: return "issuer has another name";
        case RPKI_OTHER_AUTHORITY: return "key of the issuer is another one";
        case RPKI_WRONG_BASIC_CONSTRAINTS: return "wrong basic constraints";
        case RPKI_WRONG_SUBJECT_KEY_IDENTIFIER: return "wrong subject key identifier";
        case RPKI_WRONG_AUTHORITY_KEY_IDENTIFIER: return "wrong authority key identifier";
        case RPKI_WRONG_KEY_USAGE: return "wrong key usage";
        case RPKI_WRONG_CERTIFICATE_POLICIES: return "wrong certificate policies";
        case RPKI_RULE_SERIAL_NUMBER: return "serial number is 0";
        case RPKI_RULE_CRITICAL_EXTENSIONS: return "unknown critical extension";
        case RPKI_RULE_ISSUER: return "issuer has no name of the RPKI";
        case RPKI_RULE_SUBJECT: return "subject has no name of the RPKI";
        case RPKI_RULE_ROUTER_SUBJECT: return "subject has no name of a router";
        case RPKI_RULE_RSA_KEY: return "key is no RSA key of 2048 bits and the exponent 65537";
        case RPKI_RULE_ROUTER_KEY: return "key is no uncompressed point on P-256";
        case RPKI_RULE_BASIC_CONSTRAINTS: return "missing basic constraints";
        case RPKI_RULE_NO_BASIC_CONSTRAINTS: return "basic constraints are there";
        case RPKI_RULE_SUBJECT_KEY_IDENTIFIER: return "missing subject key identifier";
        case RPKI_RULE_AUTHORITY_KEY_IDENTIFIER: return "missing authority key identifier";
        case RPKI_RULE_AUTHORITY_USAGE: return "key usage is not that of an authority";
        case RPKI_RULE_END_USAGE: return "key usage is not that of an end entity";
        case RPKI_RULE_NO_EXTENDED_KEY_USAGE: return "extended key usage is there";
        case RPKI_RULE_ROUTER_PURPOSE: return "missing purpose of a router";
        case RPKI_RULE_REVOCATION_LIST: return "missing URI of the revocation list";
        case RPKI_RULE_NO_REVOCATION_LIST: return "CRL distribution points are there";
        case RPKI_RULE_ISSUER_CERTIFICATE: return "missing URI of the issuer's certificate";
        case RPKI_RULE_NO_ISSUER_CERTIFICATE: return "authority information access is there";
        case RPKI_RULE_REPOSITORY: return "missing URI of the repository";
        case RPKI_RULE_MANIFEST: return "missing URI of the manifest";
        case RPKI_RULE_SIGNED_OBJECT: return "missing URI of the signed object";
        case RPKI_RULE_NO_SUBJECT_ACCESS: return "subject information access is there";
        case RPKI_RULE_CERTIFICATE_POLICIES: return "missing certificate policies";
        case RPKI_RULE_RESOURCES: return "missing resources, or ones that are not critical";
        case RPKI_RULE_ROUTER_NUMBERS: return "missing AS numbers, or addresses are there";
        case RPKI_RULE_OBJECT_ACCESS: return "other access method of an end entity";
        case RPKI_RULE_VALIDITY: return "period ends before it begins";
        case RPKI_RULE_OWN_AUTHORITY: return "authority key identifier of a trust anchor is not its own";
        case RPKI_RULE_SELF_ISSUED: return "issuer of a trust anchor is not its subject";
        case RPKI_RULE_RESOURCE_VERSION: return "policy and resources of two versions";
        case RPKI_RULE_RESOURCE_BLOCKS: return "resources that are not in canonical form";
        case RPKI_RULE_OWN_RESOURCES: return "resources of the issuer";
        case RPKI_RULE_MANIFEST_PLACE: return "manifest is not in the repository";
        case RPKI_RULE_NOTIFICATIONS: return "notifications without an https URI";
        case RPKI_RULE_ISSUER_SIZE: return "value of the issuer is not of 1 to 64 characters";
        case RPKI_RULE_SUBJECT_SIZE: return "value of the subject is not of 1 to 64 characters";
        case RPKI_RULE_ROUTER_SERIAL_NUMBER: return "serial number of the subject is no PrintableString";
        case RPKI_MISSING_COMMON_NAME: return "missing common name";
        case RPKI_SECOND_COMMON_NAME: return "multiple common names";
        case RPKI_SECOND_SERIAL_NUMBER: return "multiple serial numbers";
        case RPKI_SECOND_ORGANIZATION_NAME: return "multiple organization names";
        case RPKI_STRING_NOT_PERMITTED: return "unpermitted string in name";
        case RPKI_ATTRIBUTE_NOT_PERMITTED: return "unpermitted attribute in name";
        case RPKI_URI_INVALID_CHARACTERS: return "invalid characters";
        case RPKI_URI_BAD_URI: return "bad URI";
        case RPKI_URI_LONG_URI: return "URI exceeds 3072 characters";
        case RPKI_URI_BAD_SCHEME: return "bad URI scheme";
        case RPKI_URI_DOT_SEGMENTS: return "URI with dot path segments";
        case RPKI_URI_EMPTY_SEGMENTS: return "URI with empty path segments";
        case RPKI_URI_LONG_SEGMENTS: return "one or more segments are longer than 255 characters";
        case RPKI_SECOND + RPKI_TRUNCATED: return "second: truncated value";
        case RPKI_SECOND + RPKI_BAD_TAG: return "second: malformed tag";
        case RPKI_SECOND + RPKI_BAD_LENGTH: return "second: malformed length";
        case RPKI_SECOND + RPKI_UNEXPECTED: return "second: unexpected value";
        case RPKI_SECOND + RPKI_CONTENT: return "second: malformed contents";
        case RPKI_SECOND + RPKI_TRAILING: return "second: octets after the value";
        case RPKI_SECOND + RPKI_URI_INVALID_CHARACTERS: return "second: invalid characters";
        case RPKI_SECOND + RPKI_URI_BAD_URI: return "second: bad URI";
        case RPKI_SECOND + RPKI_URI_LONG_URI: return "second: URI exceeds 3072 characters";
        case RPKI_SECOND + RPKI_URI_BAD_SCHEME: return "second: bad URI scheme";
        case RPKI_SECOND + RPKI_URI_DOT_SEGMENTS: return "second: URI with dot path segments";
        case RPKI_SECOND + RPKI_URI_EMPTY_SEGMENTS: return "second: URI with empty path segments";
        case RPKI_SECOND + RPKI_URI_LONG_SEGMENTS: return "second: one or more segments are longer than 255 characters";
        default: return "unknown status";
    }
}

/*
 * The name of a status, as "RPKI_RULE_ISSUER", for logs: static text. Of a sum it is that of the sum, as "RPKI_SECOND +
 * RPKI_TRUNCATED". It is empty where no call returns the status.
 */
static inline const char *rpki_status_name(rpki_status status) {
    switch ((unsigned)status) {
        case RPKI_OK: return "RPKI_OK";
        case RPKI_TRUNCATED: return "RPKI_TRUNCATED";
        case RPKI_BAD_TAG: return "RPKI_BAD_TAG";
        case RPKI_BAD_LENGTH: return "RPKI_BAD_LENGTH";
        case RPKI_UNEXPECTED: return "RPKI_UNEXPECTED";
        case RPKI_CONTENT: return "RPKI_CONTENT";
        case RPKI_TRAILING: return "RPKI_TRAILING";
        case RPKI_OUT_OF_MEMORY: return "RPKI_OUT_OF_MEMORY";
        case RPKI_TOO_SMALL: return "RPKI_TOO_SMALL";
        case RPKI_NO_ANSWER: return "RPKI_NO_ANSWER";
        case RPKI_NO_PROFILE: return "RPKI_NO_PROFILE";
        case RPKI_OTHER_ALGORITHM: return "RPKI_OTHER_ALGORITHM";
        case RPKI_OTHER_PARTS: return "RPKI_OTHER_PARTS";
        case RPKI_TOO_LONG: return "RPKI_TOO_LONG";
        case RPKI_LOCATOR_URI: return "RPKI_LOCATOR_URI";
        case RPKI_LOCATOR_NO_URI: return "RPKI_LOCATOR_NO_URI";
        case RPKI_LOCATOR_NO_KEY: return "RPKI_LOCATOR_NO_KEY";
        case RPKI_LOCATOR_TEXT: return "RPKI_LOCATOR_TEXT";
        case RPKI_LOCATOR_KEY: return "RPKI_LOCATOR_KEY";
        case RPKI_INVALID_SYMBOL: return "RPKI_INVALID_SYMBOL";
        case RPKI_INVALID_LENGTH: return "RPKI_INVALID_LENGTH";
        case RPKI_INVALID_LAST_SYMBOL: return "RPKI_INVALID_LAST_SYMBOL";
        case RPKI_INVALID_PADDING: return "RPKI_INVALID_PADDING";
        case RPKI_TOO_NEW: return "RPKI_TOO_NEW";
        case RPKI_TOO_OLD: return "RPKI_TOO_OLD";
        case RPKI_KEY_NOT_ACCEPTED: return "RPKI_KEY_NOT_ACCEPTED";
        case RPKI_BAD_SIGNATURE: return "RPKI_BAD_SIGNATURE";
        case RPKI_OTHER_DIGEST: return "RPKI_OTHER_DIGEST";
        case RPKI_OTHER_TYPE: return "RPKI_OTHER_TYPE";
        case RPKI_OTHER_SIGNER: return "RPKI_OTHER_SIGNER";
        case RPKI_OTHER_KEY: return "RPKI_OTHER_KEY";
        case RPKI_OTHER_RESOURCES: return "RPKI_OTHER_RESOURCES";
        case RPKI_NOT_INHERITED: return "RPKI_NOT_INHERITED";
        case RPKI_OTHER_ANCHOR: return "RPKI_OTHER_ANCHOR";
        case RPKI_OTHER_KINDS: return "RPKI_OTHER_KINDS";
        case RPKI_REVOKED: return "RPKI_REVOKED";
        case RPKI_ON_PATH: return "RPKI_ON_PATH";
        case RPKI_TOO_DEEP: return "RPKI_TOO_DEEP";
        case RPKI_NO_LIST: return "RPKI_NO_LIST";
        case RPKI_SAME_NAMES: return "RPKI_SAME_NAMES";
        case RPKI_OTHER_LIST: return "RPKI_OTHER_LIST";
        case RPKI_NO_MANIFEST: return "RPKI_NO_MANIFEST";
        case RPKI_OTHER_LIST_URI: return "RPKI_OTHER_LIST_URI";
        case RPKI_PART_CERTIFICATE: return "RPKI_PART_CERTIFICATE";
        case RPKI_PART_SIGNED: return "RPKI_PART_SIGNED";
        case RPKI_PART_ALGORITHM: return "RPKI_PART_ALGORITHM";
        case RPKI_PART_SIGNATURE: return "RPKI_PART_SIGNATURE";
        case RPKI_PART_TBS: return "RPKI_PART_TBS";
        case RPKI_PART_VERSION: return "RPKI_PART_VERSION";
        case RPKI_PART_SERIAL_NUMBER: return "RPKI_PART_SERIAL_NUMBER";
        case RPKI_PART_TBS_ALGORITHM: return "RPKI_PART_TBS_ALGORITHM";
        case RPKI_PART_ISSUER: return "RPKI_PART_ISSUER";
        case RPKI_PART_VALIDITY: return "RPKI_PART_VALIDITY";
        case RPKI_PART_SUBJECT: return "RPKI_PART_SUBJECT";
        case RPKI_PART_PUBLIC_KEY: return "RPKI_PART_PUBLIC_KEY";
        case RPKI_PART_EXTENSIONS: return "RPKI_PART_EXTENSIONS";
        case RPKI_PART_EXTENSION_COUNT: return "RPKI_PART_EXTENSION_COUNT";
        case RPKI_PART_EXTENSION_IDENTIFIERS: return "RPKI_PART_EXTENSION_IDENTIFIERS";
        case RPKI_PART_SAME_ALGORITHM: return "RPKI_PART_SAME_ALGORITHM";
        case RPKI_WRONG_BASIC_CONSTRAINTS: return "RPKI_WRONG_BASIC_CONSTRAINTS";
        case RPKI_WRONG_SUBJECT_KEY_IDENTIFIER: return "RPKI_WRONG_SUBJECT_KEY_IDENTIFIER";
        case RPKI_WRONG_AUTHORITY_KEY_IDENTIFIER: return "RPKI_WRONG_AUTHORITY_KEY_IDENTIFIER";
        case RPKI_WRONG_KEY_USAGE: return "RPKI_WRONG_KEY_USAGE";
        case RPKI_WRONG_CERTIFICATE_POLICIES: return "RPKI_WRONG_CERTIFICATE_POLICIES";
        case RPKI_RULE_SERIAL_NUMBER: return "RPKI_RULE_SERIAL_NUMBER";
        case RPKI_RULE_CRITICAL_EXTENSIONS: return "RPKI_RULE_CRITICAL_EXTENSIONS";
        case RPKI_RULE_ISSUER: return "RPKI_RULE_ISSUER";
        case RPKI_RULE_SUBJECT: return "RPKI_RULE_SUBJECT";
        case RPKI_RULE_ROUTER_SUBJECT: return "RPKI_RULE_ROUTER_SUBJECT";
        case RPKI_RULE_RSA_KEY: return "RPKI_RULE_RSA_KEY";
        case RPKI_RULE_ROUTER_KEY: return "RPKI_RULE_ROUTER_KEY";
        case RPKI_RULE_BASIC_CONSTRAINTS: return "RPKI_RULE_BASIC_CONSTRAINTS";
        case RPKI_RULE_NO_BASIC_CONSTRAINTS: return "RPKI_RULE_NO_BASIC_CONSTRAINTS";
        case RPKI_RULE_SUBJECT_KEY_IDENTIFIER: return "RPKI_RULE_SUBJECT_KEY_IDENTIFIER";
        case RPKI_RULE_AUTHORITY_KEY_IDENTIFIER: return "RPKI_RULE_AUTHORITY_KEY_IDENTIFIER";
        case RPKI_RULE_AUTHORITY_USAGE: return "RPKI_RULE_AUTHORITY_USAGE";
        case RPKI_RULE_END_USAGE: return "RPKI_RULE_END_USAGE";
        case RPKI_RULE_NO_EXTENDED_KEY_USAGE: return "RPKI_RULE_NO_EXTENDED_KEY_USAGE";
        case RPKI_RULE_ROUTER_PURPOSE: return "RPKI_RULE_ROUTER_PURPOSE";
        case RPKI_RULE_REVOCATION_LIST: return "RPKI_RULE_REVOCATION_LIST";
        case RPKI_RULE_NO_REVOCATION_LIST: return "RPKI_RULE_NO_REVOCATION_LIST";
        case RPKI_RULE_ISSUER_CERTIFICATE: return "RPKI_RULE_ISSUER_CERTIFICATE";
        case RPKI_RULE_NO_ISSUER_CERTIFICATE: return "RPKI_RULE_NO_ISSUER_CERTIFICATE";
        case RPKI_RULE_REPOSITORY: return "RPKI_RULE_REPOSITORY";
        case RPKI_RULE_MANIFEST: return "RPKI_RULE_MANIFEST";
        case RPKI_RULE_SIGNED_OBJECT: return "RPKI_RULE_SIGNED_OBJECT";
        case RPKI_RULE_NO_SUBJECT_ACCESS: return "RPKI_RULE_NO_SUBJECT_ACCESS";
        case RPKI_RULE_CERTIFICATE_POLICIES: return "RPKI_RULE_CERTIFICATE_POLICIES";
        case RPKI_RULE_RESOURCES: return "RPKI_RULE_RESOURCES";
        case RPKI_RULE_ROUTER_NUMBERS: return "RPKI_RULE_ROUTER_NUMBERS";
        case RPKI_RULE_OBJECT_ACCESS: return "RPKI_RULE_OBJECT_ACCESS";
        case RPKI_RULE_VALIDITY: return "RPKI_RULE_VALIDITY";
        case RPKI_RULE_OWN_AUTHORITY: return "RPKI_RULE_OWN_AUTHORITY";
        case RPKI_RULE_SELF_ISSUED: return "RPKI_RULE_SELF_ISSUED";
        case RPKI_RULE_RESOURCE_VERSION: return "RPKI_RULE_RESOURCE_VERSION";
        case RPKI_RULE_RESOURCE_BLOCKS: return "RPKI_RULE_RESOURCE_BLOCKS";
        case RPKI_RULE_OWN_RESOURCES: return "RPKI_RULE_OWN_RESOURCES";
        case RPKI_RULE_MANIFEST_PLACE: return "RPKI_RULE_MANIFEST_PLACE";
        case RPKI_RULE_NOTIFICATIONS: return "RPKI_RULE_NOTIFICATIONS";
        case RPKI_RULE_ISSUER_SIZE: return "RPKI_RULE_ISSUER_SIZE";
        case RPKI_RULE_SUBJECT_SIZE: return "RPKI_RULE_SUBJECT_SIZE";
        case RPKI_RULE_ROUTER_SERIAL_NUMBER: return "RPKI_RULE_ROUTER_SERIAL_NUMBER";
        case RPKI_PART_THIS_UPDATE: return "RPKI_PART_THIS_UPDATE";
        case RPKI_PART_NEXT_UPDATE: return "RPKI_PART_NEXT_UPDATE";
        case RPKI_PART_REVOKED_CERTS: return "RPKI_PART_REVOKED_CERTS";
        case RPKI_PART_OBJECT: return "RPKI_PART_OBJECT";
        case RPKI_PART_OBJECT_TYPE: return "RPKI_PART_OBJECT_TYPE";
        case RPKI_PART_SIGNED_DATA: return "RPKI_PART_SIGNED_DATA";
        case RPKI_PART_OBJECT_VERSION: return "RPKI_PART_OBJECT_VERSION";
        case RPKI_PART_DIGEST_ALGORITHMS: return "RPKI_PART_DIGEST_ALGORITHMS";
        case RPKI_PART_CONTENT: return "RPKI_PART_CONTENT";
        case RPKI_PART_CERTIFICATES: return "RPKI_PART_CERTIFICATES";
        case RPKI_PART_SIGNERS: return "RPKI_PART_SIGNERS";
        case RPKI_PART_SIGNER: return "RPKI_PART_SIGNER";
        case RPKI_PART_SIGNER_VERSION: return "RPKI_PART_SIGNER_VERSION";
        case RPKI_PART_SIGNER_IDENTIFIER: return "RPKI_PART_SIGNER_IDENTIFIER";
        case RPKI_PART_SIGNER_DIGEST: return "RPKI_PART_SIGNER_DIGEST";
        case RPKI_PART_SIGNED_ATTRIBUTES: return "RPKI_PART_SIGNED_ATTRIBUTES";
        case RPKI_PART_SIGNATURE_ALGORITHM: return "RPKI_PART_SIGNATURE_ALGORITHM";
        case RPKI_PART_OBJECT_SIGNATURE: return "RPKI_PART_OBJECT_SIGNATURE";
        case RPKI_PART_MANIFEST: return "RPKI_PART_MANIFEST";
        case RPKI_PART_MANIFEST_NUMBER: return "RPKI_PART_MANIFEST_NUMBER";
        case RPKI_PART_MANIFEST_THIS_UPDATE: return "RPKI_PART_MANIFEST_THIS_UPDATE";
        case RPKI_PART_MANIFEST_NEXT_UPDATE: return "RPKI_PART_MANIFEST_NEXT_UPDATE";
        case RPKI_PART_HASH_ALGORITHM: return "RPKI_PART_HASH_ALGORITHM";
        case RPKI_PART_FILE_LIST: return "RPKI_PART_FILE_LIST";
        case RPKI_PART_UPDATE_ORDER: return "RPKI_PART_UPDATE_ORDER";
        case RPKI_PART_ROA: return "RPKI_PART_ROA";
        case RPKI_PART_AS_ID: return "RPKI_PART_AS_ID";
        case RPKI_PART_ADDRESS_BLOCKS: return "RPKI_PART_ADDRESS_BLOCKS";
        case RPKI_PART_ASPA: return "RPKI_PART_ASPA";
        case RPKI_PART_ASPA_VERSION: return "RPKI_PART_ASPA_VERSION";
        case RPKI_PART_CUSTOMER: return "RPKI_PART_CUSTOMER";
        case RPKI_PART_PROVIDERS: return "RPKI_PART_PROVIDERS";
        case RPKI_PART_CHECKLIST: return "RPKI_PART_CHECKLIST";
        case RPKI_PART_CHECKLIST_VERSION: return "RPKI_PART_CHECKLIST_VERSION";
        case RPKI_PART_CHECKLIST_RESOURCES: return "RPKI_PART_CHECKLIST_RESOURCES";
        case RPKI_PART_CHECKLIST_ALGORITHM: return "RPKI_PART_CHECKLIST_ALGORITHM";
        case RPKI_PART_CHECKLIST_FILES: return "RPKI_PART_CHECKLIST_FILES";
        case RPKI_PART_TAK: return "RPKI_PART_TAK";
        case RPKI_PART_TAK_VERSION: return "RPKI_PART_TAK_VERSION";
        case RPKI_PART_TAK_CURRENT: return "RPKI_PART_TAK_CURRENT";
        case RPKI_PART_TAK_PREDECESSOR: return "RPKI_PART_TAK_PREDECESSOR";
        case RPKI_PART_TAK_SUCCESSOR: return "RPKI_PART_TAK_SUCCESSOR";
        case RPKI_NO_ISSUER: return "RPKI_NO_ISSUER";
        case RPKI_OTHER_ISSUER: return "RPKI_OTHER_ISSUER";
        case RPKI_OTHER_AUTHORITY: return "RPKI_OTHER_AUTHORITY";
        case RPKI_URI_INVALID_CHARACTERS: return "RPKI_URI_INVALID_CHARACTERS";
        case RPKI_URI_BAD_URI: return "RPKI_URI_BAD_URI";
        case RPKI_URI_LONG_URI: return "RPKI_URI_LONG_URI";
        case RPKI_URI_BAD_SCHEME: return "RPKI_URI_BAD_SCHEME";
        case RPKI_URI_DOT_SEGMENTS: return "RPKI_URI_DOT_SEGMENTS";
        case RPKI_URI_EMPTY_SEGMENTS: return "RPKI_URI_EMPTY_SEGMENTS";
        case RPKI_URI_LONG_SEGMENTS: return "RPKI_URI_LONG_SEGMENTS";
        case RPKI_MISSING_COMMON_NAME: return "RPKI_MISSING_COMMON_NAME";
        case RPKI_SECOND_COMMON_NAME: return "RPKI_SECOND_COMMON_NAME";
        case RPKI_SECOND_SERIAL_NUMBER: return "RPKI_SECOND_SERIAL_NUMBER";
        case RPKI_SECOND_ORGANIZATION_NAME: return "RPKI_SECOND_ORGANIZATION_NAME";
        case RPKI_STRING_NOT_PERMITTED: return "RPKI_STRING_NOT_PERMITTED";
        case RPKI_ATTRIBUTE_NOT_PERMITTED: return "RPKI_ATTRIBUTE_NOT_PERMITTED";
        case RPKI_SECOND + RPKI_TRUNCATED: return "RPKI_SECOND + RPKI_TRUNCATED";
        case RPKI_SECOND + RPKI_BAD_TAG: return "RPKI_SECOND + RPKI_BAD_TAG";
        case RPKI_SECOND + RPKI_BAD_LENGTH: return "RPKI_SECOND + RPKI_BAD_LENGTH";
        case RPKI_SECOND + RPKI_UNEXPECTED: return "RPKI_SECOND + RPKI_UNEXPECTED";
        case RPKI_SECOND + RPKI_CONTENT: return "RPKI_SECOND + RPKI_CONTENT";
        case RPKI_SECOND + RPKI_TRAILING: return "RPKI_SECOND + RPKI_TRAILING";
        case RPKI_SECOND + RPKI_URI_INVALID_CHARACTERS: return "RPKI_SECOND + RPKI_URI_INVALID_CHARACTERS";
        case RPKI_SECOND + RPKI_URI_BAD_URI: return "RPKI_SECOND + RPKI_URI_BAD_URI";
        case RPKI_SECOND + RPKI_URI_LONG_URI: return "RPKI_SECOND + RPKI_URI_LONG_URI";
        case RPKI_SECOND + RPKI_URI_BAD_SCHEME: return "RPKI_SECOND + RPKI_URI_BAD_SCHEME";
        case RPKI_SECOND + RPKI_URI_DOT_SEGMENTS: return "RPKI_SECOND + RPKI_URI_DOT_SEGMENTS";
        case RPKI_SECOND + RPKI_URI_EMPTY_SEGMENTS: return "RPKI_SECOND + RPKI_URI_EMPTY_SEGMENTS";
        case RPKI_SECOND + RPKI_URI_LONG_SEGMENTS: return "RPKI_SECOND + RPKI_URI_LONG_SEGMENTS";
        default: return "";
    }
}

/*
 * The sections that have the rule which a status names, as "RFC 6487 4.8.1": of RPKI_RULE_ constants and of the calls
 * that decide, static text. It is empty for any other status.
 */
static inline const char *rpki_rule_text(rpki_status status) {
    switch ((unsigned)status) {
        case RPKI_RULE_SERIAL_NUMBER: return "RFC 5280 4.1.2.2";
        case RPKI_RULE_CRITICAL_EXTENSIONS: return "RFC 5280 4.2";
        case RPKI_RULE_ISSUER: return "RFC 6487 4.4";
        case RPKI_RULE_SUBJECT: return "RFC 6487 4.5";
        case RPKI_RULE_ROUTER_SUBJECT:
        case RPKI_RULE_ROUTER_SERIAL_NUMBER: return "RFC 8209 3.1.1";
        case RPKI_RULE_RSA_KEY: return "RFC 7935 3";
        case RPKI_RULE_ROUTER_KEY: return "RFC 8608 3.1";
        case RPKI_RULE_BASIC_CONSTRAINTS:
        case RPKI_RULE_NO_BASIC_CONSTRAINTS: return "RFC 6487 4.8.1";
        case RPKI_RULE_SUBJECT_KEY_IDENTIFIER:
        case RPKI_OTHER_KEY: return "RFC 6487 4.8.2";
        case RPKI_RULE_AUTHORITY_KEY_IDENTIFIER:
        case RPKI_RULE_OWN_AUTHORITY:
        case RPKI_OTHER_AUTHORITY: return "RFC 6487 4.8.3";
        case RPKI_RULE_AUTHORITY_USAGE:
        case RPKI_RULE_END_USAGE: return "RFC 6487 4.8.4";
        case RPKI_RULE_NO_EXTENDED_KEY_USAGE: return "RFC 6487 4.8.5";
        case RPKI_RULE_ROUTER_PURPOSE: return "RFC 8209 3.1.3.2";
        case RPKI_RULE_REVOCATION_LIST:
        case RPKI_RULE_NO_REVOCATION_LIST: return "RFC 6487 4.8.6";
        case RPKI_RULE_ISSUER_CERTIFICATE:
        case RPKI_RULE_NO_ISSUER_CERTIFICATE: return "RFC 6487 4.8.7";
        case RPKI_RULE_REPOSITORY:
        case RPKI_RULE_MANIFEST: return "RFC 6487 4.8.8.1";
        case RPKI_RULE_SIGNED_OBJECT:
        case RPKI_RULE_OBJECT_ACCESS: return "RFC 6487 4.8.8.2";
        case RPKI_RULE_NO_SUBJECT_ACCESS: return "RFC 8209 3.1.3.3, RFC 9323 2";
        case RPKI_RULE_CERTIFICATE_POLICIES: return "RFC 6487 4.8.9";
        case RPKI_RULE_RESOURCES:
        case RPKI_RULE_RESOURCE_BLOCKS: return "RFC 6487 4.8.10, 4.8.11";
        case RPKI_RULE_ROUTER_NUMBERS: return "RFC 8209 3.1.3.4, 3.1.3.5";
        case RPKI_RULE_VALIDITY: return "RFC 5280 4.1.2.5";
        case RPKI_RULE_SELF_ISSUED: return "RFC 8630 2.3";
        case RPKI_RULE_RESOURCE_VERSION: return "RFC 8360 4.2";
        case RPKI_RULE_OWN_RESOURCES: return "RFC 8630 2.3, RFC 8209 3.1.3.5";
        case RPKI_RULE_MANIFEST_PLACE: return "RFC 6487 4.8.8.1, RFC 9286 2";
        case RPKI_RULE_NOTIFICATIONS: return "RFC 8182 3.2";
        case RPKI_RULE_ISSUER_SIZE:
        case RPKI_RULE_SUBJECT_SIZE: return "RFC 5280 A.1";
        case RPKI_OTHER_DIGEST: return "RFC 9286 6.5, RFC 5652 11.2";
        case RPKI_OTHER_TYPE: return "RFC 5652 11.1";
        case RPKI_OTHER_SIGNER: return "RFC 6488 3";
        case RPKI_OTHER_RESOURCES: return "RFC 6487 7.2, RFC 9582 5";
        case RPKI_NOT_INHERITED: return "RFC 9286 5.1";
        case RPKI_OTHER_ANCHOR: return "RFC 8630 3";
        case RPKI_OTHER_KINDS: return "RFC 9582 5";
        case RPKI_REVOKED: return "RFC 6487 7.2";
        case RPKI_SAME_NAMES: return "RFC 9286 4.2.1";
        case RPKI_OTHER_ISSUER: return "RFC 5280 6.1.3";
        case RPKI_NO_ISSUER: return "RFC 6487 7.2";
        case RPKI_TOO_NEW:
        case RPKI_TOO_OLD: return "RFC 5280 4.1.2.5, 5.1.2.4, 5.1.2.5, RFC 9286 6.3";
        case RPKI_KEY_NOT_ACCEPTED: return "RFC 7935 3";
        case RPKI_BAD_SIGNATURE: return "RFC 7935 2, RFC 8017 8.2.2";
        case RPKI_NO_LIST: return "RFC 6487 7.2";
        case RPKI_OTHER_LIST: return "RFC 6481 2.2, RFC 9286 4.2.1, 6.5";
        case RPKI_NO_MANIFEST: return "RFC 9286 6.2";
        case RPKI_OTHER_LIST_URI: return "RFC 6487 4.8.6";
        default: return "";
    }
}

/* The former name of rpki_certificate_of_profile, which verifies nothing. */
static inline RPKI_RENAMED rpki_status rpki_certificate_checked(const uint8_t *octets, size_t size, uint8_t profile,
                                                                bool strict, struct rpki_certificate_parts *parts,
                                                                struct rpki_known_extensions *extensions) {
    return rpki_certificate_of_profile(octets, size, profile, strict, parts, extensions);
}

/* The former name of rpki_signed_object_of_profile, which verifies nothing. */
static inline RPKI_RENAMED rpki_status rpki_signed_object_checked(const uint8_t *octets, size_t size, bool attributes,
                                                                  bool names, struct rpki_signed_object_parts *object,
                                                                  struct rpki_certificate_parts *certificate,
                                                                  struct rpki_known_extensions *extensions) {
    return rpki_signed_object_of_profile(octets, size, attributes, names, object, certificate, extensions);
}

/* No entry: what the calls below return where there is none. */
#define RPKI_NO_ENTRY SIZE_MAX

/* The number of the first entry inside entry `number` of the `count` that rpki_index wrote, or RPKI_NO_ENTRY. */
static inline size_t rpki_first_child(const struct rpki_entry *entries, size_t count, size_t number) {
    return number < count && count - number > 1 && entries[number + 1].parent == number ? number + 1 : RPKI_NO_ENTRY;
}

/*
 * The number of the next entry in the value around entry `number`, or RPKI_NO_ENTRY. Entries are in order of place:
 * it is found by steps that double, since it is often near, and then by halving.
 */
static inline size_t rpki_next_sibling(const struct rpki_entry *entries, size_t count, size_t number) {
    size_t low = number, high = count, step = 1;
    if (number >= count) return RPKI_NO_ENTRY;
    while (step < count - low && entries[low + step].start < entries[number].end) {
        low += step;
        step *= 2;
    }
    if (step < count - low) high = low + step;
    while (high - low > 1) {
        size_t middle = low + (high - low) / 2;
        if (entries[middle].start < entries[number].end) {
            low = middle;
        } else {
            high = middle;
        }
    }
    return high < count && entries[high].parent == entries[number].parent ? high : RPKI_NO_ENTRY;
}

/* Where the contents of an entry's value are. */
static inline struct rpki_place rpki_contents(const struct rpki_entry *entry) {
    struct rpki_place place;
    place.start = entry->contents;
    place.length = entry->end - entry->contents;
    return place;
}

/* For rpki_oid_text: puts a character before text[at] to text[*end - 1], where there is room for one more. */
static inline bool rpki_oid_insert(char *text, size_t capacity, size_t at, size_t *end, char character) {
    size_t place;
    if (*end >= capacity) return false;
    for (place = *end; place > at; place--) text[place] = text[place - 1];
    text[at] = character;
    ++*end;
    return true;
}

/* For rpki_oid_text: the octets of an arc, of which a UUID as an arc takes 19 (X.667). */
#define RPKI_ARC_OCTETS 20

/* For rpki_oid_text: whether these are the contents octets of an object identifier, with arcs that are not too long. */
static inline rpki_status rpki_oid_check(const uint8_t *contents, size_t size) {
    size_t place, first = 0;
    bool is_long = false;
    if (size == 0 || contents[size - 1] >= 0x80) return RPKI_CONTENT;
    for (place = 0; place < size; place++) {
        if (place == first && contents[place] == 0x80) return RPKI_CONTENT;
        if (place - first >= RPKI_ARC_OCTETS) is_long = true;
        if (contents[place] < 0x80) first = place + 1;
    }
    return is_long ? RPKI_TOO_LONG : RPKI_OK;
}

/*
 * Writes the dotted form of an object identifier, of which these are the contents octets (X.690 8.19), with a zero
 * after it: `2A 86 48` is "1.2.840". `capacity` is the room at `text`; 4 * size + 3 is always enough.
 *
 * In this order: RPKI_CONTENT: the octets are no identifier: there are none, the last one is not the last of an arc, or
 * an arc begins with 0x80. RPKI_TOO_LONG: an arc has more than 20 octets. RPKI_TOO_SMALL: `capacity` is too small; then
 * `text` holds nothing of use.
 */
static inline rpki_status rpki_oid_text(const uint8_t *contents, size_t size, char *text, size_t capacity) {
    size_t place, at = 0, end = 0; /* the arc that is read has the digits text[at] to text[end - 1] */
    rpki_status status = rpki_oid_check(contents, size);
    if (status != RPKI_OK) return status;
    for (place = 0; place < size; place++) {
        size_t digit;
        unsigned more = contents[place] & 0x7F;
        for (digit = end; digit > at; digit--) { /* the arc times 128, and seven bits more */
            more += 128 * (unsigned)(text[digit - 1] - '0');
            text[digit - 1] = (char)('0' + more % 10);
            more /= 10;
        }
        for (; more > 0 || at == end; more /= 10) {
            if (!rpki_oid_insert(text, capacity, at, &end, (char)('0' + more % 10))) return RPKI_TOO_SMALL;
        }
        if (contents[place] >= 0x80) continue;
        if (at == 0) { /* the first two arcs: 40 times the first one, which is 0, 1 or 2, and the second one */
            bool is_large = end > 2 || (end == 2 && text[0] >= '8');
            unsigned first = is_large ? 2 : end == 2 && text[0] >= '4' ? 1 : 0;
            if (end > 1) { /* less 40 or 80: from the tens on, with what has to be borrowed */
                unsigned less = 4 * first;
                for (digit = end - 1; digit > 0 && less > 0; digit--) {
                    unsigned from = (unsigned)(text[digit - 1] - '0');
                    text[digit - 1] = (char)('0' + (from + 10 - less) % 10);
                    less = from < less ? 1 : 0;
                }
                for (; end > 1 && text[0] == '0'; end--) {
                    for (digit = 1; digit < end; digit++) text[digit - 1] = text[digit];
                }
            }
            if (!rpki_oid_insert(text, capacity, 0, &end, '.')) return RPKI_TOO_SMALL;
            if (!rpki_oid_insert(text, capacity, 0, &end, (char)('0' + first))) return RPKI_TOO_SMALL;
        }
        if (end >= capacity) return RPKI_TOO_SMALL;
        text[end] = place + 1 < size ? '.' : 0;
        at = ++end;
    }
    return RPKI_OK;
}

#ifdef __cplusplus
}
#endif

#endif
