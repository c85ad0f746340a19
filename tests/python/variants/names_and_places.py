"""Variants of a certificate in its names and places: general names, URIs, where objects lie, and names of issuers and
subjects (RFC 5280 4.2.1.6 and A.1, RFC 6487 4.4 and 4.8.6 to 4.8.8, RFC 8182 3.2, RFC 8209 3.1.1)."""
from der import oid, sequence, tlv
from lax import values_of
from makers.certificate import POINT, SECURE, SIGNED, both, end_entity, put, router, subject
from makers.x509 import (
    AUTHORITY_ACCESS, CA_ISSUERS, COMMON, MANIFEST, NOTIFY, OBJECT, ORGANIZATION, PRINTABLE, REPOSITORY, REVOCATION,
    SERIAL, SUBJECT_ACCESS, UNKNOWN, UTF8, accesses, of_names, point, uri,
)

NO_NAME = "malformed general name"
NO_IA5 = "malformed IA5String"
ELSEWHERE = "RFC 6487 4.8.8.1, RFC 9286 2: manifest is not in the repository"
NO_HTTPS = "RFC 8182 3.2: notifications without an https URI"
OTHER_STRING, ROUTER_STRING = "invalid name", "unpermitted string variant in common name"
ISSUER_SIZE = "RFC 5280 A.1: value of the issuer is not of 1 to 64 characters"
SUBJECT_SIZE = "RFC 5280 A.1: value of the subject is not of 1 to 64 characters"
ROUTER_NUMBER = "RFC 8209 3.1.1: serial number of the subject is no PrintableString"


def router_of(*attributes):
    return both(router, subject(*attributes))


def issuer(*attributes):
    """The issuer's name, of these attributes."""
    def change(it):
        it.tbs.inside[3] = values_of(of_names(*attributes))[0]
    return change


def beside(general_name):
    """The access to the issuer by this general name, and by a URI after it."""
    return put(AUTHORITY_ACCESS, accesses((CA_ISSUERS, general_name), (CA_ISSUERS, uri(POINT))))


IN_REPOSITORY = [(REPOSITORY, uri(b"rsync://example.net/m/d/")), (MANIFEST, uri(b"rsync://example.net/m/d/m.mft"))]


def published(repository, manifest, *others):
    return put(SUBJECT_ACCESS, accesses((REPOSITORY, uri(repository)), (MANIFEST, uri(manifest)), *others))


def notified(*general_names):
    return put(SUBJECT_ACCESS, accesses(*IN_REPOSITORY, *((NOTIFY, name) for name in general_names)))


# General names that are none, and the error; and ones that are (RFC 5280 4.2.1.6).
NO_NAMES = [
    ("a NULL", b"\x05\x00", NO_NAME),
    ("one of tag 9", tlv(0x89, b"a"), NO_NAME),
    ("one of tag 9, constructed", tlv(0xa9, b""), NO_NAME),
    ("an application's tag", tlv(0x41, b"a"), NO_NAME),
    ("another name of octets 00", tlv(0x80, b"\0"), NO_NAME),
    ("another name, badly nested", tlv(0xa0, b"\x30\x01"), NO_NAME),
    ("a mailbox, constructed", tlv(0xa1, tlv(0x16, b"a")), NO_NAME),
    ("a mailbox beyond ASCII", tlv(0x81, b"\x80"), NO_NAME),
    ("a host beyond ASCII", tlv(0x82, b"\xff"), NO_NAME),
    ("an address of X.400, badly nested", tlv(0xa3, b"\x05"), NO_NAME),
    ("a directory name without a name", tlv(0xa4, b""), NO_NAME),
    ("a directory name, empty", tlv(0xa4, sequence()), NO_NAME),
    ("a directory name, badly nested", tlv(0xa4, b"\x30\x02\x31\x05"), NO_NAME),
    ("a directory name and a NULL", tlv(0xa4, of_names((COMMON, PRINTABLE, b"a")) + b"\x05\x00"), NO_NAME),
    ("a directory name, primitive", tlv(0x84, b""), NO_NAME),
    ("a name of EDI, primitive", tlv(0x85, b""), NO_NAME),
    ("a URI, constructed", tlv(0xa6, b""), "unexpected value"),
    ("a URI beyond ASCII", uri(b"rsync://example.net/m/\x80"), NO_IA5),
    ("an address of 3 octets", tlv(0x87, bytes(3)), NO_NAME),
    ("an address of 8 octets", tlv(0x87, bytes(8)), NO_NAME),
    ("an identifier of no octets", tlv(0x88, b""), NO_NAME),
    ("an identifier that is cut", tlv(0x88, b"\x80"), NO_NAME),
]
NAMES = [
    ("another name", tlv(0xa0, tlv(6, oid(UNKNOWN)) + tlv(0xa0, b"\x05\x00"))),
    ("a mailbox", tlv(0x81, b"a@example.net")),
    ("a host", tlv(0x82, b"example.net")),
    ("an address of X.400", tlv(0xa3, sequence())),
    ("a directory name", tlv(0xa4, of_names((COMMON, PRINTABLE, b"a")))),
    ("a name of EDI", tlv(0xa5, tlv(0xa1, tlv(0x13, b"a")))),
    ("an address of IPv4", tlv(0x87, bytes(4))),
    ("an address of IPv6", tlv(0x87, bytes(16))),
    ("an identifier", tlv(0x88, oid(UNKNOWN))),
]

# URIs of 3,000 octets, in each place at once: a host, a module, and segments of 200 octets.
LONG = b"/".join([b"rsync://example.net/m", *[b"d" * 200] * 14, b"f" * 164])
LONG_SECURE = b"https" + LONG[5:]


def long_uris(it):
    it.put(REVOCATION, sequence(point(uri(SECURE), uri(LONG))))
    it.put(AUTHORITY_ACCESS, accesses((CA_ISSUERS, uri(LONG))))
    published(LONG, LONG + b"/m.mft", (NOTIFY, uri(LONG_SECURE)))(it)


def long_object(it):
    end_entity((OBJECT, uri(LONG)))(it)


# A name, the change, and the lines that are expected.
VARIANTS = [
    *((f"the issuer by {text}", beside(name), {"ca_issuer": error, "inspect_ca": error})
      for text, name, error in NO_NAMES),
    *((f"the issuer by {text}", beside(name),
     {"ca_issuer": POINT.decode(), "inspect_ca": "ok"}) for text, name in NAMES),
    ("a point beyond ASCII", put(REVOCATION, sequence(point(uri(b"https://\xff"), uri(POINT)))),
     {"crl_uri": NO_IA5, "inspect_ca": NO_IA5}),
    ("a repository beside a name of tag 9", put(SUBJECT_ACCESS, accesses(*IN_REPOSITORY, (UNKNOWN, tlv(0x89, b"")))),
     {"ca_repository": NO_NAME, "rpki_notify": NO_NAME, "inspect_ca": NO_NAME}),
    ("an end entity beside a name of tag 9", end_entity(SIGNED, (NOTIFY, tlv(0x89, b""))), {"inspect_ee": NO_NAME}),
    ("a manifest in a folder of the repository", published(b"rsync://example.net/m/", b"rsync://example.net/m/d/m.mft"),
     {"inspect_ca": "ok"}),
    ("a repository without a slash", published(b"rsync://example.net/m/d", b"rsync://example.net/m/d/m.mft"),
     {"inspect_ca": "ok"}),
    ("a repository in upper case", published(b"rsync://EXAMPLE.NET/m/d/", b"rsync://example.net/m/d/m.mft"),
     {"inspect_ca": "ok"}),
    ("a manifest above the repository", published(b"rsync://example.net/m/d/", b"rsync://example.net/m/m.mft"),
     {"inspect_ca": ELSEWHERE}),
    ("a manifest beside the repository", published(b"rsync://example.net/m/d", b"rsync://example.net/m/dm.mft"),
     {"inspect_ca": ELSEWHERE}),
    ("a manifest of another module", published(b"rsync://example.net/m/", b"rsync://example.net/n/m.mft"),
     {"inspect_ca": ELSEWHERE}),
    ("a manifest of another host", published(b"rsync://example.net/m/", b"rsync://example.org/m/m.mft"),
     {"inspect_ca": ELSEWHERE}),
    ("a manifest that is the repository", published(b"rsync://example.net/m/d", b"rsync://example.net/m/d/"),
     {"inspect_ca": ELSEWHERE}),
    ("notifications by https", notified(uri(SECURE)), {"rpki_notify": SECURE.decode(), "inspect_ca": "ok"}),
    ("notifications by http", notified(uri(b"http://example.net/n.xml")),
     {"rpki_notify": "none", "inspect_ca": NO_HTTPS}),
    ("notifications by rsync", notified(uri(POINT)), {"inspect_ca": NO_HTTPS}),
    ("notifications by a host", notified(tlv(0x82, b"example.net")), {"inspect_ca": NO_HTTPS}),
    ("notifications by https and http", notified(uri(SECURE), uri(b"http://example.net/n.xml")),
     {"rpki_notify": SECURE.decode(), "inspect_ca": NO_HTTPS}),
    ("an end entity with notifications by http", end_entity(SIGNED, (NOTIFY, uri(b"http://example.net/n.xml"))),
     {"inspect_ee": NO_HTTPS}),
    ("an empty common name", subject((COMMON, PRINTABLE, b"")), {"inspect_ca": SUBJECT_SIZE}),
    ("an issuer of no letters", issuer((COMMON, PRINTABLE, b"")), {"inspect_ca": ISSUER_SIZE}),
    ("an issuer of 64 letters", issuer((COMMON, PRINTABLE, b"a" * 64)), {"inspect_ca": "ok"}),
    ("an issuer of 65 letters", issuer((COMMON, PRINTABLE, b"a" * 65)), {"inspect_ca": ISSUER_SIZE}),
    ("an issuer with an organization of 65 letters",
     issuer((COMMON, PRINTABLE, b"a"), (ORGANIZATION, PRINTABLE, b"b" * 65)), {"inspect_ca": ISSUER_SIZE}),
    ("a common name of 64 letters", subject((COMMON, PRINTABLE, b"a" * 64)), {"inspect_ca": "ok"}),
    ("a common name of 65 letters", subject((COMMON, PRINTABLE, b"a" * 65)), {"inspect_ca": SUBJECT_SIZE}),
    ("a serial number of 64 digits", subject((COMMON, PRINTABLE, b"a"), (SERIAL, PRINTABLE, b"0" * 64)),
     {"inspect_ca": "ok"}),
    ("a serial number of 65 digits", subject((COMMON, PRINTABLE, b"a"), (SERIAL, PRINTABLE, b"0" * 65)),
     {"inspect_ca": SUBJECT_SIZE}),
    ("a common name of 65 letters of UTF-8", subject((COMMON, UTF8, b"a" * 65)), {"inspect_ca": OTHER_STRING}),
    ("a router's name of UTF-8", router_of((COMMON, UTF8, b"a")), {"inspect_router": "ok"}),
    ("a router's name of 64 letters of two octets", router_of((COMMON, UTF8, "ä".encode() * 64)),
     {"inspect_router": "ok"}),
    ("a router's name of 65 letters of two octets", router_of((COMMON, UTF8, "ä".encode() * 65)),
     {"inspect_router": SUBJECT_SIZE}),
    ("a router's name of no letters", router_of((COMMON, UTF8, b"")), {"inspect_router": SUBJECT_SIZE}),
    ("a router's name of IA5", router_of((COMMON, 0x16, b"a")), {"inspect_router": ROUTER_STRING}),
    ("a router's serial number", router_of((COMMON, UTF8, b"a"), (SERIAL, PRINTABLE, b"1")), {"inspect_router": "ok"}),
    ("a router's serial number of UTF-8", router_of((COMMON, PRINTABLE, b"a"), (SERIAL, UTF8, b"1")),
     {"inspect_router": ROUTER_NUMBER}),
    ("a router's serial number of 65 digits of UTF-8",
     router_of((COMMON, PRINTABLE, b"a"), (SERIAL, UTF8, b"1" * 65)), {"inspect_router": SUBJECT_SIZE}),
    ("a router's organization of UTF-8", router_of((COMMON, PRINTABLE, b"a"), (ORGANIZATION, UTF8, b"b")),
     {"inspect_router": "ok"}),
    ("URIs of 3,000 octets", long_uris, {
        "crl_uri": LONG.decode(), "ca_issuer": LONG.decode(), "ca_repository": LONG.decode(),
        "rpki_manifest": LONG.decode() + "/m.mft", "rpki_notify": LONG_SECURE.decode(), "inspect_ca": "ok"}),
    ("an object of 3,000 octets", long_object, {"signed_object": LONG.decode(), "inspect_ee": "ok"}),
]
