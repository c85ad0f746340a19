"""Resource certificates: variants that use or break one rule of RFC 5280 4.1, RFC 6487 4 or RFC 8209 3.1 each. They are
made of examples/certificate.der, which openssl made, by changes of its values."""
from der import oid, sequence, tlv
from lax import Value, values_of
from makers.certificate import (
    END_ENTITY_USAGE, EXPONENT, MODULUS, POINT, SECURE, SIGNED, add, after_extensions, after_list, anchor, anchor_with,
    detached, empty_list, end_entity, key_bits, many, named, no_extensions, no_version, of_version_2,
    one_parameter_less, own_issuer_without_identifier, period, put, remove, router, router_bits, router_with_addresses,
    serial, turn, version, version_2,
)
from makers.x509 import (
    ADDRESSES, ADDRESSES_V2, AUTHORITY_ACCESS, AUTHORITY_KEY, CA_ISSUERS, CONSTRAINTS, MANIFEST, NOTICE, NOTIFY,
    NUMBERS, NUMBERS_V2, OBJECT, OCSP, POLICIES, POLICY, POLICY_V2, PURPOSES, REPOSITORY, REVOCATION, ROUTER, SERVER,
    STATEMENT, SUBJECT_ACCESS, SUBJECT_KEY, UNKNOWN, USAGE, accesses, names, point, policies, policy, rsa_numbers, uri,
)
from strict import CONTENT, TRAILING, TRUNCATED, UNEXPECTED
from variants import claims, malformed, names_and_places

NOT_AS_CRITICAL = "extension is not as critical as it has to be"
OTHER_METHOD = "RFC 6487 4.8.8.2: other access method of an end entity"
NO_RSA_KEY = "RFC 7935 3: key is no RSA key of 2048 bits and the exponent 65537"
NO_POINT = "RFC 8608 3.1: key is no uncompressed point on P-256"
TWO_VERSIONS = "RFC 8360 4.2: policy and resources of two versions"
NOT_OWN = "RFC 6487 4.8.3: authority key identifier of a trust anchor is not its own"
NOT_SELF_ISSUED = "RFC 8630 2.3: issuer of a trust anchor is not its subject"
UNUSED_BITS = "signature has unused bits"
NO_CONSTRAINTS = "RFC 6487 4.8.1: missing basic constraints"
OTHER_USAGE = "RFC 6487 4.8.4: missing or another key usage"
NO_LIST = "RFC 6487 4.8.6: missing URI of the revocation list"
NO_OBJECT = "RFC 6487 4.8.8.2: missing URI of the signed object"
NO_RESOURCES = "RFC 6487 4.8.10, 4.8.11: missing resources, or ones that are not critical"

# A name, the change, and the lines that are expected.
VARIANTS = [
    ("as it is", lambda it: None, {"inspect_ca": "ok", "basic_ca": "true", "extensions": "10"}),
    ("version 2", version(1), {"rejected": "unexpected value"}),
    ("version 1", version(0), {"rejected": "unexpected value"}),
    ("no version", no_version, {"rejected": "unexpected value"}),
    ("serial number 0", serial(b"\x00"), {"inspect_ca": "RFC 5280 4.1.2.2: serial number is 0"}),
    ("serial number below 0", serial(b"\x80"), {"rejected": "malformed INTEGER"}),
    ("serial number of 21 octets", serial(b"\x01" + bytes(20)), {"rejected": "serial number longer than 20 bytes"}),
    ("algorithms that differ", one_parameter_less, {"rejected": "signature algorithms differ"}),
    ("an empty list of extensions", empty_list, {"rejected": "no extensions"}),
    ("no extensions", no_extensions, {"rejected": "truncated value"}),
    ("a known extension twice", lambda it: it.list.inside.append(it.extension(SUBJECT_KEY)),
     {"rejected": "duplicate extension"}),
    ("an unknown extension twice", add(UNKNOWN, b"", times=2), {"rejected": "duplicate extension"}),
    ("an unknown extension", add(UNKNOWN, b""), {"inspect_ca": "ok", "extensions": "11"}),
    ("an unknown critical extension", add(UNKNOWN, b"", critical=True),
     {"inspect_ca": "RFC 5280 4.2: unknown critical extension"}),
    ("a value after the extensions", after_extensions, {"rejected": "trailing data"}),
    ("a value after their list", after_list, {"rejected": "trailing data"}),
    ("basic constraints, not critical", turn(CONSTRAINTS),
     {"basic_ca": NOT_AS_CRITICAL, "inspect_ca": NOT_AS_CRITICAL}),
    ("empty basic constraints", put(CONSTRAINTS, sequence()), {"inspect_ca": "truncated value"}),
    ("a path length", put(CONSTRAINTS, bytes.fromhex("30060101ff020100")), {"inspect_ca": "trailing data"}),
    ("FALSE, spelled", put(CONSTRAINTS, bytes.fromhex("3003010100")), {"inspect_ca": "unexpected value"}),
    ("no basic constraints", remove(CONSTRAINTS), {"basic_ca": "false", "inspect_ca": NO_CONSTRAINTS}),
    ("a critical subject key identifier", turn(SUBJECT_KEY), {"subject_key_identifier": NOT_AS_CRITICAL}),
    ("one of 19 octets", put(SUBJECT_KEY, tlv(4, bytes(19))), {"subject_key_identifier": "invalid key identifier"}),
    ("no subject key identifier", remove(SUBJECT_KEY),
     {"subject_key_identifier": "none", "inspect_ca": "RFC 6487 4.8.2: missing subject key identifier"}),
    ("an authority key identifier with a serial number",
     put(AUTHORITY_KEY, sequence(tlv(0x80, bytes(20)), tlv(0x82, b"\x01"))),
     {"authority_key_identifier": "trailing data", "inspect_ca": "trailing data"}),
    ("no authority key identifier", remove(AUTHORITY_KEY),
     {"authority_key_identifier": "none", "inspect_ca": "RFC 6487 4.8.3: missing authority key identifier"}),
    ("the usage of an end entity", put(USAGE, END_ENTITY_USAGE),
     {"key_usage_of_ca": "false", "inspect_ca": OTHER_USAGE}),
    ("a third usage", put(USAGE, bytes.fromhex("03020186")), {"key_usage_of_ca": "invalid key usage"}),
    ("usage with bits after the last that is set", put(USAGE, bytes.fromhex("03020006")),
     {"key_usage_of_ca": "invalid key usage"}),
    ("usage, not critical", turn(USAGE), {"key_usage_of_ca": NOT_AS_CRITICAL}),
    ("no usage", remove(USAGE), {"key_usage_of_ca": "none", "inspect_ca": OTHER_USAGE}),
    ("the purpose of a router", add(PURPOSES, names(ROUTER)),
     {"extended_key_usage": "true", "inspect_ca": "RFC 6487 4.8.5: extended key usage of a key of the RPKI"}),
    ("another purpose", add(PURPOSES, names(SERVER)), {"extended_key_usage": "false"}),
    ("two purposes", add(PURPOSES, names(SERVER, ROUTER)), {"extended_key_usage": "true"}),
    ("no purpose", add(PURPOSES, sequence()), {"extended_key_usage": "no key purposes"}),
    ("the policy and the resources of RFC 8360", version_2, {"overclaim_trims": "true", "inspect_ca": "ok"}),
    ("the policy and the addresses of RFC 8360", of_version_2(ADDRESSES), {"inspect_ca": TWO_VERSIONS}),
    ("the policy and the numbers of RFC 8360", of_version_2(NUMBERS), {"inspect_ca": TWO_VERSIONS}),
    ("the addresses of RFC 8360 alone", of_version_2(ADDRESSES, policy_too=False), {"inspect_ca": TWO_VERSIONS}),
    ("the numbers of RFC 8360 alone", of_version_2(NUMBERS, policy_too=False), {"inspect_ca": TWO_VERSIONS}),
    ("the resources of RFC 8360 alone", of_version_2(ADDRESSES, NUMBERS, policy_too=False),
     {"inspect_ca": TWO_VERSIONS}),
    ("the policy of RFC 8360 alone", put(POLICIES, policies(policy(POLICY_V2))),
     {"overclaim_trims": "true", "inspect_ca": TWO_VERSIONS}),
    ("addresses of RFC 8360 beside others", add(ADDRESSES_V2, sequence(), critical=True), {"inspect_ca": TWO_VERSIONS}),
    ("numbers of RFC 8360 beside others", add(NUMBERS_V2, sequence(), critical=True), {"inspect_ca": TWO_VERSIONS}),
    ("any policy", put(POLICIES, policies(policy("2.5.29.32.0"))), {"overclaim_trims": "unknown certificate policy"}),
    ("two policies", put(POLICIES, policies(policy(POLICY), policy(POLICY_V2))), {"overclaim_trims": "trailing data"}),
    ("no policy", put(POLICIES, policies()), {"overclaim_trims": "truncated value"}),
    ("a practice statement", put(POLICIES, policies(policy(POLICY, STATEMENT))),
     {"overclaim_trims": "false", "inspect_ca": "ok"}),
    ("two statements", put(POLICIES, policies(policy(POLICY, STATEMENT, STATEMENT))),
     {"overclaim_trims": "trailing data"}),
    ("a user notice", put(POLICIES, policies(policy(POLICY, NOTICE))), {"overclaim_trims": "unexpected value"}),
    ("policies, not critical", turn(POLICIES), {"overclaim_trims": NOT_AS_CRITICAL}),
    ("no policies", remove(POLICIES),
     {"overclaim_trims": "none", "inspect_ca": "RFC 6487 4.8.9: missing certificate policies"}),
    ("a point with an https URI first", put(REVOCATION, sequence(point(uri(SECURE), uri(POINT)))),
     {"crl_uri": POINT.decode(), "inspect_ca": "ok"}),
    ("a point with an https URI alone", put(REVOCATION, sequence(point(uri(SECURE)))),
     {"crl_uri": "none", "inspect_ca": NO_LIST}),
    ("two points", put(REVOCATION, sequence(point(uri(POINT)), point(uri(POINT)))), {"crl_uri": "trailing data"}),
    ("a point with reasons", put(REVOCATION, sequence(point(uri(POINT), more=tlv(0x81, b"\x01\x02")))),
     {"crl_uri": "trailing data"}),
    ("a point of a host", put(REVOCATION, sequence(point(tlv(0x82, b"example.net")))), {"crl_uri": "unexpected value"}),
    ("no point", put(REVOCATION, sequence()), {"crl_uri": "truncated value"}),
    ("critical points", turn(REVOCATION), {"crl_uri": NOT_AS_CRITICAL}),
    ("other ways to the issuer", put(AUTHORITY_ACCESS, accesses(
        (OCSP, uri(POINT)), (CA_ISSUERS, uri(SECURE)), (CA_ISSUERS, uri(b"rsync://example.net/m/b.cer")))),
     {"ca_issuer": "rsync://example.net/m/b.cer", "inspect_ca": "ok"}),
    ("no way to the issuer", put(AUTHORITY_ACCESS, accesses((OCSP, uri(POINT)))),
     {"ca_issuer": "none", "inspect_ca": "RFC 6487 4.8.7: missing URI of the issuer's certificate"}),
    ("an empty list of ways", put(AUTHORITY_ACCESS, sequence()), {"ca_issuer": "empty SEQUENCE"}),
    ("no access to the subject", remove(SUBJECT_ACCESS),
     {"ca_repository": "none", "inspect_ca": "RFC 6487 4.8.8.1: missing URI of the repository"}),
    ("no manifest", put(SUBJECT_ACCESS, accesses((REPOSITORY, uri(b"rsync://example.net/m/")))),
     {"rpki_manifest": "none", "inspect_ca": "RFC 6487 4.8.8.1: missing URI of the manifest"}),
    ("other names of the repository", put(SUBJECT_ACCESS, accesses(
        (REPOSITORY, uri(SECURE)), (REPOSITORY, tlv(0x82, b"example.net")),
        (REPOSITORY, uri(b"rsync://example.net/m/")), (MANIFEST, uri(b"rsync://example.net/m/m.mft")))),
     {"ca_repository": "rsync://example.net/m/", "rpki_notify": "none", "inspect_ca": "ok"}),
    ("addresses, not critical", turn(ADDRESSES), {"inspect_ca": NO_RESOURCES}),
    ("no resources", remove(ADDRESSES, NUMBERS), {"inspect_ca": NO_RESOURCES}),
    ("numbers alone", remove(ADDRESSES), {"inspect_ca": "ok"}),
    ("addresses alone", remove(NUMBERS), {"inspect_ca": "ok"}),
    ("an end entity", end_entity(SIGNED),
     {"inspect_ee": "ok", "inspect_ca": NO_CONSTRAINTS, "signed_object": "rsync://example.net/m/o.roa"}),
    ("an end entity with notifications", end_entity((NOTIFY, uri(SECURE)), SIGNED),
     {"inspect_ee": "ok", "rpki_notify": SECURE.decode()}),
    ("an end entity with other names of its object", end_entity(
        (OBJECT, uri(SECURE)), (OBJECT, tlv(0x82, b"example.net")), SIGNED), {"inspect_ee": "ok"}),
    ("an end entity with a repository", end_entity(SIGNED, (REPOSITORY, uri(b"rsync://example.net/m/"))),
     {"inspect_ee": OTHER_METHOD}),
    ("an end entity with a manifest", end_entity((MANIFEST, uri(b"rsync://example.net/m/m.mft")), SIGNED),
     {"inspect_ee": OTHER_METHOD}),
    ("an end entity with an unknown method", end_entity(SIGNED, (NOTIFY, uri(SECURE)), (UNKNOWN, uri(SECURE))),
     {"inspect_ee": OTHER_METHOD}),
    ("an end entity with notifications alone", end_entity((NOTIFY, uri(SECURE))), {"inspect_ee": NO_OBJECT}),
    ("a trust anchor", anchor, {"inspect_ta": "ok", "inspect_ca": NO_LIST}),
    ("a trust anchor without an authority key identifier", own_issuer_without_identifier, {"inspect_ta": "ok"}),
    ("a trust anchor with another's key identifier", anchor_with(
        put(AUTHORITY_KEY, sequence(tlv(0x80, bytes(20))))), {"inspect_ta": NOT_OWN}),
    ("a trust anchor with a critical authority key identifier", anchor_with(turn(AUTHORITY_KEY)),
     {"inspect_ta": NOT_AS_CRITICAL}),
    ("a trust anchor with a malformed authority key identifier", anchor_with(put(AUTHORITY_KEY, tlv(5, b""))),
     {"inspect_ta": "unexpected value"}),
    ("a trust anchor of another issuer", anchor_with(lambda it: it.tbs.inside.__setitem__(3, named("another"))),
     {"inspect_ta": NOT_SELF_ISSUED}),
    ("a key of other octets", key_bits(b"junk"), {"inspect_ca": NO_RSA_KEY}),
    ("a key of no bits", key_bits(b""), {"inspect_ca": NO_RSA_KEY}),
    ("a key with an octet after it", key_bits(rsa_numbers(MODULUS, EXPONENT) + b"\0"), {"inspect_ca": NO_RSA_KEY}),
    ("a key with unused bits", key_bits(rsa_numbers(MODULUS, EXPONENT)[:-1] + b"\0", 1), {"inspect_ca": NO_RSA_KEY}),
    ("a key of the least modulus", key_bits(rsa_numbers(MODULUS, EXPONENT)), {"inspect_ca": "ok"}),
    ("a key of the greatest modulus", key_bits(rsa_numbers(b"\0" + b"\xff" * 256, EXPONENT)), {"inspect_ca": "ok"}),
    ("a key of 2,047 bits", key_bits(rsa_numbers(b"\x7f" + b"\xff" * 255, EXPONENT)), {"inspect_ca": NO_RSA_KEY}),
    ("a key of 2,049 bits", key_bits(rsa_numbers(b"\x01" + bytes(256), EXPONENT)), {"inspect_ca": NO_RSA_KEY}),
    ("a key of 1,024 bits", key_bits(rsa_numbers(b"\0" + b"\xff" * 128, EXPONENT)), {"inspect_ca": NO_RSA_KEY}),
    ("a key of 4,096 bits", key_bits(rsa_numbers(b"\0" + b"\xff" * 512, EXPONENT)), {"inspect_ca": NO_RSA_KEY}),
    ("a key with the exponent 3", key_bits(rsa_numbers(MODULUS, b"\x03")), {"inspect_ca": NO_RSA_KEY}),
    ("a key with the exponent 1", key_bits(rsa_numbers(MODULUS, b"\x01")), {"inspect_ca": NO_RSA_KEY}),
    ("a modulus below 0", key_bits(rsa_numbers(b"\x80" + bytes(255), EXPONENT)), {"inspect_ca": NO_RSA_KEY}),
    ("a key with a third number", key_bits(sequence(tlv(2, MODULUS), tlv(2, EXPONENT), tlv(2, b"\x01"))),
     {"inspect_ca": NO_RSA_KEY}),
    ("a period of one second", period("270101000000Z", "270101000000Z"), {"inspect_ca": "ok"}),
    ("a period that ends first", period("270101000001Z", "270101000000Z"),
     {"inspect_ca": "RFC 5280 4.1.2.5: period ends before it begins"}),
    ("a signature with unused bits", lambda it: setattr(it.signature, "inside", b"\1" + bytes(256)),
     {"rejected": UNUSED_BITS}),
    *((f"{count} extensions", many(count), {"extensions": str(count), "inspect_ca": "ok"}) for count in (13, 64)),
    ("an end entity without access", detached,
     {"inspect_detached_ee": "ok", "inspect_ee": NO_OBJECT}),
    ("a router with other bits", router_bits(b"junk"), {"inspect_router": NO_POINT}),
    ("a router without bits", router_bits(b""), {"inspect_router": NO_POINT}),
    ("a router with a compressed point", router_bits(b"\2" + bytes(32)), {"inspect_router": NO_POINT}),
    ("a router with a point that begins with 02", router_bits(b"\2" + bytes(64)), {"inspect_router": NO_POINT}),
    ("a router with unused bits", router_bits(b"\4" + bytes(64), 1), {"inspect_router": NO_POINT}),
    ("a router with an octet more", router_bits(b"\4" + bytes(65)), {"inspect_router": NO_POINT}),
    ("a router", router, {"inspect_router": "ok", "inspect_ee": NO_RSA_KEY}),
    ("a router with addresses", router_with_addresses,
     {"inspect_router": "RFC 8209 3.1.3.4, 3.1.3.5: missing numbers, or addresses are there"}),
]

VARIANTS += names_and_places.VARIANTS + claims.VARIANTS + malformed.VARIANTS


# The status of rpki_certificate (include/rpki.h) for the variants of which a part is wrong, and the number of the
# error; the status is 0 for the others.
WRONG_PARTS = {
    "version 2": (69, CONTENT),
    "version 1": (69, CONTENT),
    "no version": (69, UNEXPECTED),
    "serial number below 0": (70, CONTENT),
    "serial number of 21 octets": (70, CONTENT),
    "algorithms that differ": (79, CONTENT),
    "an empty list of extensions": (76, CONTENT),
    "no extensions": (76, TRUNCATED),
    "a known extension twice": (78, CONTENT),
    "an unknown extension twice": (78, CONTENT),
    "a value after the extensions": (76, TRAILING),
    "a value after their list": (76, TRAILING),
    "a signature with unused bits": (67, CONTENT),
}


def in_place(place, octets):
    """Puts these octets in the place of a part of what is signed."""
    def change(it):
        it.tbs.inside[place] = values_of(octets)[0]
    return change


def other_signature(octets):
    def change(it):
        it.whole.inside[2] = it.signature = values_of(octets)[0]
    return change


def other_algorithm(it):
    it.algorithm.inside[0].inside = oid("1.2.840.113549.1.1.5")


def other_inner_algorithm(it):
    it.inner_algorithm.inside[0].inside = oid("1.2.840.113549.1.1.5")


def no_sequence(it):
    it.tbs.first = 0x31


def after_signature(it):
    it.whole.inside.append(Value(5, b""))


# A name whose one attribute has this value.
def with_attribute(value):
    return sequence(tlv(0x31, sequence(tlv(6, oid("2.5.4.3")), value)))


def cut_inside(it):
    it.tbs.inside[5] = Value(0x30, with_attribute(tlv(0x30, b"\x30\x05"))[2:])


# Changes that only rpki_certificate is asked about, its status, a malformed part or 0, and the number of the error.
OTHER_PARTS = [
    ("another algorithm", other_algorithm, 66, CONTENT),
    ("a signature with a count of 8", other_signature(bytes.fromhex("030208aa")), 67, CONTENT),
    ("a value after the signature", after_signature, 67, TRAILING),
    ("a signature with one unused bit", other_signature(tlv(3, b"\1" + bytes(256))), 67, CONTENT),
    ("a signature with seven unused bits", other_signature(tlv(3, b"\7" + bytes(256))), 67, CONTENT),
    ("a SET in place of what is signed", no_sequence, 68, UNEXPECTED),
    ("another algorithm in what is signed", other_inner_algorithm, 71, CONTENT),
    ("an empty issuer", in_place(3, sequence()), 72, CONTENT),
    ("an attribute without a value", in_place(3, with_attribute(b"")), 72, CONTENT),
    ("an attribute with two values", in_place(3, with_attribute(tlv(5, b"") * 2)), 72, TRAILING),
    ("one time", in_place(4, sequence(tlv(0x17, b"270101000000Z"))), 73, TRUNCATED),
    ("an empty subject", in_place(5, sequence()), 74, CONTENT),
    ("an empty key", in_place(6, sequence()), 75, TRUNCATED),
    ("an attribute whose value is nested", in_place(5, with_attribute(sequence(sequence(), tlv(5, b"")))), 0, 0),
    ("an attribute whose value is nested and cut", cut_inside, 65, TRUNCATED),
    ("64 extensions", many(64), 0, 0),
    ("65 extensions", many(65), 77, CONTENT),
]
