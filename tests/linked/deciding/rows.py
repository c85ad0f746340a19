"""Writes the rows of the calls that decide, which deciding.c makes: certificates, lists and signed objects by X.690
alone, of keys that openssl makes, with signatures as RFC 8017 8.2.1 has them, and one thing changed in each; resources
beside those of an issuer; contents beside resources; files; moments. What is expected of each is found without the
library: resources are sets of Python's numbers, and the statuses are those of include/rpki.h. Needs openssl.

usage: rows.py > FILE

    anchor CERTIFICATE KEY STATUS
    signed CERTIFICATE ISSUER STATUS
    list LIST ISSUER SECONDS STATUS
    object OBJECT STRICT STATUS
    ip CERTIFICATE STATUS COUNT [BLOCK ..] / [BLOCK ..]    what the issuer has, and what is settled; a BLOCK is
    as CERTIFICATE STATUS COUNT [BLOCK ..] / [BLOCK ..]    FAMILY:LOW:HIGH or LOW:HIGH, or FAMILY:i or i if inherited
    roa CONTENT STRICT STATUS [BLOCK ..]
    aspa CONTENT STATUS [BLOCK ..]
    manifest CERTIFICATE STATUS
    roasigner CERTIFICATE STATUS
    aspasigner CERTIFICATE STATUS
    within CONTENT COUNT                 of so many prefixes, each within the first of two blocks
    settled CERTIFICATE COUNT            of one block of each kind, under an issuer of so many blocks
    file DIGEST FILE STATUS
    type IDENTIFIER NUMBER
    seconds SECONDS STATUS YEAR MONTH DAY HOUR MINUTE SECOND
    section STATUS TEXT
Octets are in hexadecimal digits, `-` where there are none; COUNT is `-` where none is written."""
import datetime
import hashlib
import ipaddress
import os
import re
import sys
import tempfile

sys.dont_write_bytecode = True
sys.path.append(os.path.join(os.path.dirname(os.path.abspath(__file__)), "..", "..", "python"))

from der import TRUE, bits, oid, sequence, set_of, tlv, unsigned
from makers import lists, objects, payloads, resources, x509
from makers.lists import authority
from makers.objects import ASPA, CHECKLIST, MANIFEST, ROA
from makers.rsa import Key
from makers.x509 import extension, name, time
from openssl import openssl
from programs import TOP

(TOO_SMALL, NO_ANSWER, TOO_NEW, TOO_OLD, NO_KEY, BAD_SIGNATURE, DIGEST, TYPE, SIGNER, KEY, RESOURCES,
 INHERITED, OTHER_ANCHOR, OTHER_KINDS) = 9, 10, *range(50, 62)
PART_CERTIFICATE, PART_OBJECT, PART_ROA, PART_ASPA, PART_EXTENSIONS = 64, 123, 145, 148, 76
WRONG_SUBJECT_KEY, WRONG_POLICIES, NO_POLICIES, VERSION, BLOCKS = 81, 84, 108, 115, 116
NO_ISSUER, OTHER_ISSUER, OTHER_AUTHORITY = 152, 153, 154
FROM, UNTIL = "260101000000Z", "270101000000Z"
NOW = x509.seconds("260601000000Z")


class Authority(Key):
    """A key, in octets as certificates have it, and what it signs."""

    def __init__(self, folder, number, size):
        super().__init__(os.path.join(folder, f"{number}.key"), size)
        self.public = openssl("pkey", "-in", self.path, "-pubout", "-outform", "DER")
        assert self.public.endswith(self.bits)

    def signed(self, data):
        return x509.signed(data, signature=bits(self.sign(data)))


def addresses(value, version=1, critical=TRUE):
    return extension(x509.ADDRESSES if version == 1 else x509.ADDRESSES_V2, value, critical)


def numbers(value, version=1, critical=TRUE):
    return extension(x509.NUMBERS if version == 1 else x509.NUMBERS_V2, value, critical)


def subject_key(octets):
    return extension(x509.SUBJECT_KEY, tlv(4, octets))


def certificate(key, by, *more, subject="B", issuer="A", identifier=None, authority_key=None, policy=x509.POLICY):
    """A certificate of this key, by the issuer's; with `identifier` or `authority_key` of b"" without one."""
    identifier = key.identifier if identifier is None else identifier
    authority_key = by.identifier if authority_key is None else authority_key
    listed = [subject_key(identifier)] if identifier else []
    listed += [authority(authority_key)] if authority_key else []
    listed += [extension(x509.POLICIES, sequence(x509.policy(policy)), TRUE)] if policy else []
    return by.signed(x509.certificate(key.public, name(subject), name(issuer), unsigned(9), x509.validity(FROM, UNTIL),
                                      [*listed, *more]))


def row(*words):
    print(*((word.hex() or "-") if isinstance(word, bytes) else int(word) if isinstance(word, bool) else word
            for word in words))


def changed(octets, place=-1):
    octets = bytearray(octets)
    octets[place] ^= 1
    return bytes(octets)


def certificates(top, own, other, small):
    """Certificates, and who may have issued them."""
    anchor = certificate(top, top, subject="A")
    right = certificate(own, top)
    row("anchor", anchor, top.public, 0)
    row("anchor", certificate(top, top, subject="A", authority_key=b""), top.public, 0)
    row("anchor", changed(anchor), top.public, BAD_SIGNATURE)
    row("anchor", certificate(top, other, subject="A"), top.public, BAD_SIGNATURE)
    row("anchor", anchor, own.public, OTHER_ANCHOR)
    row("anchor", anchor, top.public + b"\0", OTHER_ANCHOR)
    row("anchor", anchor, b"", OTHER_ANCHOR)
    row("anchor", certificate(top, top, subject="A", identifier=b""), own.public, OTHER_ANCHOR)
    row("anchor", certificate(top, top, subject="A", identifier=own.identifier), top.public, KEY)
    row("anchor", certificate(top, top, subject="A", identifier=b""), top.public, KEY)
    row("anchor", certificate(top, top, subject="A", identifier=bytes(19)), top.public, WRONG_SUBJECT_KEY)
    row("anchor", b"", top.public, PART_CERTIFICATE)
    row("anchor", certificate(small, small, subject="A"), small.public, NO_KEY)
    row("signed", right, anchor, 0)
    row("signed", anchor, anchor, 0)
    row("signed", changed(right), anchor, BAD_SIGNATURE)
    row("signed", certificate(own, other, authority_key=top.identifier), anchor, BAD_SIGNATURE)
    row("signed", certificate(own, top, identifier=other.identifier), anchor, KEY)
    row("signed", certificate(own, top, identifier=b""), anchor, KEY)
    row("signed", certificate(own, top, authority_key=other.identifier), anchor, OTHER_AUTHORITY)
    row("signed", certificate(own, top, authority_key=b""), anchor, OTHER_AUTHORITY)
    row("signed", certificate(own, top, issuer="C"), anchor, OTHER_ISSUER)
    row("signed", certificate(own, top, issuer="C", identifier=other.identifier), anchor, OTHER_ISSUER)
    row("signed", right, anchor[:-1], NO_ISSUER)
    row("signed", right, b"", NO_ISSUER)
    row("signed", b"", anchor, PART_CERTIFICATE)
    row("signed", right + b"\0", anchor, PART_CERTIFICATE)
    row("signed", certificate(own, top, identifier=bytes(19)), anchor, WRONG_SUBJECT_KEY)
    weak = certificate(small, small, subject="A")
    row("signed", certificate(own, small), weak, NO_KEY)
    return anchor


def revocation_lists(top, other, small, anchor):
    """Revocation lists, and who may have issued them."""
    def listed(by=top, identifier=None, **more):
        identifier = by.identifier if identifier is None else identifier
        return by.signed(lists.fields(extensions=lists.extensions([authority(identifier), lists.number()]), **more))

    this, until = x509.seconds(lists.THIS), x509.seconds(lists.NEXT)
    right = listed()
    for moment, status in [(this, 0), (this + 1, 0), (until, 0), (this - 1, TOO_NEW), (until + 1, TOO_OLD),
                           (-62167219201, 5)]:
        row("list", right, anchor, moment, status)
    row("list", changed(right), anchor, this, BAD_SIGNATURE)
    row("list", changed(right), anchor, until + 1, BAD_SIGNATURE)
    row("list", listed(other, top.identifier), anchor, this, BAD_SIGNATURE)
    row("list", listed(identifier=other.identifier), anchor, this, OTHER_AUTHORITY)
    row("list", listed(issuer=name("C")), anchor, this, OTHER_ISSUER)
    row("list", right, b"", this, NO_ISSUER)
    row("list", right + b"\0", anchor, this, PART_CERTIFICATE)
    row("list", listed(small), certificate(small, small, subject="A"), this, NO_KEY)
    row("list", listed(next=time("251231235959Z")), anchor, this, TOO_OLD)


def signed_objects(top, own, other, small):
    """Signed objects, and what one is signed by."""
    def made(key=own, kind=ROA, signed_kind=ROA, content=b"content", digest=None, identifier=None, by=None, more=(),
             **of_certificate):
        digest = hashlib.sha256(content).digest() if digest is None else digest
        members = [objects.of_type(signed_kind), objects.of_time(), objects.of_digest(digest), *more]
        return objects.signed_object(kind, content, certificate(key, top, **of_certificate),
                                     key.identifier if identifier is None else identifier, members,
                                     (by or key).sign(set_of(*members)))

    row("object", made(), True, 0)
    row("object", made(content=b""), True, 0)
    row("object", made(content=bytes(70000)), False, 0)
    row("object", made(more=[objects.of_seconds()]), False, 0)
    row("object", made(more=[objects.of_seconds()]), True, 135)
    row("object", made(by=other), True, BAD_SIGNATURE)
    row("object", changed(made()), True, BAD_SIGNATURE)
    row("object", made(small), True, NO_KEY)
    row("object", made(digest=bytes(32)), True, DIGEST)
    row("object", made(digest=bytes(32), by=other), True, DIGEST)
    row("object", made(kind=MANIFEST), True, TYPE)
    row("object", made(kind=MANIFEST, digest=bytes(32)), True, TYPE)
    row("object", made(signed_kind=MANIFEST), True, TYPE)
    row("object", made(identifier=other.identifier), True, SIGNER)
    row("object", made(identifier=other.identifier, by=other), True, SIGNER)
    # The signer and the certificate name another key than that of the certificate, whose signature it is.
    forged = certificate(own, top)
    row("object", made().replace(forged, certificate(own, top, identifier=b"\1" * 20)), True, SIGNER)
    row("object", made().replace(subject_key(own.identifier), subject_key(b"\1" * 20)), True, SIGNER)
    row("object", b"", True, PART_OBJECT)
    row("object", made() + b"\0", True, PART_OBJECT)


# ---- resources

WIDTHS = {4: 32, 6: 128}


def block(text):
    """A block, of a prefix or of a range, as its family, its lowest and its highest number."""
    low, _, high = text.partition("-")
    network = ipaddress.ip_network(low) if not high else None
    ends = (network[0], network[-1]) if network else (ipaddress.ip_address(low), ipaddress.ip_address(high))
    return (ends[0].version, int(ends[0]), int(ends[1]))


def united(blocks):
    """The same numbers in as few blocks as can be, in order."""
    found = []
    for low, high in sorted(blocks):
        if low > high:
            continue
        if found and low <= found[-1][1] + 1:
            found[-1] = (found[-1][0], max(high, found[-1][1]))
        else:
            found.append((low, high))
    return found


def shared(blocks, others):
    return united([(max(a, c), min(b, d)) for a, b in blocks for c, d in others])


def word(block):
    family, low, high = block
    size = WIDTHS[family] // 8
    return f"{family}:{low.to_bytes(size, 'big').hex()}:{high.to_bytes(size, 'big').hex()}"


def settled(claim, held, trims):
    """What is settled of one kind; None where the issuer has too little. A claim of None is `inherit`."""
    held = united(held)
    if claim is None:
        return held
    if trims:
        return shared(united(claim), held)
    return united(claim) if shared(united(claim), held) == united(claim) else None


def settle_addresses(own, top, claim, held, trims=False, version=1):
    """A claim is a list of prefixes, or None, for each family, or is left out."""
    value = sequence(*(resources.family({4: 1, 6: 2}[family], *map(resources.prefix, texts or []))
                       for family, texts in sorted(claim.items())))
    listed = [addresses(value, version)] if claim else []
    cert = certificate(own, top, *listed, policy=x509.POLICY_V2 if trims else x509.POLICY)
    held = [block(text) for text in held]
    found, status = [], 0
    for family in 4, 6:
        claimed = claim.get(family, [])
        claimed = None if claimed is None else [block(text)[1:] for text in claimed]
        one = settled(claimed, [each[1:] for each in held if each[0] == family], trims)
        status = RESOURCES if one is None else status
        found += [(family, *each) for each in one or []]
    found = [] if status else found
    row("ip", cert, status, "-" if status else len(found), *map(word, held), "/", *map(word, found))
    if found:
        row("ip", cert, TOO_SMALL, len(found), *map(word, held), "/")


def settle_numbers(own, top, claim, held, trims=False, version=1):
    """A claim is a list of numbers and pairs, or "inherit", or None where it is left out."""
    listed = [] if claim is None else [numbers(resources.numbers(*([] if claim == "inherit" else claim)), version)]
    cert = certificate(own, top, *listed, policy=x509.POLICY_V2 if trims else x509.POLICY)
    claimed = [] if claim is None else None if claim == "inherit" else [
        each if isinstance(each, tuple) else (each, each) for each in claim]
    found = settled(claimed, held, trims)
    words = [f"{low}:{high}" for low, high in found or []]
    row("as", cert, RESOURCES if found is None else 0, "-" if found is None else len(found),
        *(f"{low}:{high}" for low, high in held), "/", *words)
    if words:
        row("as", cert, TOO_SMALL, len(words), *(f"{low}:{high}" for low, high in held), "/")


def of_other_versions(own, top):
    """Certificates with resources of the other version than their policy's (RFC 8360 4.2): in place of those of its
    version, and beside them, also of the other kind, malformed, and where none are of its version."""
    for policy, right, wrong in (x509.POLICY, 1, 2), (x509.POLICY_V2, 2, 1):
        listed = [addresses(resources.addresses("10.0.0.0/8"), wrong), numbers(resources.numbers(64496), wrong),
                  addresses(resources.INHERITED_ADDRESSES, wrong), addresses(b"", wrong, critical=b"")]
        beside = [addresses(resources.addresses("10.0.0.0/8"), right), numbers(resources.numbers(64496), right),
                  addresses(resources.INHERITED_ADDRESSES, right)]
        for one in listed:
            yield certificate(own, top, one, policy=policy)
            for other in beside:
                yield certificate(own, top, one, other, policy=policy)
                yield certificate(own, top, other, one, policy=policy)


def settling(own, top):
    """Resources of certificates under those of an issuer (RFC 6487 7.2, RFC 8360 4.2.4, with its example in 4.3)."""
    both = ["10.0.0.0/8", "192.0.2.0/24", "2001:db8::/32"]
    apart = ["2001:db8:8000::/33", "10.128.0.0/9", "192.0.2.128-192.0.2.255", "10.0.0.0/9", "2001:db8::/33",
             "192.0.2.0/25", "10.5.0.0/16"]
    for trims in False, True:
        for held in both, apart, ["10.0.0.0-10.0.0.6"], []:
            for claim in [{}, {4: ["10.0.0.0/8"]}, {4: ["10.0.0.0/9", "192.0.2.0/25"], 6: ["2001:db8::/48"]},
                          {4: None}, {6: None}, {4: None, 6: None}, {4: None, 6: ["2001:db8::/31"]},
                          {4: ["9.0.0.0/8", "10.1.0.0/16", "192.0.2.0/23"]}, {4: ["0.0.0.0/0"], 6: ["::/0"]},
                          {4: ["10.0.0.7/32"]}, {4: ["10.0.0.0/30", "10.0.0.6/32"]},
                          {4: ["11.0.0.0/8"], 6: ["2001:db8::/32"]}]:
                settle_addresses(own, top, claim, held, trims, 2 if trims else 1)
        for held in [(64496, 64511)], [(64505, 64511), (64496, 64504), (64500, 64506)], [(0, 2**32 - 1)], []:
            for claim in None, "inherit", [64496], [(64496, 64500), 64502], [64495], [(64495, 64512)], [0], [2**32 - 1]:
                settle_numbers(own, top, claim, held, trims, 2 if trims else 1)
    # RFC 8360 4.3: what the issuer has no longer is cut off, and the rest remains.
    settle_addresses(own, top, {4: ["192.0.2.0/24", "198.51.100.0/24"], 6: ["2001:db8::/32"]},
                     ["192.0.2.0/24", "2001:db8::/32"], True, 2)
    ten = word(block("10.0.0.0/8"))
    right = certificate(own, top, addresses(resources.addresses("10.0.0.0/8")), numbers(resources.numbers(64496)))
    # A family that is none is not looked at; blocks whose ends are turned round have no address.
    row("ip", right, 0, 1, ten, "5:00:00", "/", ten)
    row("ip", right, RESOURCES, "-", "4:0affffff:0a000000", "/")
    row("ip", right, NO_ANSWER, "-", ten, "6:i", "/")
    row("ip", b"", NO_ANSWER, "-", "4:i", "/")
    row("as", right, NO_ANSWER, "-", "64496:64496", "i", "/")
    for call in "ip", "as":
        row(call, b"", PART_CERTIFICATE, "-", "/")
        row(call, certificate(own, top, identifier=bytes(19)), WRONG_SUBJECT_KEY, "-", "/")
        row(call, certificate(own, top, policy=None), NO_POLICIES, "-", "/")
        row(call, certificate(own, top, policy="2.5.29.32.0"), WRONG_POLICIES, "-", "/")
    for cert in of_other_versions(own, top):
        row("ip", cert, VERSION, "-", ten, "/")
        row("as", cert, VERSION, "-", "64496:64496", "/")
    row("ip", certificate(own, top, addresses(resources.addresses("10.0.0.0/8"), critical=b"")), BLOCKS, "-", ten, "/")
    row("as", certificate(own, top, numbers(resources.numbers(64496), critical=b"")), BLOCKS, "-", "1:2", "/")
    for _, octets in resources.MALFORMED_ADDRESSES:
        row("ip", certificate(own, top, addresses(octets)), BLOCKS, "-", ten, "/")
    for _, octets in resources.MALFORMED_NUMBERS:
        row("as", certificate(own, top, numbers(octets)), BLOCKS, "-", "1:2", "/")


def contents():
    """Contents beside the resources of their certificates (RFC 9582 5)."""
    held = ["10.0.0.0/8", "192.0.2.0/24", "2001:db8::/32"]
    apart = ["2001:db8:8000::/33", "10.128.0.0/9", "192.0.2.128-192.0.2.255", "10.0.0.0/9", "2001:db8::/33",
             "192.0.2.0/25"]
    for prefixes, status in [
            (["10.0.0.0/8"], 0), (["10.255.255.255/32", "10.0.0.0/24", "10.0.0.0/24"], 0), (["192.0.2.0/24"], 0),
            (["192.0.2.0/23"], RESOURCES), (["10.0.0.0/7"], RESOURCES), (["0.0.0.0/0"], RESOURCES),
            (["10.0.0.0/8", "11.0.0.0/32"], RESOURCES), (["2001:db8::/32"], 0), (["2001:db8::/31"], RESOURCES),
            (["10.0.0.0/8", "2001:db8:ffff::/48"], 0), (["10.0.0.0/8", "2001:db9::/128"], RESOURCES),
            (["::/0"], RESOURCES), (["::a00:0/104"], RESOURCES)]:
        families = [payloads.family(version, [(text,) for text in prefixes if block(text)[0] == version])
                    for version in (4, 6) if any(block(text)[0] == version for text in prefixes)]
        for blocks in held, apart:
            row("roa", payloads.roa(64496, *families), True, status, *(word(block(text)) for text in blocks))
        row("roa", payloads.roa(64496, *families), True, RESOURCES)
        row("roa", payloads.roa(64496, *families), True, NO_ANSWER, "4:i")
    swapped = payloads.roa(1, payloads.family(6, [("2001:db8::/32",)]), payloads.family(4, [("10.0.0.0/8",)]))
    words = [word(block(text)) for text in held]
    row("roa", swapped, False, 0, *words)
    row("roa", swapped, True, 147, *words)
    row("roa", b"", True, PART_ROA, *words)
    for customer, blocks, status in [
            (64496, ["64496:64496"], 0), (64496, ["1:2", "64490:64500"], 0), (0, ["0:0"], 0),
            (64496, ["64497:64499", "1:64495"], RESOURCES), (64496, [], RESOURCES), (64496, ["64497:64495"], RESOURCES),
            (2**32 - 1, [f"0:{2**32 - 1}"], 0),
            (64496, ["64496:64496", "i"], NO_ANSWER), (0, ["i"], NO_ANSWER)]:
        row("aspa", payloads.aspa(customer, [5, 7]), status, *blocks)
    row("aspa", b"", PART_ASPA, "1:2")


def unsettled(call, own, top):
    """Certificates that don't tell which extensions have their resources."""
    row(call, b"", PART_CERTIFICATE)
    row(call, certificate(own, top, identifier=bytes(19)), WRONG_SUBJECT_KEY)
    row(call, certificate(own, top, policy="2.5.29.32.0"), WRONG_POLICIES)
    row(call, certificate(own, top, policy=None), NO_POLICIES)
    for cert in of_other_versions(own, top):
        row(call, cert, VERSION)


def manifests(own, top):
    """Certificates of manifests (RFC 9286 5.1), and files (RFC 9286 6.5)."""
    inherited = addresses(resources.INHERITED_ADDRESSES), numbers(resources.INHERITED_NUMBERS)
    trimmed = addresses(resources.INHERITED_ADDRESSES, 2), numbers(resources.INHERITED_NUMBERS, 2)
    row("manifest", certificate(own, top, *trimmed, policy=x509.POLICY_V2), 0)
    row("manifest", certificate(own, top, trimmed[0], numbers(resources.numbers(1), 2), policy=x509.POLICY_V2),
        INHERITED)
    for listed, status in [
            (inherited, 0), (inherited[:1], 0), ((), 0),
            ([addresses(resources.addresses("10.0.0.0/8"))], INHERITED),
            ([addresses(sequence(resources.family(1), resources.family(2, resources.prefix("::/0"))))], INHERITED),
            ([inherited[0], numbers(resources.numbers(1))], INHERITED),
            ([addresses(resources.INHERITED_ADDRESSES, critical=b"")], INHERITED),
            ([numbers(resources.INHERITED_NUMBERS, critical=b"")], INHERITED),
            ([addresses(sequence())], INHERITED)]:
        row("manifest", certificate(own, top, *listed), status)
    unsettled("manifest", own, top)
    for octets in b"", b"abc", bytes(100000):
        digest = hashlib.sha256(octets).digest()
        row("file", digest, octets, 0)
        row("file", changed(digest), octets, DIGEST)
        row("file", changed(digest, 0), octets, DIGEST)
        row("file", digest, octets + b"\0", DIGEST)


def signers(own, top):
    """Certificates of attestations: of addresses alone (RFC 9582 5), of AS numbers alone; none are the issuer's."""
    listed, ours = addresses(resources.addresses("10.0.0.0/8")), addresses(resources.INHERITED_ADDRESSES)
    half = addresses(sequence(resources.family(1, resources.prefix("10.0.0.0/8")), resources.family(2)))
    numbered, inherited = numbers(resources.numbers(64496)), numbers(resources.INHERITED_NUMBERS)
    loose, broken = addresses(resources.addresses("10.0.0.0/8"), critical=b""), addresses(sequence())
    for extensions, of_roa, of_aspa in [
            ([listed], 0, OTHER_KINDS), ([numbered], OTHER_KINDS, 0),
            *((extensions, OTHER_KINDS, OTHER_KINDS) for extensions in (
                [], [ours], [half], [inherited], [listed, numbered], [listed, inherited], [ours, numbered],
                [ours, inherited], [loose], [broken], [numbers(resources.numbers(1), critical=b"")], [numbers(b"")]))]:
        row("roasigner", certificate(own, top, *extensions), of_roa)
        row("aspasigner", certificate(own, top, *extensions), of_aspa)
    for extensions, of_roa, of_aspa in [
            ([addresses(resources.addresses("::/0"), 2)], 0, OTHER_KINDS),
            ([numbers(resources.numbers(1), 2)], OTHER_KINDS, 0),
            ([addresses(resources.INHERITED_ADDRESSES, 2)], OTHER_KINDS, OTHER_KINDS)]:
        row("roasigner", certificate(own, top, *extensions, policy=x509.POLICY_V2), of_roa)
        row("aspasigner", certificate(own, top, *extensions, policy=x509.POLICY_V2), of_aspa)
    unsettled("roasigner", own, top)
    unsettled("aspasigner", own, top)


def types():
    """IANA's registry of SMIME CMS content types (1.2.840.113549.1.9.16.1)."""
    kinds = [ROA, MANIFEST, ASPA, oid("1.2.840.113549.1.9.16.1.35"), CHECKLIST, oid("1.2.840.113549.1.9.16.1.50")]
    for number, kind in enumerate(kinds, 1):
        row("type", kind, number)
        row("type", kind[:-1], 0)
        row("type", kind + b"\0", 0)
    row("type", b"", 0)
    row("type", oid("1.2.840.113549.1.9.16.1.1"), 0)


def moments():
    """The calendar of Python."""
    for seconds in (0, -1, 951782400, 951868799, 1 << 31, (1 << 31) - 1, NOW, 253402300799, -62135596800):
        at = datetime.datetime(1970, 1, 1) + datetime.timedelta(seconds=seconds)
        row("seconds", seconds, 0, at.year, at.month, at.day, at.hour, at.minute, at.second)
    row("seconds", -62167219200, 0, 0, 1, 1, 0, 0, 0)
    for seconds in 253402300800, -62167219201, (1 << 63) - 1, -(1 << 63):
        row("seconds", seconds, NO_ANSWER)


def sections():
    """The sections of rules, as the texts of the crate `rpki_cert` begin with them, by the numbers of `rpki_c`."""
    crates = os.path.join(TOP, "crates")
    with open(os.path.join(crates, "rpki_cert", "src", "profile", "rule.rt"), encoding="utf-8") as file:
        texts = re.findall(r'((?:CertRule::\w+\s*\|?\s*)+)=>\s*\{?\s*"([^":]+): ', file.read())
    with open(os.path.join(crates, "rpki_c", "src", "certificate_inspection.rt"), encoding="utf-8") as file:
        numbers_of_rules = dict(re.findall(r"CertRule::(\w+) => (\d+),", file.read()))
    for rules, text in texts:
        for rule in re.findall(r"CertRule::(\w+)", rules):
            row("section", numbers_of_rules.pop(rule), text)
    assert not numbers_of_rules, numbers_of_rules
    # Of the calls that decide: an issuer, a period, a key, a signature, and an authority's list and manifest.
    for status, text in [(NO_ISSUER, "RFC 6487 7.2"), (TOO_NEW, "RFC 5280 4.1.2.5"), (TOO_OLD, "RFC 5280 4.1.2.5"),
                         (NO_KEY, "RFC 7935 3"), (BAD_SIGNATURE, "RFC 7935 2"), (45, "RFC 6487 7.2"),
                         (47, "RFC 6481 2.2"), (48, "RFC 9286 6.2")]:
        row("section", status, text)


def sizes(own, top):
    """Sizes right after those at which lists have doubled."""
    one = certificate(own, top, addresses(resources.addresses("10.0.0.0/32")), numbers(resources.numbers(2)))
    for count in 1, 17, 258, 17737:
        prefixes = [(f"10.{each // 250}.{each % 250}.0/24",) for each in range(count)]
        row("within", payloads.roa(64496, payloads.family(4, prefixes)), count)
        row("settled", one, count)


def main():
    with tempfile.TemporaryDirectory() as folder:
        top, own, other, small = (Authority(folder, *key) for key in enumerate((2048, 2048, 3072, 1024)))
    anchor = certificates(top, own, other, small)
    revocation_lists(top, other, small, anchor)
    signed_objects(top, own, other, small)
    settling(own, top)
    sizes(own, top)
    contents()
    manifests(own, top)
    signers(own, top)
    types()
    moments()
    sections()


if __name__ == "__main__":
    main()
