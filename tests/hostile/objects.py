"""Signed objects: variants, changed octets and beginnings, objects of many sizes and of openssl, and whether objects
are valid. What is expected of them is what the RFCs say."""
import hashlib
import os
import re
import tempfile

from der import oid, sequence, tlv
from judges import objects as judge
from makers import cms
from makers.certificate import CERTIFICATE
from makers.chain import MOMENT, identifier_of, issued, period_of
from makers.lists import entry, listed
from makers.objects import (
    CONTENT, MANIFEST, ROA, SIGNATURE, USUAL, attributes, content, entity_under_anchor, made, of, of_digest, of_seconds,
    of_time, of_type, signed_by, signer,
)
from makers.x509 import SUBJECT_KEY, UNKNOWN
from openssl import openssl_in, signing_time
from programs import run, write
from shim import refused_in_turn
from strict import Wrong
from variants.objects import ACCEPTED, CUT, OTHERS, REFUSED, lines, of_lines


def seen(programs, octets, *words):
    told = run(programs.calls, ["object", *words], octets)
    return told.status, told.output.decode().split("\n")[:-1]


def object_variants(programs):
    """Objects that use or break one rule each. Where an error's text is another table's matter, none is expected."""
    for title, octets, expected, strictly in ACCEPTED:
        yield title, seen(programs, octets, "read"), (0, expected)
        yield f"{title}, under RFC 9589", seen(programs, octets, "strict"), (0, strictly)
    for title, octets, expected in REFUSED:
        for word in ("read", "strict"):
            status, told = seen(programs, octets, word)
            if expected is None:
                yield title, (status, len(told), told[0].split(" ")[0]), (0, 1, "rejected")
            else:
                yield title, (status, told), (0, expected)


def object_beginnings(programs):
    """Each beginning of an object is rejected."""
    octets = made()
    for end in range(len(octets)):
        yield f"{end} octets", seen(programs, octets[:end], "read"), (0, CUT)


def read(octets):
    """The lines of an object, as its judge reads it; of the certificate nothing is read."""
    before = judge.front(octets)
    it = judge.signer(before.following, False)
    told = lines((it.octets,), before.kind.octets, before.content.octets, it.said.kind, it.said.digest, None,
                 it.said.binary, identifier=it.identifier, signature=it.signature.octets)
    return told[:6] + ([] if it.said.moment is None else [f"signing_time {it.said.moment}"]) + told[6:]


def changed_objects(programs):
    """An object of which one octet is changed, outside of the certificate, is read as the RFCs have it read."""
    octets = made()
    start = octets.index(CERTIFICATE)
    for place in [*range(start), *range(start + len(CERTIFICATE), len(octets) - len(SIGNATURE) + 1)]:
        for turned in (0x01, 0x20, 0x80):
            other = octets[:place] + bytes([octets[place] ^ turned]) + octets[place + 1:]
            status, told = seen(programs, other, "read")
            try:
                expected = read(other)
            except Wrong:
                expected = ["rejected"]
                told = [told[0].split(" ")[0]]
            yield f"octet {place}, {turned}", (status, told), (0, expected)


def sizes_of_objects(programs):
    """Objects of contents, types and signatures of many sizes."""
    for size in (0, 1, 127, 128, 255, 256, 65_535, 65_536, 1_000_000):
        octets = bytes(number % 251 for number in range(size))
        yield f"a content of {size}", seen(programs, content(content=tlv(0xA0, tlv(4, octets))), "read"), (
            0, lines(octets=octets))
        yield f"a signature of {size}", seen(programs, signer(signature=tlv(4, octets)), "read"), (
            0, lines(signature=octets))
        kind = bytes(number % 127 + 1 for number in range(size + 1))
        members = (of_type(kind), of_digest())
        yield f"a type of {size + 1}", seen(programs, of(*members), "read"), (
            0, of_lines(*members, signed=kind, at=None))
    for count in (100, 10_000):
        yield f"{count} attributes", seen(programs, of(*USUAL, *count * [of_time()]), "read"), (0, OTHERS)


def entity_with(change):
    anchor, entity = entity_under_anchor()
    change(entity)
    return signed_by(entity, entity)


def valid_objects(programs):
    """Whether an object is valid under a trust anchor at a moment, and whether a list has its certificate (RFC 6488
    3)."""
    anchor, entity = entity_under_anchor()
    other = issued("other", 9, anchor)
    at, usual = MOMENT, signed_by(entity, entity)
    no_signature, verify = "verify RFC 6488 3: bad signature", "verify RFC 6488 3: "
    rows = [
        ("as it is", usual, at, "valid"),
        ("in its first second", usual, "2027-01-01T00:00:00Z", "valid"),
        ("in its last second", usual, "2028-01-01T00:00:00Z", "valid"),
        ("attributes in another order", signed_by(entity, entity, members=USUAL[::-1]), at, "valid"),
        ("no signing time", signed_by(entity, entity, members=[of_type(), of_digest()]), at, "valid"),
        ("a binary signing time", signed_by(entity, entity, members=[*USUAL, of_seconds()]), at, "valid"),
        ("another type", signed_by(entity, entity, kind=MANIFEST), at, verify + "content type mismatch"),
        ("a type that is longer", signed_by(entity, entity, kind=ROA + b"\x01"), at, verify + "content type mismatch"),
        ("another content", signed_by(entity, entity, octets=b"CONTENT"), at, verify + "message digest mismatch"),
        ("no content octets", signed_by(entity, entity, octets=b""), at, verify + "message digest mismatch"),
        ("another digest", signed_by(entity, entity, members=[of_type(), of_digest(bytes(32))]), at,
         verify + "message digest mismatch"),
        ("another type and digest", signed_by(entity, entity, kind=MANIFEST, octets=b""), at,
         verify + "content type mismatch"),
        ("another key's identifier", signed_by(entity, entity, identifier=bytes(range(20))), at,
         verify + "subject key identifier mismatch"),
        ("the anchor's identifier", signed_by(entity, entity, identifier=identifier_of(anchor)), at,
         verify + "subject key identifier mismatch"),
        ("another key's signature", signed_by(other, entity), at, no_signature),
        ("the anchor's signature", signed_by(anchor, entity), at, no_signature),
        ("a signature that was changed", signed_by(entity, entity, turned=1), at, no_signature),
        ("the implicit tag is signed", signed_by(entity, entity, first=0xA0), at, no_signature),
        ("another certificate of the same key's identifier", entity_with(
            lambda it: it.put(SUBJECT_KEY, tlv(4, bytes(20)))), at, verify + "subject key identifier mismatch"),
        ("no subject key identifier", entity_with(lambda it: it.remove(SUBJECT_KEY)), at, None),
        ("an unknown critical extension", entity_with(lambda it: it.add(UNKNOWN, b"", critical=True)), at, None),
        ("a certificate of another issuer", entity_with(lambda it: setattr(it, "signer", it)), at,
         "verify RFC 6487 7.2: bad signature"),
        ("a certificate that isn't valid any more", entity_with(
            lambda it: period_of(it, "270101000000Z", "270301000000Z")), at,
         "verify RFC 6487 7.2: certificate has expired"),
        ("a certificate that isn't valid yet", entity_with(
            lambda it: period_of(it, "270701000000Z", "280101000000Z")), at, None),
        ("an authority's certificate", signed_by(anchor, anchor), at, None),
        ("an anchor that isn't valid any more", usual, "2028-01-01T00:00:01Z",
         "verify_ta RFC 6487 7.2: certificate has expired"),
    ]
    for title, octets, moment, expected in rows:
        status, told = seen(programs, anchor.stamp() + octets, "valid", moment)
        if expected is None:
            yield title, (status, len(told), told[0].split(" ")[0]), (0, 1, "verify")
        else:
            yield title, (status, told), (0, [expected])
    serial = int.from_bytes(entity.serial.inside, "big")
    lists_asked = [("it alone", [serial], "true"), ("it among others", [1, serial, serial + 1], "true"),
                   ("others", [serial - 1, serial + 1], "false"), ("none", [], "false")]
    for title, entries, revoked in lists_asked:
        octets = listed(entries=sequence(*(entry(number) for number in entries)))
        yield f"a list of {title}", seen(programs, anchor.stamp() + usual + octets, "valid", at), (
            0, ["valid", f"revoked {revoked}"])


def changed_signatures(programs):
    """No change of one octet of the content, of what is signed or of the signature leaves an object valid."""
    anchor, entity = entity_under_anchor()
    octets = signed_by(entity, entity)
    places = [*range(octets.index(CONTENT), octets.index(CONTENT) + len(CONTENT))]
    start = octets.index(attributes(USUAL))
    places += range(start, len(octets))
    for place in places:
        other = octets[:place] + bytes([octets[place] ^ 1]) + octets[place + 1:]
        status, told = seen(programs, anchor.stamp() + other, "valid", MOMENT)
        yield f"octet {place}", (status in (0, 1), told != ["valid"]), (True, True)


def refused_objects(programs):
    """With an allocation refused an object says what it says with memory, or that memory ran out."""
    refused = 0
    for name, well, met in refused_in_turn(programs.calls, ["object", "read"], made()):
        refused += met
        yield name, well, True
    return f"{refused} refused allocations"


def objects_of_openssl(programs):
    """Objects that openssl makes say what openssl is asked to sign, and openssl finds the signature to be of what they
    say is signed."""
    with tempfile.TemporaryDirectory() as folder:
        cms.signer(folder)
        openssl_in(folder, "pkey", "-in", "key", "-pubout", "-out", "public")
        said = openssl_in(folder, "x509", "-in", "cert", "-noout", "-text")
        identifier = re.search(r"Subject Key Identifier: *\n *([0-9A-F:]+)", said)[1].replace(":", "")
        serial = openssl_in(folder, "x509", "-in", "cert", "-noout", "-serial").strip().split("=")[1]
        for size, kind in ((0, "1.2.840.113549.1.9.16.1.24"), (1000, "1.2.840.113549.1.9.16.1.26"), (70_000, "1.2.3")):
            octets = os.urandom(size)
            status, told = seen(programs, cms.signed(folder, octets, kind), "strict")
            found = dict(line.split(" ") for line in told)
            write(folder, "message", bytes.fromhex(found.pop("message")))
            write(folder, "signature", bytes.fromhex(found.pop("signature")))
            words = ("-sha256", "-verify", "public", "-signature", "signature", "message")
            yield f"{size} octets", (status, found, openssl_in(folder, "dgst", *words)), (0, {
                "content_type": oid(kind).hex().upper(), "content": octets.hex().upper(),
                "certificate": serial.rjust(40, "0"), "signer": identifier,
                "signed_content_type": oid(kind).hex().upper(),
                "message_digest": hashlib.sha256(octets).hexdigest().upper(),
                "signing_time": str(int(signing_time(os.path.join(folder, "object")).timestamp())),
            }, "Verified OK\n")


TABLES = [
    objects_of_openssl, object_variants, object_beginnings, changed_objects, sizes_of_objects, valid_objects,
    changed_signatures, refused_objects,
]
