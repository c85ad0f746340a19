"""Signed checklists (RFC 9323) and trust anchor keys (RFC 9691), as rpkicert judges and prints them: contents that use
or break one rule each, and what is printed of those that are well, by the values that they were made of."""
import base64
import hashlib
import json

from der import NULL, bits, identifier, integer, sequence, tlv, unsigned
from fields import UNASKED, lines_of
from makers import records, resources, signing
from makers.records import ANCHOR_KEYS, CHECKLIST, anchor_key, anchor_keys, block, checklist, file, ia5
from programs import ran

NAMES = {CHECKLIST: "signed checklist", ANCHOR_KEYS: "trust anchor key"}
HELD = (signing.ADDRESSES + "IPv4:192.0.2.0/24, IPv6:2001:db8::/32\n" + signing.NUMBERS
        + "AS:64496, AS:64500-64510\n")
WHOLE, VERSION, CLAIM, ALGORITHM, FILES = (f"in the {part}: " for part in (
    "content", "content's version", "resources", "algorithm of the digests", "list of files"))
CURRENT, BEFORE, AFTER = "in the current key: ", "in the predecessor: ", "in the successor: "
NAME, KEY_URI = "malformed name of a file", "neither an rsync URI of an object nor an https URI"
WRITTEN, TWICE = "another version, or a default one that is written", "file listed twice"


def only(*files):
    return checklist(files=sequence(*files))


def of_uris(*uris):
    return anchor_keys(current=anchor_key(uris=sequence(*map(ia5, uris))))


# A text, the content, and what is said of it: nothing where it is well; how it begins where the end is left open.
CHECKLISTS = [
    ("a checklist", checklist(), None),
    ("AS numbers alone", checklist(resources=block(records.NUMBERS)), None),
    ("addresses alone", checklist(resources=block(addresses=records.ADDRESSES)), None),
    ("parameters that are NULL", checklist(algorithm=records.WITH_NULL), None),
    ("each character of a name", only(file("".join(map(chr, range(97, 123))).upper() + "abyz0189._-")), None),
    ("a name of one character", only(file(".")), None),
    ("two files without a name", only(file(None, b"1"), file(None, b"2")), None),
    ("a digest with and without a name", only(file("a", b"1"), file(None, b"1")), None),
    ("a digest under two names", only(file("a", b"1"), file("b", b"1")), None),
    ("no octets", b"", WHOLE + "truncated value"),
    ("another type", tlv(4, b""), WHOLE + "unexpected value"),
    ("an octet after it", checklist() + b"\0", WHOLE + "trailing data"),
    ("version 0 that is written", checklist(version=tlv(0xA0, unsigned(0))), VERSION + WRITTEN),
    ("version 1", checklist(version=tlv(0xA0, unsigned(1))), VERSION + WRITTEN),
    ("no resources", checklist(resources=block()), CLAIM + "no resources"),
    ("resources that are left out", checklist(resources=b""), CLAIM),
    ("addresses before AS numbers", checklist(resources=sequence(
        tlv(0xA1, records.ADDRESSES), tlv(0xA0, records.NUMBERS))), CLAIM + "trailing data"),
    ("a third kind of resources", checklist(resources=sequence(
        tlv(0xA0, records.NUMBERS), tlv(0xA2, NULL))), CLAIM + "trailing data"),
    ("AS numbers of the issuer", checklist(resources=block(resources.INHERITED_NUMBERS)),
     CLAIM + "resources of the issuer"),
    ("addresses of the issuer", checklist(resources=block(addresses=resources.INHERITED_ADDRESSES)),
     CLAIM + "resources of the issuer"),
    ("addresses of one family of the issuer", checklist(resources=block(addresses=sequence(
        resources.family(1, resources.prefix("10.0.0.0/8")), resources.family(2)))), CLAIM + "resources of the issuer"),
    ("SHA-384", checklist(algorithm=sequence(identifier("2.16.840.1.101.3.4.2.2"))), ALGORITHM),
    ("parameters that are a number", checklist(algorithm=sequence(identifier(records.SHA256), unsigned(0))),
     ALGORITHM + "trailing data"),
    ("an algorithm that is left out", checklist(algorithm=b""), ALGORITHM),
    ("no files", only(), FILES + "no files"),
    ("a list that is left out", checklist(files=b""), FILES + "truncated value"),
    ("a part after the list", checklist(more=NULL), FILES + "trailing data"),
    ("an empty name", only(file("")), FILES + NAME),
    ("a slash in a name", only(file("a/b")), FILES + NAME),
    ("a space in a name", only(file("a b")), FILES + NAME),
    ("an octet of 128 in a name", only(file(b"a\x80")), FILES),
    ("a name in UTF-8", only(sequence(tlv(12, b"a"), tlv(4, bytes(32)))), FILES + "unexpected value"),
    ("a digest of 31 octets", only(file("a", digest=bytes(31))), FILES),
    ("a digest of 33 octets", only(file("a", digest=bytes(33))), FILES),
    ("a digest in bits", only(sequence(ia5("a"), bits(bytes(32)))), FILES + "unexpected value"),
    ("a part after a digest", only(sequence(ia5("a"), tlv(4, bytes(32)), NULL)), FILES + "trailing data"),
    ("the second file alone is malformed", only(file("a"), file("/")), FILES + NAME),
    ("a name twice", only(file("a", b"1"), file("b", b"2"), file("a", b"3")), TWICE),
    ("a digest twice without a name", only(file(None, b"1"), file("a", b"2"), file(None, b"1")), TWICE),
] + [(f"addresses: {text}", checklist(resources=block(addresses=octets)), CLAIM)
     for text, octets in resources.MALFORMED_ADDRESSES if octets] + [
    (f"AS numbers: {text}", checklist(resources=block(octets)), CLAIM)
    for text, octets in resources.MALFORMED_NUMBERS if octets]

KEYS = [
    ("one key", anchor_keys(), None),
    ("three keys", anchor_keys(predecessor=tlv(0xA0, anchor_key()), successor=tlv(0xA1, anchor_key())), None),
    ("a successor alone", anchor_keys(successor=tlv(0xA1, anchor_key())), None),
    ("no comments", anchor_keys(current=anchor_key(comments=sequence())), None),
    ("an empty comment", anchor_keys(current=anchor_key(comments=sequence(tlv(12, b"")))), None),
    ("one URI", of_uris("https://rpki.example.net/"), None),
    ("another algorithm", anchor_keys(current=anchor_key(key=sequence(
        sequence(identifier("1.2.840.10045.2.1"), identifier("1.2.840.10045.3.1.7")), bits(b"\4" + bytes(64))))), None),
    ("an empty SEQUENCE", sequence(), CURRENT + "truncated value"),
    ("an octet after it", anchor_keys() + b"\0", WHOLE + "trailing data"),
    ("a part after the keys", anchor_keys(more=NULL), WHOLE + "trailing data"),
    ("version 0 that is written", anchor_keys(version=unsigned(0)), VERSION + WRITTEN),
    ("version 1", anchor_keys(version=unsigned(1)), VERSION + WRITTEN),
    ("a successor before a predecessor", anchor_keys(predecessor=tlv(0xA1, anchor_key()),
                                                     successor=tlv(0xA0, anchor_key())), WHOLE + "trailing data"),
    ("two predecessors", anchor_keys(predecessor=tlv(0xA0, anchor_key()) * 2), WHOLE + "trailing data"),
    ("a comment in IA5", anchor_keys(current=anchor_key(comments=sequence(ia5("a")))), CURRENT + "unexpected value"),
    ("a comment that is no UTF-8", anchor_keys(current=anchor_key(comments=sequence(tlv(12, b"\xff")))), CURRENT),
    ("no URI", of_uris(), CURRENT + "no URI"),
    ("a URI of another scheme", of_uris("ftp://rpki.example.net/ta.cer"), CURRENT + KEY_URI),
    ("a folder by rsync", of_uris("rsync://rpki.example.net/ta/"), CURRENT + KEY_URI),
    ("the second URI alone is malformed", of_uris("https://rpki.example.net/", "x"), CURRENT + KEY_URI),
    ("a URI in UTF-8", anchor_keys(current=anchor_key(uris=sequence(tlv(12, b"https://a/")))),
     CURRENT + "unexpected value"),
    ("a key that is left out", anchor_keys(current=anchor_key(key=b"")), CURRENT + "truncated value"),
    ("a key of no algorithm", anchor_keys(current=anchor_key(key=sequence(bits(b"")))), CURRENT + "unexpected value"),
    ("bits that aren't used", anchor_keys(current=anchor_key(key=sequence(records.RSA, tlv(3, b"\1\1")))), CURRENT),
    ("a part after a key", anchor_keys(current=anchor_key(more=integer(b"\0"))), CURRENT + "trailing data"),
    ("a malformed predecessor", anchor_keys(predecessor=tlv(0xA0, sequence())), BEFORE + "truncated value"),
    ("two keys in a predecessor", anchor_keys(predecessor=tlv(0xA0, anchor_key() * 2)), BEFORE + "trailing data"),
    ("a malformed successor", anchor_keys(successor=tlv(0xA1, anchor_key(uris=sequence()))), AFTER + "no URI"),
]


def signer(folder, kind):
    """A signer of this type: that of a checklist has resources of its own, and no place (RFC 9323 2)."""
    name = folder, kind
    if name not in SIGNERS:
        SIGNERS[name] = signing.Signer(folder, HELD, "") if kind == CHECKLIST else signing.Signer(folder)
    return SIGNERS[name]


SIGNERS = {}


def contents(program, folder):
    """Contents that use or break one rule each."""
    for kind, rows in (CHECKLIST, CHECKLISTS), (ANCHOR_KEYS, KEYS):
        for text, content, wrong in rows:
            octets = signer(folder, kind).object_of(kind, content)
            status, output, faults = ran(program, "--check", "-", octets=octets)
            if wrong is None:
                yield f"{NAMES[kind]}: {text}", (status, output, faults), (0, f"-: {UNASKED}\n".encode(), b"")
            else:
                good = output.decode().startswith(f"-: not a {NAMES[kind]}: {wrong}")
                yield f"{NAMES[kind]}: {text}", (status, good or output, faults), (1, True, b"")


def digest(octets):
    return base64.b64encode(hashlib.sha256(octets).digest()).decode()


def shown(program, folder):
    """What is printed, as JSON and as lines."""
    octets = signer(folder, CHECKLIST).object_of(CHECKLIST, only(file("a.txt", b"one"), file(None, b"two")))
    told = json.loads(ran(program, "--json", "-", octets=octets).output)
    seen = told["type"], told["signed_with_resources"], told["filenamesandhashes"]
    yield "a checklist in JSON", seen, ("rsc", [
        {"asid": 64496}, {"asrange": {"min": 64500, "max": 64510}}, {"ip_prefix": "192.0.2.0/24"},
        {"ip_prefix": "2001:db8::/32"}], [{"filename": "a.txt", "hash_digest": digest(b"one")},
                                          {"filename": "", "hash_digest": digest(b"two")}])
    lines = lines_of(ran(program, "-", octets=octets).output)
    seen = [value for label, value in lines if label in ("Type", "Signed With Resources", "FileNamesAndHashes")]
    yield "a checklist in lines", seen, [
        "rsc", "ASID 64496", "ASRange 64500-64510", "IP Prefix 192.0.2.0/24", "IP Prefix 2001:db8::/32",
        f"Filename a.txt, Hash Digest {digest(b'one')}", f"Filename no filename, Hash Digest {digest(b'two')}"]
    comments, uris = ["first", "ä\n\x1b[1m\\"], ["rsync://h/m/a.cer", "https://h/a.cer"]
    key = sequence(records.RSA, bits(sequence(unsigned(2 ** 1023 + 1), unsigned(3))))
    made = anchor_key(comments=sequence(*(tlv(12, text.encode()) for text in comments)),
                      uris=sequence(*map(ia5, uris)), key=key)
    octets = signer(folder, ANCHOR_KEYS).object_of(ANCHOR_KEYS, anchor_keys(current=made, successor=tlv(0xA1, made)))
    told = json.loads(ran(program, "--json", "-", octets=octets).output)
    spki = base64.b64encode(key).decode()
    item = {"comments": comments, "uris": uris, "spki": spki}
    yield "keys in JSON", (told["type"], told["takeys"]), ("tak", [{"name": "current", **item},
                                                                   {"name": "successor", **item}])
    lines = lines_of(ran(program, "-", octets=octets).output)
    seen = [value for label, value in lines if label in ("Type", "TAKeys")]
    rest = f"Comments first, \\C3\\A4\\0A\\1B[1m\\5C, URIs {', '.join(uris)}, SPKI {spki}"
    yield "keys in lines", seen, ["tak", f"Name current, {rest}", f"Name successor, {rest}"]


def sizes(program, folder):
    """Lists of many items: each is printed, in order."""
    for count in (1, 127, 128, 1_000, 5_000):
        names = [f"f{number}" for number in range(count)]
        octets = signer(folder, CHECKLIST).object_of(CHECKLIST, only(*(file(name, name.encode()) for name in names)))
        status, output, _ = ran(program, "--json", "-", octets=octets)
        seen = [(one["filename"], one["hash_digest"]) for one in json.loads(output)["filenamesandhashes"]]
        yield f"{count} files", (status, seen), (0, [(name, digest(name.encode())) for name in names])
        comments = [f"comment {number}" for number in range(count)]
        made = anchor_key(comments=sequence(*(tlv(12, text.encode()) for text in comments)))
        octets = signer(folder, ANCHOR_KEYS).object_of(ANCHOR_KEYS, anchor_keys(current=made))
        status, output, _ = ran(program, "--json", "-", octets=octets)
        yield f"{count} comments", (status, json.loads(output)["takeys"][0]["comments"]), (0, comments)


TABLES = [contents, shown, sizes]
