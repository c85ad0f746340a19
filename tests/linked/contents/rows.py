"""Writes the rows of manifests, route origin attestations, attestations of providers, checklists and trust anchor keys
that the tests in C and in Rust read: contents of openssl, variants that use or break one rule each, and contents with
octets changed, each with its status: the malformed part by RFC 9286, RFC 9582, the profile of ASPA, RFC 9323 or RFC
9691, which tests/python/judges/contents.py and records.py find. Where that is 0 there is what the content says, and
where its parts are; where it is a part, the error in it. Needs openssl.

usage: rows.py > FILE

A row begins with one of these words, the octets in hexadecimal digits or `-`, and the status:
  manifest   for status 0 the place of the files, as START LENGTH, their count, the seconds of both times, the number of
             twenty octets; then for each file the place of its name in its entry, the entry's size, and the digest
  roa0 roa1  not strictly, and strictly: the AS number; for each family its place and count; then for each prefix the
             address of sixteen octets, its length, the maximum length, whether that is there, and the entry's size
  aspa       the customer, the place of the providers and their count; then each number and the size of its entry
  file, address4, address6, provider     one entry at the front of the octets, in the same words
  checklist  the places of AS numbers and of addresses, and whether each is there, that of the files, and their count;
             then for each file the place of its name in its entry, whether it is there, the entry's size, the digest
  tak        for each key, but for the first where it is there, 1, or 0: the places of its comments and URIs, each with
             their count, and its own
  listed     a file of a checklist at the front of the octets, in the same words
  names      a manifest: how many files it has, and 1 where no two have the same name, else 0"""
import os
import random
import sys
import tempfile

sys.dont_write_bytecode = True
sys.path.append(os.path.join(os.path.dirname(os.path.abspath(__file__)), "..", "..", "python"))

from changes import changed
from der import bits, sequence, tlv, unsigned
from judges.contents import SHA256, address, aspa, file, manifest, names, provider, roa
from judges.records import checklist, listed_file, tak
from makers import records
from openssl import openssl
from programs import octets_of, write
from strict import Octets, Wrong


def name(text=b"a.cer"):
    return tlv(0x16, text)


def entry(text=b"a.cer", octets=bytes(range(32)), unused=0, more=b""):
    return sequence(name(text), bits(octets, unused), more)


def time(text):
    return tlv(0x18, text)


OID = tlv(6, SHA256)
THIS, NEXT = time(b"20260101000000Z"), time(b"20260201000000Z")
TWO_FILES = [entry(), entry(b"-_Z9.roa", bytes(32))]


def listing(number=unsigned(7), this=THIS, following=NEXT, kind=OID, listed=sequence(*TWO_FILES), more=b""):
    return sequence(number, this, following, kind, listed, more)


LONG = entry(b"x" * 120 + b".mft")
MANIFESTS = [
    listing(), listing(listed=sequence()), listing(unsigned(0)), listing(unsigned(2 ** 159 - 1)),
    listing(unsigned(2 ** 159)), listing(tlv(2, b"\xff")), listing(tlv(2, b"\0\1")), listing(tlv(2, b"")),
    listing(tlv(0xa0, unsigned(0)) + unsigned(7)), listing(this=NEXT), listing(this=NEXT, following=THIS),
    listing(this=time(b"00000101000000Z")), listing(this=time(b"00000229235959Z")),
    listing(this=tlv(0x17, b"260101000000Z")), listing(this=time(b"20260229000000Z")),
    listing(this=time(b"20260101240000Z")), listing(this=time(b"20260101000060Z")),
    listing(this=time(b"20260101000000.5Z")), listing(this=time(b"20260101000000+0000")),
    listing(following=time(b"99991231235959Z")), listing(following=tlv(0x17, b"260201000000Z")),
    listing(kind=tlv(6, bytes.fromhex("608648016503040202"))), listing(kind=sequence(OID)),
    listing(listed=tlv(0x31, entry())), listing(listed=sequence(entry(), entry())), listing(listed=b""),
    listing(listed=sequence(LONG)), listing(listed=sequence(LONG, *TWO_FILES * 300)), listing(more=b"\0"),
    listing(more=sequence()), listing() + b"\0", tlv(0x31, listing()[2:]), b"", b"\x30", sequence(),
    sequence(sequence()),
    *(listing(listed=sequence(each_file)) for each_file in (
        entry(b""), entry(b".cer"), entry(b"a"), entry(b"a.ce"), entry(b"a.cera"), entry(b"a.CER"), entry(b"a.b.cer"),
        entry(b"a/b.cer"), entry(b"\xe9.cer"), entry(octets=bytes(31)), entry(octets=bytes(33)), entry(octets=b""),
        entry(unused=1), entry(more=b"\5\0"), sequence(name()), sequence(bits(bytes(32)), name()),
        sequence(tlv(0x0c, b"a.cer"), bits(bytes(32))), sequence(name(), tlv(4, bytes(32))), tlv(0x31, entry()[2:]))),
]


def named_files(*texts):
    return b"".join(entry(text, bytes([number % 256]) * 32) for number, text in enumerate(texts))


MANY = [b"f%06d.roa" % (number * 7919 % 997) for number in range(300)]
NAMED = [
    named_files(b"c.roa", b"a.cer", b"b.crl"), b"", named_files(b"a.cer"), named_files(b"a.cer", b"a.cer"),
    named_files(b"a.cer", b"b.cer"), named_files(b"a.cer", b"A.cer"), named_files(b"a.cer", b"a.crl"),
    named_files(b"a.cer", b"aa.cer"), named_files(b"aa.cer", b"a.cer"), named_files(b"b.roa", b"a.roa", b"b.roa"),
    named_files(b"a.roa", b"b.roa", b"b.roa"), named_files(b"b.roa", b"b.roa", b"a.roa"),
    named_files(*[b"x.mft"] * 5), named_files(b"x" * 200 + b"a.mft", b"x" * 200 + b"b.mft"),
    named_files(b"x" * 200 + b"a.mft", b"x" * 200 + b"a.mft"), named_files(*MANY), named_files(*MANY, MANY[0]),
    named_files(*MANY, MANY[150]), named_files(*MANY, MANY[299]), entry() + b"\0", sequence(entry()), entry(b"a.CER"),
    named_files(b"a.cer", b"b.cer") + entry(unused=1), named_files(*sorted(MANY)), named_files(*sorted(MANY)[::-1]),
]


def prefix(octets, unused=0, most=b"", more=b""):
    return sequence(bits(octets, unused), most, more)


def listed(number, *prefixes, more=b""):
    return sequence(tlv(4, bytes([0, number])), sequence(*prefixes), more)


FOUR = [prefix(b"\x0a", most=unsigned(24)), prefix(b"\x0a\x40", 3), prefix(b"\xc0\0\2\0", 7), prefix(b"")]
SIX = [prefix(b"\x20\1\x0d\xb8", most=unsigned(48)), prefix(bytes(range(16)), most=unsigned(128))]


def origin(*blocks, number=unsigned(64496), more=b""):
    return sequence(number, sequence(*blocks), more)


ORIGINS = [
    origin(listed(1, *FOUR), listed(2, *SIX)), origin(listed(2, *SIX), listed(1, *FOUR)), origin(listed(1, *FOUR)),
    origin(listed(2, *SIX)), origin(listed(1, *FOUR), number=unsigned(0)),
    origin(listed(1, *FOUR), number=unsigned(2 ** 32 - 1)), origin(listed(1, *FOUR), number=unsigned(2 ** 32)),
    origin(listed(1, *FOUR), number=tlv(2, b"\x80")), origin(listed(1, *FOUR), number=tlv(2, b"\0\1")),
    origin(listed(1, *FOUR), number=tlv(0xa0, unsigned(0)) + unsigned(1)), origin(), origin(listed(1)),
    origin(listed(1, *FOUR), listed(1, *FOUR)), origin(listed(2, *SIX), listed(2, *SIX)), origin(listed(3, *FOUR)),
    origin(listed(1, *FOUR), listed(2)), origin(listed(1, *FOUR), listed(2, *SIX), listed(1, *FOUR)),
    origin(listed(1, *SIX)), origin(listed(2, *FOUR)), origin(listed(1, *FOUR, more=b"\5\0")),
    origin(listed(1, *FOUR), more=b"\5\0"), origin(listed(1, *FOUR), b"\0"), origin(listed(1, *FOUR)) + b"\0",
    sequence(unsigned(1), tlv(0x31, listed(1, *FOUR))), origin(sequence(tlv(4, b"\0\1\1"), sequence(*FOUR))),
    origin(sequence(tlv(4, b"\1"), sequence(*FOUR))), origin(sequence(sequence(*FOUR))),
    tlv(0x31, origin(listed(1))[2:]),
    origin(listed(1, *FOUR * 400), listed(2, *SIX * 400)), b"", b"\x30", sequence(),
    *(origin(listed(1, one)) for one in (
        prefix(b"\x0a", most=unsigned(8)), prefix(b"\x0a", most=unsigned(7)), prefix(b"\x0a", most=unsigned(32)),
        prefix(b"\x0a", most=unsigned(33)), prefix(b"\x0a", most=unsigned(255)), prefix(b"\x0a", most=unsigned(256)),
        prefix(b"\x0a", most=tlv(2, b"\0\x18")), prefix(b"\x0a", most=tlv(2, b"\xff")),
        prefix(b"\x0a", most=tlv(2, b"")),
        prefix(b"\x0a", most=tlv(0x22, b"\x18")), prefix(b"\x0a", more=b"\5\0"), prefix(b"\x0b", 1), prefix(b"\x0a", 8),
        prefix(bytes(4)), prefix(bytes(5)), prefix(bytes(5), 7), prefix(b"", most=unsigned(0)), sequence(),
        sequence(unsigned(8)), tlv(0x31, FOUR[0][2:]), sequence(tlv(3, b"")), sequence(tlv(3, b"\1")))),
    *(origin(listed(2, one)) for one in (
        prefix(b"", most=unsigned(128)), prefix(b"\x20", most=unsigned(129)), prefix(bytes(16)), prefix(bytes(17)),
        prefix(bytes(16), 1, unsigned(127)), prefix(bytes(16), most=unsigned(127)))),
]


def claim(*numbers, customer=unsigned(64496), kind=tlv(0xa0, unsigned(1)), more=b""):
    return sequence(kind, customer, sequence(*numbers), more)


CLAIMS = [
    claim(unsigned(64499), unsigned(64501)), claim(unsigned(0)), claim(unsigned(2 ** 32 - 1)), claim(unsigned(2 ** 32)),
    claim(), claim(unsigned(2), unsigned(1)), claim(unsigned(1), unsigned(1)), claim(unsigned(1), unsigned(64496)),
    claim(unsigned(64496)), claim(tlv(2, b"\xff")), claim(tlv(2, b"\0\1")), claim(tlv(2, b"")), claim(b"\5\0"),
    claim(unsigned(1), kind=b""), claim(unsigned(1), kind=tlv(0xa0, unsigned(0))), claim(unsigned(1), kind=unsigned(1)),
    claim(unsigned(1), kind=tlv(0xa0, unsigned(2))), claim(unsigned(1), kind=tlv(0xa0, unsigned(1) + b"\5\0")),
    claim(unsigned(1), kind=tlv(0xa1, unsigned(1))), claim(unsigned(1), customer=unsigned(2 ** 32)),
    claim(unsigned(1), customer=tlv(2, b"\x80")), claim(unsigned(1), customer=b""), claim(unsigned(1), more=b"\5\0"),
    claim(unsigned(1)) + b"\0", claim(*map(unsigned, range(1, 3000, 2))), tlv(0x31, claim(unsigned(1))[2:]), b"",
    b"\x30", sequence(), sequence(tlv(0xa0, unsigned(1)), unsigned(1), tlv(0x31, unsigned(2))),
]

def lists(*files):
    return records.checklist(files=sequence(*files))


CHECKLISTS = [
    records.checklist(), records.checklist(version=tlv(0xa0, unsigned(0))), records.checklist(version=tlv(0x80, b"")),
    records.checklist(resources=records.block(records.NUMBERS)), records.checklist(algorithm=records.WITH_NULL),
    records.checklist(resources=records.block(addresses=records.ADDRESSES)), records.checklist(resources=sequence()),
    records.checklist(resources=records.block(b"\5\0", b"\5\0")), records.checklist(resources=sequence(unsigned(1))),
    records.checklist(resources=sequence(tlv(0x80, b"\5\0"))), records.checklist(resources=sequence(tlv(0xa0, b""))),
    records.checklist(resources=sequence(tlv(0xa1, records.ADDRESSES), tlv(0xa0, records.NUMBERS))),
    records.checklist(resources=tlv(0x31, b"")), records.checklist(resources=b""), records.checklist(algorithm=b""),
    records.checklist(algorithm=OID), records.checklist(algorithm=sequence()),
    records.checklist(algorithm=sequence(tlv(6, bytes.fromhex("608648016503040202")))),
    records.checklist(algorithm=sequence(OID, tlv(5, b"\0"))), records.checklist(algorithm=sequence(OID, unsigned(1))),
    records.checklist(algorithm=sequence(OID, tlv(5, b""), tlv(5, b""))), records.checklist(files=b""),
    records.checklist(files=sequence()), records.checklist(files=tlv(0x31, records.file("a"))),
    records.checklist(more=b"\5\0"), records.checklist() + b"\0", b"", b"\x30", sequence(), tlv(0x31, b""),
    lists(records.file("a"), records.file("a")), lists(*[records.file(f"f{number}") for number in range(300)]),
    *(lists(each_file) for each_file in (
        records.file(""), records.file("a b"), records.file("a/b"), records.file(b"\xe9"), records.file(".."),
        records.file("-_.Zz09"), records.file("x" * 200), records.file("a", digest=bytes(31)),
        records.file(None, digest=bytes(33)), records.file(None, digest=b""), sequence(records.ia5("a")),
        sequence(tlv(0x36, b"a"), tlv(4, bytes(32))), sequence(tlv(0x0c, b"a"), tlv(4, bytes(32))),
        sequence(tlv(4, bytes(32)), records.ia5("a")), sequence(tlv(3, bytes(33))), tlv(0x31, tlv(4, bytes(32))))),
]


def keyed(**changes):
    return records.anchor_keys(current=records.anchor_key(**changes))


ANY_KEY = sequence(sequence(tlv(6, b"\x2a")), tlv(3, b"\0"))
TAKS = [
    records.anchor_keys(), records.anchor_keys(version=unsigned(0)), records.anchor_keys(current=b""),
    records.anchor_keys(predecessor=tlv(0xa0, records.anchor_key())), records.anchor_keys(more=b"\5\0"),
    records.anchor_keys(successor=tlv(0xa1, records.anchor_key())),
    records.anchor_keys(predecessor=tlv(0xa0, records.anchor_key(comments=sequence())),
                        successor=tlv(0xa1, records.anchor_key(key=ANY_KEY))),
    records.anchor_keys(predecessor=tlv(0xa1, records.anchor_key()), successor=tlv(0xa0, records.anchor_key())),
    records.anchor_keys(predecessor=tlv(0x80, b"")), records.anchor_keys(predecessor=tlv(0xa0, b"")),
    records.anchor_keys(successor=tlv(0xa1, records.anchor_key() + b"\5\0")), records.anchor_keys() + b"\0", b"",
    records.anchor_keys(successor=tlv(0xa2, records.anchor_key())), b"\x30", sequence(), tlv(0x31, b""),
    keyed(comments=b""), keyed(comments=sequence(tlv(12, b"\xff"))), keyed(comments=sequence(tlv(22, b"a"))),
    keyed(comments=sequence(tlv(12, b""))), keyed(comments=sequence(*[tlv(12, b"one")] * 200)), keyed(uris=b""),
    keyed(uris=sequence()), keyed(uris=sequence(tlv(12, b"https://h.example/a"))), keyed(more=b"\5\0"),
    *(keyed(uris=sequence(records.ia5(text))) for text in (
        "http://h.example/a", "rsync://h.example/m/d/", "rsync://h.example/m/", "rsync://h.example/m/a.cer", "")),
    keyed(key=b""), keyed(key=ANY_KEY), keyed(key=sequence()), keyed(key=sequence(sequence(), tlv(3, b"\0"))),
    keyed(key=sequence(sequence(tlv(6, b"\x2a")), tlv(3, b""))), keyed(key=sequence(*[sequence(tlv(6, b"\x2a"))] * 2)),
    keyed(key=sequence(sequence(tlv(6, b"\x2a")), tlv(3, b"\1\1"))), keyed(key=ANY_KEY + b"\5\0"),
    keyed(key=sequence(sequence(tlv(6, b"\x2a")), tlv(3, b"\0"), b"\5\0")),
]

DESCRIPTIONS = {
    "manifest": """asn1 = SEQUENCE:manifest
[manifest]
number = INTEGER:513
this = GENERALIZEDTIME:20240229235959Z
next = GENERALIZEDTIME:20240301235959Z
kind = OID:2.16.840.1.101.3.4.2.1
list = SEQUENCE:list
[list]
a = SEQUENCE:a
b = SEQUENCE:b
[a]
file = IA5STRING:abc.cer
hash = FORMAT:HEX,BITSTRING:ba7816bf8f01cfea414140de5dae2223b00361a396177a9cb410ff61f20015ad
[b]
file = IA5STRING:A-Z_09.roa
hash = FORMAT:HEX,BITSTRING:e3b0c44298fc1c149afbf4c8996fb92427ae41e4649b934ca495991b7852b855
""",
    # A bit string by its contents octets, since openssl drops bits at the end that are zero.
    "roa": """asn1 = SEQUENCE:roa
[roa]
as = INTEGER:64496
blocks = SEQUENCE:blocks
[blocks]
v4 = SEQUENCE:v4
v6 = SEQUENCE:v6
[v4]
family = FORMAT:HEX,OCTETSTRING:0001
addresses = SEQUENCE:addresses4
[addresses4]
a = SEQUENCE:a4
b = SEQUENCE:b4
[a4]
prefix = IMPLICIT:3U,FORMAT:HEX,OCTETSTRING:000a
length = INTEGER:24
[b4]
prefix = IMPLICIT:3U,FORMAT:HEX,OCTETSTRING:030a40
[v6]
family = FORMAT:HEX,OCTETSTRING:0002
addresses = SEQUENCE:addresses6
[addresses6]
a = SEQUENCE:a6
[a6]
prefix = IMPLICIT:3U,FORMAT:HEX,OCTETSTRING:0020010db8
length = INTEGER:48
""",
    "aspa": """asn1 = SEQUENCE:aspa
[aspa]
version = EXPLICIT:0,INTEGER:1
customer = INTEGER:64496
providers = SEQUENCE:providers
[providers]
a = INTEGER:64499
b = INTEGER:64501
c = INTEGER:4200000000
""",
}


def of_openssl(kind):
    """The content that openssl makes of a description."""
    with tempfile.TemporaryDirectory() as folder:
        source, made = write(folder, "description", DESCRIPTIONS[kind].encode()), os.path.join(folder, "content")
        openssl("asn1parse", "-genconf", source, "-noout", "-out", made)
        return octets_of(made)


def variants(octets, source, count):
    """Each beginning, each octet changed, and several changes at once."""
    yield octets
    yield from (octets[:end] for end in range(len(octets)))
    for at, octet in enumerate(octets):
        for turned in (0x01, 0x20, 0x80, source.randrange(1, 256)):
            yield octets[:at] + bytes([octet ^ turned]) + octets[at + 1:]
    yield from (changed(octets, source) for _ in range(count))


def row(word, octets, call, *words):
    """A row: the status, and what the content says."""
    try:
        told = [0, *call(*words)]
    except Wrong as wrong:
        told = list(dict.fromkeys((wrong.status, wrong.error)))
    print(word, octets.hex() or "-", *told)
    return told[0]


# The words of rows, by the kind of their content, and what reads it.
READERS = {
    "manifest": [("manifest", manifest)],
    "roa": [("roa0", lambda octets: roa(octets, False)), ("roa1", lambda octets: roa(octets, True))],
    "aspa": [("aspa", aspa)],
    "file": [("file", lambda octets: file(Octets(octets)))],
    "address": [("address4", lambda octets: address(Octets(octets), 32)),
                ("address6", lambda octets: address(Octets(octets), 128))],
    "provider": [("provider", lambda octets: provider(Octets(octets)))],
    "checklist": [("checklist", checklist)],
    "tak": [("tak", tak)],
    "listed": [("listed", lambda octets: listed_file(Octets(octets)))],
    "names": [("names", names)],
}


def main():
    source = random.Random(9286)
    contents = {"manifest": MANIFESTS, "roa": ORIGINS, "aspa": CLAIMS}
    for kind, made in contents.items():
        made = [of_openssl(kind), *made]
        for octets in [*made, *variants(made[0], source, 800), *variants(made[1], source, 400)]:
            for word, reader in READERS[kind]:
                row(word, octets, reader, octets)
    for made, word, reader in ((CHECKLISTS, "checklist", checklist), (TAKS, "tak", tak)):
        for octets in made:
            row(word, octets, reader, octets)
    for octets in variants(CHECKLISTS[0], source, 800):
        row("checklist", octets, checklist, octets)
    named = [listing(listed=sequence(files)) for files in NAMED]
    for octets in [*named, *variants(named[0], source, 400), *variants(named[3], source, 400)]:
        row("names", octets, names, octets)
    entries = {"file": [entry(), LONG], "address": [FOUR[0], FOUR[1], SIX[0], SIX[1]],
               "provider": [unsigned(64496), unsigned(2 ** 32 - 1)],
               "listed": [records.file("a.txt", b"one"), records.file(None, b"two")]}
    for kind, made in entries.items():
        for octets in made:
            for each_one in variants(octets + b"\x30\0", source, 300):
                for word, reader in READERS[kind]:
                    row(word, each_one, reader, each_one)


if __name__ == "__main__":
    main()
