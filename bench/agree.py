#!/usr/bin/env python3
"""Holds the C library and plain C to the same answers (bench/agree.c): certificates, revocation lists, signed objects,
what these contain and rsync URIs, each kind first as it is and then with one change at a time, the same at each run.
The values are those of bench/certificates.py, of tests/python/variants, and others made here. Prints what they differ
on, and fails then. Needs a C compiler.

usage: bench/agree.py [ARCHIVE [COUNT]]    (bindings/out/librpki.a, 200000)"""
import os
import random
import struct
import subprocess
import sys
import tempfile

sys.dont_write_bytecode = True
sys.path.append(os.path.join(os.path.dirname(os.path.abspath(__file__)), "..", "tests", "python"))

from certificates import Certificates
from der import bits, sequence, tlv, unsigned
from makers import lists, objects, payloads, x509
from makers.certificate import Certificate
from makers.resources import family
from programs import TOP
from variants import certificates, claims, malformed, names_and_places
from variants.lists import ACCEPTED as LISTS
from variants.objects import ACCEPTED as OBJECTS

ARCHIVE = os.path.join(TOP, "bindings", "out", "librpki.a")
SOURCES = [os.path.join(TOP, "bench", name)
           for name in ("agree.c", "plain.c", "plain_certificate.c", "plain_contents.c", "plain_objects.c")]
# How many of 200 values are of a kind.
SHARES = {"certificates": 80, "lists": 30, "objects": 30, "manifests": 15, "origins": 15, "providers": 10, "uris": 20}


def varied():
    """The certificates of the tests, each with its change."""
    for changes in (certificates, claims, malformed, names_and_places):
        for _, change, *_ in changes.VARIANTS:
            it = Certificate()
            change(it)
            yield it.octets()
    # Ranges of addresses, of which the ends are cut as far as they may be in the first alone.
    for low, high in (b"\x0B", b"\x16"), (b"\x0A", b"\x16"), (b"\x0B", b"\x17"):
        it = Certificate()
        it.put(x509.ADDRESSES, sequence(family(1, sequence(bits(low), bits(high)))))
        yield it.octets()
    for without in ("algorithm", "inner_algorithm"), ("algorithm",):
        it = Certificate()
        for name in without:
            getattr(it, name).inside = getattr(it, name).inside[:1]
        yield it.octets()


def some_certificates():
    made = Certificates()
    return [made.certificate() for _ in range(300)] + list(varied())


def some_lists(draw):
    entries = [[lists.entry(draw.randrange(1 << draw.choice([7, 8, 30, 159])),
                            draw.choice(["260101000000Z", "20600229235959Z"])) for _ in range(size)]
               for size in (1, 2, 5, 20)]
    bare = {"algorithm": x509.NO_PARAMETERS}
    several = x509.of_names((x509.COMMON, x509.UTF8, b"A"), ("2.5.4.6", x509.PRINTABLE, b"NL"))
    found = [octets for _, octets, *_ in LISTS] + [lists.listed(entries=sequence(*one)) for one in entries]
    found += [lists.listed(issuer=several), lists.listed(issuer=x509.of_names((x509.COMMON, 0x30, unsigned(1))))]
    return found + [x509.signed(lists.fields(**bare), x509.NO_PARAMETERS), x509.signed(lists.fields(**bare))]


def some_objects(draw):
    wrapped = [payloads.manifest([payloads.file("a.roa", b"")]), some_origins(draw)[0], bytes(200)]
    return [octets for _, octets, *_ in OBJECTS] + [objects.made(content=objects.content_fields(
        content=tlv(0xA0, tlv(0x04, octets)))) for octets in wrapped]


def some_manifests(draw):
    def file(each):
        ending = draw.choice(["roa", "cer", "crl"])
        return payloads.file(f"{draw.getrandbits(draw.choice([4, 80, 600])):x}_{each}-A.{ending}", b"%d" % each)
    return [payloads.manifest([file(each) for each in range(count)], number)
            for count in (0, 1, 2, 5, 20) for number in (0, 127, 128, 1 << 158)]


def some_origins(draw):
    def prefixes(version, count):
        for _ in range(count):
            most = 32 if version == 4 else 128
            length = draw.randrange(most + 1)
            number = draw.getrandbits(most) >> (most - length) << (most - length) if length else 0
            text = (bytes([-length % 8]) + number.to_bytes(most // 8, "big")[:(length + 7) // 8])
            largest = draw.choice([b"", unsigned(draw.randrange(length, most + 1))])
            yield sequence(tlv(3, text), largest)

    def prefixes_of(version, count):
        return sequence(tlv(4, payloads.FAMILIES[version]), sequence(*prefixes(version, count)))
    found = []
    for count in (1, 2, 5, 20):
        for number in (0, 64496, 4200000000):
            families = [[prefixes_of(4, count)], [prefixes_of(6, count)], [prefixes_of(4, 1), prefixes_of(6, count)]]
            found += [payloads.roa(number, *members) for members in families]
    return found


def some_providers(draw):
    return [payloads.aspa(customer, sorted(draw.sample(range(1 << draw.choice([7, 8, 16, 32])), count)))
            for count in (1, 2, 5, 20) for customer in (1, 200, 4294967295)]


def some_uris(draw):
    ends = ["", "a", "a/", "a/b.roa", "..a/.b/c..d", "x" * 255, "/".join(["d" * 200] * 15), "a/" * 40]
    return [f"{scheme}://{host}/{module}/{end}".encode() for scheme in ("rsync", "RsYnC") for end in ends
            for host in ("example.net", "h", "a" * 255) for module in ("m", "repository", "..m")]


def values():
    """The values of each kind."""
    draw = random.Random(1)
    return {"certificates": some_certificates(), "lists": some_lists(draw), "objects": some_objects(draw),
            "manifests": some_manifests(draw), "origins": some_origins(draw), "providers": some_providers(draw),
            "uris": some_uris(draw)}


def agree(archive, count):
    """Whether they do on so many values."""
    compiler = [os.environ.get("CC", "cc"), "-std=c99", "-O2", "-Wall", "-Wextra", "-Werror", f"-I{TOP}/include"]
    with tempfile.TemporaryDirectory() as folder:
        program, path = os.path.join(folder, "agree"), os.path.join(folder, "values")
        subprocess.run([*compiler, *SOURCES, archive, "-o", program], check=True)
        well = True
        for kind, found in values().items():
            with open(path, "wb") as file:
                file.writelines(struct.pack("<I", len(octets)) + octets for octets in found)
            words = [program, kind, path, str(count * SHARES[kind] // sum(SHARES.values()))]
            well = subprocess.run(words).returncode == 0 and well
    return well


def main():
    if len(sys.argv) > 3:
        sys.exit(__doc__)
    archive, count = sys.argv[1:] + [ARCHIVE, "200000"][len(sys.argv) - 1:]
    if not agree(archive, int(count)):
        sys.exit(1)


if __name__ == "__main__":
    main()
