"""The malformed part of a manifest (RFC 9286 4.2), a route origin attestation (RFC 9582 4) or an attestation of
providers (draft-ietf-sidrops-aspa-profile), as include/rpki.h numbers parts, with the leftmost error in it, and what it
says, in the words of a row of tests/linked/contents/rows.py."""
import re
from typing import Any, List

from judges import resources
from judges.resources import as_number
from strict import Octets, need, number, part, seconds, serial

(MANIFEST, NUMBER, THIS_UPDATE, NEXT_UPDATE, HASH_ALGORITHM, FILE_LIST, ORDER, ROA, AS_ID, BLOCKS, ASPA, VERSION,
 CUSTOMER, PROVIDERS) = range(138, 152)
SHA256 = bytes.fromhex("608648016503040201")


# ---- manifests

def moment(octets):
    return seconds(0x18, octets.take(0x18).octets)


def algorithm(octets):
    need(octets.take(6).octets == SHA256)


def file(octets):
    """The place of the name in the entry, the size of the entry, and the digest."""
    first = octets.at()
    inside = octets.take(0x30)
    name = inside.take(0x16)
    need(re.fullmatch(rb"[-_A-Za-z0-9]+\.[a-z]{3}", name.octets))
    digest = inside.take(3).octets
    need(len(digest) == 33 and digest[0] == 0)
    inside.end()
    return [name.start - first, len(name.octets), octets.at() - first, digest[1:].hex()]


def files(octets):
    listed = octets.only(0x30)
    return listed, listed.each(file)


def manifest(octets):
    parts = part(MANIFEST, Octets(octets).only, 0x30)
    of_manifest = part(NUMBER, serial, parts)
    this, following = part(THIS_UPDATE, moment, parts), part(NEXT_UPDATE, moment, parts)
    part(HASH_ALGORITHM, algorithm, parts)
    listed, found = part(FILE_LIST, files, parts)
    part(ORDER, need, this < following)
    return [*listed.span(), len(found), this, following, of_manifest.hex(), *sum(found, [])]


def names(octets):
    """How many files a manifest has, and 1 where no two have the same name, else 0."""
    start, _, count, _, _, _, *found = manifest(octets)
    told = set()
    for at in range(0, len(found), 4):
        told.add(octets[start + found[at]:start + found[at] + found[at + 1]])
        start += found[at + 2]
    return [count, int(len(told) == count)]


# ---- route origin attestations

def address(octets, width):
    """The address, the length, the maximum length, whether it is there, and the size of the entry."""
    first = octets.at()
    inside = octets.take(0x30)
    bits, length = resources.address(inside, width)
    most = number(inside, 256) if inside.begins_with(2) else None
    inside.end()
    need(most is None or length <= most <= width)
    low = (bits << width - length).to_bytes(width // 8, "big").ljust(16, b"\0")
    return [low.hex(), length, length if most is None else most, int(most is not None), octets.at() - first]


def family(octets):
    inside = octets.take(0x30)
    name = inside.take(4).octets
    need(name in (b"\0\1", b"\0\2"))
    width = 32 if name == b"\0\1" else 128
    listed = inside.take(0x30)
    need(not listed.is_empty())
    found = listed.each(lambda entry: address(entry, width))
    inside.end()
    return width, listed, found


def families(octets, strict):
    inside = octets.take(0x30)
    need(not inside.is_empty())
    found = [family(inside)]
    if not inside.is_empty():
        found.append(family(inside))
    need(inside.is_empty())
    widths = [width for width, *_ in found]
    need(sorted(widths) in ([32], [128], [32, 128]))
    need(not strict or widths == sorted(widths))
    octets.end()
    return {width: (listed, prefixes) for width, listed, prefixes in found}


def roa(octets, strict):
    parts = part(ROA, Octets(octets).only, 0x30)
    entries: List[Any] = []
    words: List[Any] = [part(AS_ID, as_number, parts)]
    found = part(BLOCKS, families, parts, strict)
    for width in (32, 128):
        listed, prefixes = found.get(width, (None, []))
        # Where a family isn't there its place is empty, wherever it is.
        words += [*(listed.span() if listed else ["-", 0]), len(prefixes)]
        entries += sum(prefixes, [])
    return words + entries


# ---- attestations of providers

def version(octets):
    inside = octets.take(0xa0)
    need(inside.take(2).octets == b"\1")
    inside.end()


def provider(octets):
    first = octets.at()
    return [as_number(octets), octets.at() - first]


def providers(octets, customer):
    listed, found = octets.take(0x30), []
    need(not listed.is_empty())
    while not listed.is_empty():
        found.append(provider(listed))
        need(found[-1][0] != customer and (len(found) < 2 or found[-2][0] < found[-1][0]))
    octets.end()
    return listed, found


def aspa(octets):
    parts = part(ASPA, Octets(octets).only, 0x30)
    part(VERSION, version, parts)
    customer = part(CUSTOMER, as_number, parts)
    listed, found = part(PROVIDERS, providers, parts, customer)
    return [customer, *listed.span(), len(found), *sum(found, [])]
