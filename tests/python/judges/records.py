"""The malformed part of a signed checklist (RFC 9323 4) or of trust anchor keys (RFC 9691 3.2), as include/rpki.h
numbers parts, with the error in it, and what it says, in the words of a row of tests/linked/contents/rows.py."""
import re

from judges.contents import SHA256
from strict import Octets, need, part

(CHECKLIST, CHECKLIST_VERSION, RESOURCES, ALGORITHM, FILES) = range(184, 189)
(TAK, TAK_VERSION, CURRENT, PREDECESSOR, SUCCESSOR) = range(192, 197)


def begins_with_context(octets, number):
    """Whether identifier octets of this context-specific number come next, in either form."""
    return octets.octets[octets.place:octets.place + 1] in (bytes([0x80 | number]), bytes([0xA0 | number]))


def under(octets, number):
    """What is under an explicit tag, where it is there."""
    return octets.take(0xA0 | number) if begins_with_context(octets, number) else None


def words_of(found):
    """The place of octets that may not be there, and whether they are."""
    return [*(found.span() if found else ["-", 0]), int(found is not None)]


# ---- checklists

def resources(octets):
    inside = octets.take(0x30)
    found = under(inside, 0), under(inside, 1)
    inside.end()
    need(any(found))
    return found


def algorithm(octets):
    inside = octets.take(0x30)
    need(inside.take(6).octets == SHA256)
    if inside.begins_with(5):
        need(inside.take(5).is_empty())
    inside.end()


def listed_file(octets):
    """The place of the name in the entry and whether it is there, the size of the entry, and the digest."""
    first = octets.at()
    inside, name = octets.take(0x30), None
    if inside.begins_with(0x16):
        name = inside.take(0x16)
        need(re.fullmatch(rb"[-._A-Za-z0-9]+", name.octets))
    digest = inside.take(4).octets
    need(len(digest) == 32)
    inside.end()
    place = [name.start - first, len(name.octets)] if name else ["-", 0]
    return [*place, int(name is not None), octets.at() - first, digest.hex()]


def files(octets):
    listed = octets.only(0x30)
    found = listed.each(listed_file)
    need(found)
    return listed, found


def checklist(octets):
    parts = part(CHECKLIST, Octets(octets).only, 0x30)
    part(CHECKLIST_VERSION, need, not begins_with_context(parts, 0))
    numbers, addresses = part(RESOURCES, resources, parts)
    part(ALGORITHM, algorithm, parts)
    listed, found = part(FILES, files, parts)
    return [*words_of(numbers), *words_of(addresses), *listed.span(), len(found), *sum(found, [])]


# ---- trust anchor keys

def is_uri(text):
    """An rsync URI of an object, not of a folder, or an https URI: of those that rows have."""
    return re.fullmatch(rb"rsync://[a-z.]+/[a-z]+/(?:[a-z]+/)*[a-z.]+|https://[a-z.]+/[a-z./]+", text)


def comment(octets):
    try:
        octets.take(0x0C).octets.decode()
    except UnicodeDecodeError:
        need(False)


def uri(octets):
    need(is_uri(octets.take(0x16).octets))


def key(octets):
    """The places of comments, URIs and the key, and how many they are."""
    outer = octets.take(0x30)
    comments = outer.take(0x30)
    said = len(comments.each(comment))
    uris = outer.take(0x30)
    tried = len(uris.each(uri))
    need(tried)
    place = [outer.at(), len(outer.octets) - outer.place]
    inside = outer.take(0x30)
    inside.take(0x30).take(6)
    bits = inside.take(3).octets
    need(bits and bits[0] < 8 and (bits[0] == 0 or len(bits) > 1 and not bits[-1] & (1 << bits[0]) - 1))
    inside.end()
    outer.end()
    return [*comments.span(), said, *uris.span(), tried, *place]


def key_under(octets, number):
    inside = under(octets, number)
    if inside is None:
        return None
    found = key(inside)
    inside.end()
    return found


def tak(octets):
    parts = part(TAK, Octets(octets).only, 0x30)
    part(TAK_VERSION, need, not parts.begins_with(2))
    current = part(CURRENT, key, parts)
    others = part(PREDECESSOR, key_under, parts, 0), part(SUCCESSOR, key_under, parts, 1)
    part(TAK, parts.end)
    return [*current, *sum(([int(found is not None), *(found or [])] for found in others), [])]
