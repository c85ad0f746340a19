"""Certificates and signed objects of real sizes through all that is verified of them: thousands of blocks, files,
prefixes and providers, and contents of a million octets. No allocation is refused here, so none may fail: contracts
leave a failed allocation free where something is allocated."""
import functools
import hashlib

from certificates import OK_ANCHOR, OK_AUTHORITY, OK_ENTITY
from der import sequence, tlv
from makers import lists, objects, payloads
from makers.certificate import router
from makers.chain import MOMENT, chain, identifier_of, issued, period_of
from makers.objects import ASPA
from makers.resources import INHERITED_ADDRESSES, INHERITED_NUMBERS, addresses, numbers
from makers.x509 import NUMBERS, SUBJECT_KEY
from paths import claims, trimmed
from programs import run

FIRST, LAST = "20270101000000Z", "20271231235959Z"
OUTSIDE = "RFC 6487 7.2: resources that the issuer does not have"
COUNTS = (1_001, 10_000)


def prefixes_4(count):
    """So many prefixes, of which none continues another."""
    return [f"10.{number // 128}.{number % 128 * 2}.0/24" for number in range(count)]


def prefixes_6(count):
    return [f"2001:db8:{2 * number:x}::/48" for number in range(count)]


@functools.lru_cache(maxsize=None)
def many(count):
    """So many blocks of each kind: the contents of both extensions."""
    return addresses(*prefixes_4(count), *prefixes_6(count)), numbers(*range(1, 2 * count, 2))


INHERITED = INHERITED_ADDRESSES, INHERITED_NUMBERS


def told(programs, words, octets):
    seen = run(programs.calls, [*words, MOMENT], octets)
    return seen.status, seen.output.decode().splitlines()


def path(anchor_change, *changes):
    """A trust anchor, an authority and an end entity that are changed so."""
    found = chain()
    for change, it in zip((anchor_change, *changes), found):
        change(it)
    return b"".join(it.stamp() for it in found)


def as_it_is(it):
    """The resources that the certificate has."""


def path_of_router(change, listed):
    """A trust anchor and an authority that are changed so, and a router with these numbers."""
    anchor, authority, _ = chain()
    change(anchor)
    change(authority)
    it = issued("router", 4, authority)
    router(it)
    it.put(SUBJECT_KEY, tlv(4, identifier_of(it)))
    it.put(NUMBERS, listed)
    period_of(it, "270101000000Z", "280101000000Z")
    return anchor.stamp() + authority.stamp() + it.stamp()


def large_certificates(programs):
    """Certificates of many blocks are verified under one another, by each policy; one block more is told as such."""
    well = [OK_ANCHOR, *OK_AUTHORITY, *OK_ENTITY]
    for count in COUNTS:
        all_of_it, fewer = claims(*many(count)), claims(*many(count - 1))
        too_many = [OK_ANCHOR, *OK_AUTHORITY, "verify_issued ok", f"verify_ee {OUTSIDE}"]
        for name, changes, wanted in [
            ("all of it", (all_of_it, all_of_it, all_of_it), well),
            ("inherited", (all_of_it, claims(*INHERITED), claims(*INHERITED)), well),
            ("trimmed", (all_of_it, trimmed(*many(count)), trimmed(*many(count))), well),
            ("trimmed to fewer", (fewer, trimmed(*many(count)), trimmed(*many(count))), well),
            ("one more than the authority has", (all_of_it, fewer, all_of_it), too_many),
            ("an authority with one more", (fewer, all_of_it),
             [OK_ANCHOR, "verify_issued ok", f"verify_ca {OUTSIDE}"]),
            ("IP version 4 alone", (all_of_it, all_of_it, claims(addresses(*prefixes_4(count)), None)), well),
            ("IP version 6 alone", (all_of_it, all_of_it, claims(addresses(*prefixes_6(count)), None)), well),
            ("numbers alone", (all_of_it, all_of_it, claims(None, many(count)[1])), well),
        ]:
            octets = path(*changes)
            yield f"{count} blocks, {name}", told(programs, ["certificate", "chain"], octets), (0, wanted)
        octets = path_of_router(all_of_it, many(count)[1])
        yield f"a router of {count} numbers", told(programs, ["certificate", "chain"], octets), (
            0, [OK_ANCHOR, *OK_AUTHORITY, "verify_issued ok", "verify_router ok"])


def signer(claimed, anchor_change=as_it_is):
    """A trust anchor, and an end entity under it that claims this."""
    anchor, entity = objects.entity_under_anchor()
    anchor_change(anchor)
    claims(*claimed)(entity)
    return anchor, entity


def made(entity, kind, octets):
    """An object of the end entity, with this content."""
    members = [objects.of_type(kind), objects.of_time(), objects.of_digest(hashlib.sha256(octets).digest())]
    return objects.signed_by(entity, entity, kind, octets, members)


def processed(programs, word, pair, kind, octets, entries=b""):
    """What comes of an object, by a list of the trust anchor with these entries."""
    anchor, entity = pair
    listed = lists.issued(anchor, entries=entries)
    return told(programs, ["process", word], anchor.stamp() + listed + made(entity, kind, octets))


def held(ipv4, ipv6, asn):
    return 0, [f"ipv4 {ipv4}", f"ipv6 {ipv6}", f"asn {asn}"]


def refused(text):
    return 0, [f"process {text}"]


USUAL = held(2, 1, 2)  # what the trust anchor of the tests has


def files(count):
    return [payloads.file(f"f{number}.roa", b"") for number in range(count)]


def large_manifests(programs):
    """Manifests of many files hold, and one that is stale is told as such."""
    for count in (0, 1, 1_000, 1_001, 20_000):
        content = payloads.manifest(files(count), this=FIRST, until=LAST)
        yield f"{count} files", processed(programs, "manifest", signer(INHERITED), objects.MANIFEST, content), USUAL
        stale = payloads.manifest(files(count), this=FIRST, until="20270501000000Z")
        yield f"{count} files of May", processed(
            programs, "manifest", signer(INHERITED), objects.MANIFEST, stale), refused("RFC 9286 6.3: stale manifest")
    for count in COUNTS:
        pair = signer(INHERITED, claims(*many(count)))
        content = payloads.manifest(files(3), this=FIRST, until=LAST)
        yield f"under {count} blocks", processed(programs, "manifest", pair, objects.MANIFEST, content), held(
            count, count, count)


def origins(ipv4, ipv6):
    families = [(version, [(text, None) for text in texts]) for version, texts in ((4, ipv4), (6, ipv6)) if texts]
    return payloads.roa(64496, *(payloads.family(*one) for one in families))


def large_origins(programs):
    """Attestations of many prefixes are within as many blocks; and one prefix outside is told as such."""
    for count in (4, 5, 8, 9, *COUNTS):
        ip, _ = many(count)
        pair = signer((ip, None), claims(*many(count)))
        for name, ipv4, ipv6 in [("both families", count, count), ("IP version 4", count, 0),
                                 ("one prefix of IP version 4", 1, 0), ("IP version 6", 0, count),
                                 ("one prefix of IP version 6", 0, 1)]:
            content = origins(prefixes_4(ipv4), prefixes_6(ipv6))
            yield f"{count} blocks, {name}", processed(programs, "roa", pair, objects.ROA, content), held(
                count, count, 0)
        for name, ipv4, ipv6 in [("IP version 4", count + 1, count), ("IP version 6", count, count + 1)]:
            content = origins(prefixes_4(ipv4), prefixes_6(ipv6))
            yield f"{count} blocks, one more of {name}", processed(
                programs, "roa", pair, objects.ROA, content), refused(
                "RFC 9582 5: prefix outside of the resources")


def large_providers(programs):
    """Attestations of many providers are valid, and those of another customer are told as such."""
    pair = signer((None, numbers(64496)))
    for count in (1, 200, 201, *COUNTS):
        providers = range(1, count + 1)
        yield f"{count} providers", processed(
            programs, "aspa", pair, ASPA, payloads.aspa(64496, providers)), held(0, 0, 1)
        yield f"{count} of another", processed(
            programs, "aspa", pair, ASPA, payloads.aspa(64497, providers)), refused(
                "draft-ietf-sidrops-aspa-profile 4: customer outside of the resources")
    for count in COUNTS:
        pair = signer((None, many(count)[1]), claims(*many(count)))
        yield f"a customer among {count}", processed(
            programs, "aspa", pair, ASPA, payloads.aspa(2 * count - 1, [2])), held(0, 0, count)


def large_contents(programs):
    """Objects are valid whatever the sizes of their contents and their types."""
    anchor, entity = objects.entity_under_anchor()
    for size in (65_535, 65_536, 1_000_000):
        octets = anchor.stamp() + made(entity, objects.ROA, bytes(size))
        yield f"a content of {size}", told(programs, ["object", "valid"], octets), (0, ["valid"])
    for size in (127, 128, 150, 65_536):
        kind = bytes(number % 127 + 1 for number in range(size))
        octets = anchor.stamp() + made(entity, kind, b"content")
        yield f"a type of {size}", told(programs, ["object", "valid"], octets), (0, ["valid"])


def objects_by_large_lists(programs):
    """A certificate is looked for in all of a list."""
    content = payloads.manifest(files(3), this=FIRST, until=LAST)
    for count in (1_000, 100_000):
        for name, place, wanted in [("not", None, USUAL), ("last", count - 1, None), ("first", 0, None)]:
            pair = signer(INHERITED)
            own = int.from_bytes(pair[1].serial.inside, "big")
            serials = [own + 1 + number for number in range(count)]
            if place is not None:
                serials[place] = own
            entries = sequence(*(lists.entry(serial) for serial in serials))
            yield f"{count} entries, {name} among them", processed(
                programs, "manifest", pair, objects.MANIFEST, content, entries), wanted or refused(
                    "RFC 6487 7.2: revoked certificate")


TABLES = [
    large_certificates, large_manifests, large_origins, large_providers, large_contents, objects_by_large_lists,
]
