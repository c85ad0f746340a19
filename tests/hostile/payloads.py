"""What signed objects contain: what contents say, beginnings, contents of many sizes, and allocations that are
refused."""
import hashlib

from der import tlv
from makers.payloads import NEXT, THIS, aspa, family, file, manifest, roa
from makers.x509 import seconds
from programs import run
from shim import refused_in_turn
from variants.lists import rejected


def of_manifest(files):
    told = [f"number {7:040x}", f"this_update {seconds(THIS[2:])}", f"next_update {seconds(NEXT[2:])}"]
    for name, octets in files:
        told += [f"file {name.encode().hex().upper()}", f"digest {hashlib.sha256(octets).hexdigest().upper()}"]
    return told


def of_roa(number, prefixes):
    return [f"origin {text}-{most if most is not None else text.split('/')[1]} => {number}" for text, most in prefixes]


def of_aspa(customer, providers):
    return [f"customer {customer}", *(f"provider {one}" for one in providers)]


FILES = [("ca.crl", b"list"), ("one.roa", b"origin"), ("A-b_9.cer", b"")]
V4 = [("10.0.0.0/8", 24), ("10.64.0.0/13", None), ("192.0.2.0/25", 25), ("0.0.0.0/0", None)]
V6 = [("2001:db8::/32", 48), ("::/0", 128)]
USUAL = {
    "manifest": (manifest([file(*one) for one in FILES]), of_manifest(FILES)),
    "roa": (roa(64496, family(4, V4), family(6, V6)), of_roa(64496, V4 + V6)),
    "aspa": (aspa(64496, [1, 64497, 2 ** 32 - 1]), of_aspa(64496, [1, 64497, 2 ** 32 - 1])),
}


def seen(programs, octets, call):
    told = run(programs.calls, ["content", call], octets)
    return told.status, told.output.decode().splitlines()


def usual_contents(programs):
    for call, (octets, wanted) in USUAL.items():
        yield call, seen(programs, octets, call), (0, wanted)
    later = roa(0, family(6, V6), family(4, V4))
    yield "IP version 6 first", seen(programs, later, "roa"), (0, of_roa(0, V4 + V6))
    yield "the same, strictly", seen(programs, later, "strict_roa")[1][0].split(" ")[0], "rejected"


def content_beginnings(programs):
    """Each beginning of a content is rejected, and so is one with a value after it."""
    for call, (octets, _) in USUAL.items():
        for size in range(len(octets)):
            yield f"{call}, {size} octets", seen(programs, octets[:size], call), (0, rejected("truncated value"))
        yield f"{call}, and more", seen(programs, octets + tlv(5, b""), call), (0, rejected("trailing data"))


def changed_contents(programs):
    """A content of which one octet is changed says something else, or is rejected."""
    for call, (octets, wanted) in USUAL.items():
        for place in range(len(octets)):
            other = octets[:place] + bytes([octets[place] ^ 1]) + octets[place + 1:]
            status, told = seen(programs, other, call)
            yield f"{call}, octet {place}", (status, told != wanted), (0, True)


def sizes_of_contents(programs):
    for count in (0, 1, 127, 128, 1_000, 20_000):
        files = [(f"f{number}.roa", b"") for number in range(count)]
        yield f"{count} files", seen(programs, manifest([file(*one) for one in files]), "manifest"), (
            0, of_manifest(files))
        files = [file(*one) for one in [*files, ("f0.roa", b"")]]
        yield f"{count} files, and one of them twice", seen(programs, manifest(files), "manifest"), (
            0, rejected("file listed twice") if count else of_manifest([("f0.roa", b"")]))
    for count in (1, 127, 128, 1_000, 20_000):
        prefixes = [(f"10.{number // 256 % 256}.{number % 256}.0/24", None) for number in range(count)]
        yield f"{count} prefixes", seen(programs, roa(1, family(4, prefixes)), "roa"), (0, of_roa(1, prefixes))
        yield f"{count} providers", seen(programs, aspa(0, range(1, count + 1)), "aspa"), (
            0, of_aspa(0, range(1, count + 1)))
    for size in (1, 1_000, 100_000):
        files = [("n" * size + ".roa", b"")]
        yield f"a name of {size + 4}", seen(programs, manifest([file(*one) for one in files]), "manifest"), (
            0, of_manifest(files))


def refused_contents(programs):
    """With an allocation refused a content says what it says with memory, or that memory ran out."""
    refused = 0
    for call, (octets, _) in USUAL.items():
        for name, well, met in refused_in_turn(programs.calls, ["content", call], octets):
            refused += met
            yield f"{call}, {name}", well, True
    return f"{refused} refused allocations"


TABLES = [usual_contents, content_beginnings, changed_contents, sizes_of_contents, refused_contents]
