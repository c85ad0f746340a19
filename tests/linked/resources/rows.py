"""Writes the rows of resources that resources.c reads: contents of the two extensions of RFC 3779, each with the status
and the entries of rpki_ip_blocks or rpki_as_blocks, and the texts of these; pairs of contents, with the answer of
rpki_ip_blocks_encompass or rpki_as_blocks_encompass; and texts of blocks that no contents have. Contents are those of
the RFC's appendices, of single rules, of random sets, and random changes of these, all found without the library: which
error is leftmost by tests/python/judges/resources.py, and texts by Python's `ipaddress`.

usage: rows.py > FILE

    ip OCTETS STATUS [ENTRY ..]           ENTRY: FAMILY:LOW:HIGH:INHERITED:TEXT, addresses as octets
    as OCTETS STATUS [ENTRY ..]           ENTRY: LOW:HIGH:INHERITED:TEXT
    ipe OUTER INNER STATUS ANSWER         ANSWER: 0 or 1; - where the status is not 0
    ase OUTER INNER STATUS ANSWER
    ipt FAMILY LOW HIGH INHERITED STATUS TEXT
    ast LOW HIGH INHERITED STATUS TEXT
Octets are in hexadecimal digits, `-` where there are none."""
import ipaddress
import os
import random
import sys

sys.dont_write_bytecode = True
sys.path.append(os.path.join(os.path.dirname(os.path.abspath(__file__)), "..", "..", "python"))

from der import NULL, sequence, tlv, unsigned
from judges.resources import as_resources, ip_resources
from makers.blocks import (
    NAMES, SIZE, STARTS, WIDTHS, as_contents, block, blocks_of, ip_contents, named, random_set, text,
)
from strict import CONTENT, status_of

SEED, PAIRS, CHANGES, SETS = 3779, 1000, 4000, 300
FAMILIES = {name: family for family, name in NAMES.items()}
SECOND, NO_ANSWER = 16, 10

# RFC 3779, appendices B and C, whole, and without what RFC 6487 4.8.10 and 4.8.11 forbid: the SAFI, routing domains.
EXAMPLES_IP = [
    "3035302b040300010130240304040a00200304000a00400303000a01300c0304040a02300304000a02400303000a033006040200020500",
    "3034302a0402000130240304040a00200304000a00400303000a01300c0304040a02300304000a02400303000a033006040200020500",
    "302c3010040300010130090302000a030304ac10300704030001020500300f040200023009030700200100000002",
    "3022300f0402000130090302000a030304ac10300f040200023009030700200100000002",
]
EXAMPLES_AS = [
    "301aa014301202020087300802020bb802020f9f02021389a1020500",
    "3016a014301202020087300802020bb802020f9f02021389",
]


def ranged(family, low, high):
    return block(int(ipaddress.ip_address(low)), int(ipaddress.ip_address(high)), WIDTHS[family])


def single_ip():
    """Contents that keep or break one rule each."""
    ten, next_ten = ranged(4, "10.0.0.0", "10.0.0.255"), ranged(4, "10.0.1.0", "10.0.1.255")
    far, six = ranged(4, "10.0.3.0", "10.0.3.4"), ranged(6, "2001:db8::", "2001:db8::5")
    whole = [tlv(3, b"\0")]
    bits = [b"", b"\x08\0", b"\1", b"\0\x0a", b"\1\x0b", b"\7\x80", b"\0" * 5, b"\0" * 6, b"\0" * 17, b"\0" * 18,
            b"\7\0\0\0\0\x80"]
    yield b""
    yield sequence()
    yield sequence(named(4, ten), named(4, far))
    yield sequence(named(6, six), named(4, ten))
    yield sequence(named(6, six), named(6, six))
    yield sequence(named(4, ten), named(6, six), named(6, six))
    for inherited in ([4], [6], [4, 6]):
        yield sequence(*[named(family, inherit=True) for family in inherited])
    yield sequence(named(4, ten), named(6, inherit=True))
    yield sequence(named(4))
    yield sequence(named(6))
    yield sequence(named(4, *whole))
    yield sequence(named(4, *whole), named(6, *whole))
    yield sequence(named(4, ten, next_ten))
    yield sequence(named(4, ten, far))
    yield sequence(named(4, far, ten))
    yield sequence(named(4, ten, ten))
    yield sequence(named(4, sequence(tlv(3, b"\0\x0a"), tlv(3, b"\0\x0a"))))
    yield sequence(named(4, sequence(tlv(3, b"\0\x0a\0"), tlv(3, b"\0\x0a"))))
    yield sequence(named(4, sequence(tlv(3, b"\0\x0b"), tlv(3, b"\0\x0a"))))
    yield sequence(named(4, sequence(tlv(3, b"\0\x0b"), tlv(3, b"\0\x0d"))))
    yield sequence(named(4, sequence(tlv(3, b"\0\x0b"), tlv(3, b"\0\x0c"))))
    yield sequence(named(4, sequence(tlv(3, b"\0\x0b"), tlv(3, b"\0\x0c"), tlv(3, b"\0\x0e"))))
    yield sequence(named(4, sequence(tlv(3, b"\0\x0b"))))
    for first in (0x31, 0x10, 0xa0, 0x00, 0x1f):
        yield tlv(first, named(4, ten))
        yield sequence(tlv(first, named(4, ten)[2:]))
        yield sequence(sequence(tlv(first, b"\0\1"), sequence(ten)))
        yield sequence(sequence(tlv(4, b"\0\1"), tlv(first, ten)))
        yield sequence(named(4, tlv(first, b"\0\x0a")))
    for name in (b"", b"\0", b"\0\0", b"\0\3", b"\1\1", b"\0\1\1", b"\0\2\0"):
        yield sequence(sequence(tlv(4, name), sequence(ten)))
    for null in (tlv(5, b"\0"), tlv(0x25, b""), b"\5\x80", b"\5\x81\0", b"\5", b"\5\1"):
        yield sequence(sequence(tlv(4, b"\0\1"), null))
    for contents in bits:
        for family in (4, 6):
            yield sequence(named(family, tlv(3, contents)))
            yield sequence(named(family, sequence(tlv(3, contents), tlv(3, b"\0\xfe"))))


def single_as():
    numbers = [0, 1, 127, 128, 255, 256, 65535, 65536, 2**31 - 1, 2**31, 2**32 - 1]

    def listed(*blocks):
        return sequence(tlv(0xa0, sequence(*blocks)))

    yield b""
    yield sequence()
    yield sequence(tlv(0xa0, b""))
    yield listed()
    yield sequence(tlv(0xa0, NULL))
    yield sequence(tlv(0xa1, NULL))
    yield sequence(tlv(0xa0, NULL), tlv(0xa1, NULL))
    yield sequence(tlv(0xa0, NULL + NULL))
    yield sequence(tlv(0x80, NULL))
    for number in numbers:
        yield listed(unsigned(number))
        yield listed(unsigned(number), unsigned(number + 1))
        yield listed(unsigned(number), unsigned(number + 2))
        yield listed(sequence(unsigned(number), unsigned(number)))
        yield listed(sequence(unsigned(number), unsigned(number + 1)))
        yield listed(sequence(unsigned(0), unsigned(number)))
        yield listed(sequence(unsigned(number), unsigned(2**32 - 1)))
        yield listed(sequence(unsigned(number), unsigned(2**32 - 1), unsigned(7)))
    yield listed(unsigned(2**32))
    yield listed(*map(unsigned, numbers[1::2]))
    yield listed(sequence(unsigned(5)))
    for contents in (b"", b"\xff", b"\0\1", b"\0\x7f", b"\x80", b"\0\0\0\0\0\1"):
        yield listed(tlv(2, contents))


def contents_of(kind, found):
    """The only contents in DER of these resources, as a judge finds them."""
    if kind == "as":
        return as_contents(found[None])
    return ip_contents({FAMILIES[name]: blocks for name, blocks in found.items()})


AS_STARTS = [0, 64496, 2**31 - SIZE // 2, 2**32 - SIZE]


def random_ip(source):
    """Contents of random sets of addresses; at times a family has those of the issuer, or is whole."""
    while True:
        found = {}
        for family, places in STARTS.items():
            kind = source.random()
            numbers = random_set(source, source.choice(places))
            if kind < 0.1:
                found[family] = None
            elif kind < 0.15:
                found[family] = [(0, (1 << WIDTHS[family]) - 1)]
            elif numbers:
                found[family] = blocks_of(numbers)
        if found:
            octets = ip_contents(found)
            assert {FAMILIES[name]: blocks for name, blocks in ip_resources(octets).items()} == found, octets.hex()
            return octets


def random_as(source):
    numbers = random_set(source, source.choice(AS_STARTS))
    octets = as_contents(blocks_of(numbers) if numbers else None)
    assert as_resources(octets)[None] == (blocks_of(numbers) or None), octets.hex()
    return octets


def changed(source, octets):
    """Octets with one that is changed, left out or put in, or without their end."""
    place = source.randrange(len(octets))
    return source.choice([
        octets[:place] + bytes([source.randrange(256)]) + octets[place + 1:],
        octets[:place] + bytes([octets[place] ^ 1 << source.randrange(8)]) + octets[place + 1:],
        octets[:place] + octets[place + 1:],
        octets[:place] + bytes([source.choice([0, 1, 2, 3, 5, 0x30, 0x80, 0xff])]) + octets[place:],
        octets[:place],
    ])


READERS = {"ip": ip_resources, "as": as_resources}


def address_octets(family, number):
    return number.to_bytes(WIDTHS[family] // 8, "big").ljust(16, b"\0").hex()


def as_text(low, high):
    return f"AS{low}" if low == high else f"AS{low}-AS{high}"


def entries(kind, found):
    for name, blocks in found.items():
        if kind == "ip":
            family = FAMILIES[name]
            if blocks is None:
                yield f"{family}:{'00' * 16}:{'00' * 16}:1:inherit"
            for low, high in blocks or []:
                yield (f"{family}:{address_octets(family, low)}:{address_octets(family, high)}:0:"
                       f"{text(family, low, high)}")
        else:
            if blocks is None:
                yield "0:0:1:inherit"
            for low, high in blocks or []:
                yield f"{low}:{high}:0:{as_text(low, high)}"


def row(kind, octets):
    status, found = status_of(READERS[kind], octets)
    assert status or contents_of(kind, found) == octets, octets.hex()
    return " ".join([kind, octets.hex() or "-", str(status), *(entries(kind, found) if status == 0 else [])])


def within(inner, outer):
    """Whether each number of these blocks is one of the others, by sums of what both have."""
    return sum(high - low + 1 for low, high in inner) == sum(
        max(0, min(high, top) - max(low, bottom) + 1) for low, high in inner for bottom, top in outer)


def answered(kind, outer, inner):
    """The status, and whether the second is within the first."""
    status, whole = status_of(READERS[kind], outer)
    if status:
        return status, "-"
    status, part = status_of(READERS[kind], inner)
    if status:
        return status + SECOND, "-"
    lists = {name: blocks for name, blocks in part.items() if blocks is not None}
    if any(name in whole and whole[name] is None for name in lists):
        return NO_ANSWER, "-"
    return 0, str(int(all(within(blocks, whole.get(name, [])) for name, blocks in lists.items())))


def pair(kind, outer, inner):
    status, answer = answered(kind, outer, inner)
    return f"{kind}e {outer.hex() or '-'} {inner.hex() or '-'} {status} {answer}"


def pairs(source):
    for kind, made, bad in (("ip", random_ip, sequence()), ("as", random_as, sequence())):
        known = [made(source) for _ in range(30)]
        for number in range(PAIRS):
            outer = made(source)
            inner = outer if number % 10 == 0 else part_of(source, kind, outer) if number % 3 == 0 else made(source)
            yield pair(kind, outer, inner)
        for one, other in ((known[0], bad), (bad, known[0]), (bad, bad), (b"", known[0]), (known[0], b"")):
            yield pair(kind, one, other)
        for number in range(200):
            yield pair(kind, changed(source, source.choice(known)), changed(source, source.choice(known)))


def part_of(source, kind, octets):
    """Contents with a random part of the numbers of each block, so that most pairs are no chance."""
    found = READERS[kind](octets)
    for name, blocks in found.items():
        if blocks is not None:
            numbers = set()
            for low, high in blocks:
                start = source.randrange(low, high + 1)
                numbers.update(range(start, min(high, start + source.randrange(8)) + source.choice([1, 1, 1, 2])))
            most = (1 << (32 if name is None else WIDTHS[FAMILIES[name]])) - 1
            found[name] = blocks_of(number for number in numbers if number <= most)
    return contents_of(kind, found)


def texts(source):
    """Texts of blocks by their numbers, among them addresses that RFC 5952 writes in a way of its own."""
    told = ["::", "::1", "1::", "1:0:0:2::", "1::2:0:0:3", "2001:db8::1:0:0:1", "::ffff:1.2.3.4", "::ffff:0:0",
            "::fffe:1.2.3.4", "1:2:3:4:5:6:7:8", "1:0:3:0:5:0:7:0", "0:1:0:1:0:1:0:1", "ffff::", "::1.2.3.4",
            "abcd:ef::"]
    addresses = [(6, int(ipaddress.ip_address(each))) for each in told]
    addresses += [(6, source.getrandbits(128) & source.getrandbits(128)) for _ in range(60)]
    addresses += [(6, sum(source.choice([0, 0, 1, 0xfff, 0x10]) << 16 * at for at in range(8))) for _ in range(60)]
    addresses += [(4, number) for number in (0, 1, 2**32 - 1, 0x0A000000, 0x01020304)]
    addresses += [(4, source.getrandbits(32)) for _ in range(30)]
    for family, low in addresses:
        width = WIDTHS[family]
        for high in (low, low | (1 << source.randrange(width)) - 1, source.getrandbits(width), (1 << width) - 1):
            status = 0 if low <= high else CONTENT
            words = text(family, low, high) if status == 0 else "-"
            yield f"ipt {family} {address_octets(family, low)} {address_octets(family, high)} 0 {status} {words}"
    for family in (0, 1, 5, 7, 255):
        yield f"ipt {family} {'00' * 16} {'ff' * 16} 0 {CONTENT} -"
        yield f"ipt {family} {'00' * 16} {'ff' * 16} 1 0 inherit"
    # What is after the four octets is not looked at.
    yield f"ipt 4 0a000000{'ff' * 12} 0a0000ff{'00' * 12} 0 0 10.0.0.0/24"
    for low in (0, 1, 9, 10, 99, 64496, 65536, 2**32 - 1):
        for high in (0, 1, 10, 64496, 64511, 2**32 - 1):
            status = 0 if low <= high else CONTENT
            yield f"ast {low} {high} 0 {status} {as_text(low, high) if status == 0 else '-'}"
    yield "ast 5 4 1 0 inherit"


def main():
    source = random.Random(SEED)
    ip = [bytes.fromhex(each) for each in EXAMPLES_IP] + list(single_ip())
    numbers = [bytes.fromhex(each) for each in EXAMPLES_AS] + list(single_as())
    ip += [random_ip(source) for _ in range(SETS)]
    numbers += [random_as(source) for _ in range(SETS)]
    for kind, known in (("ip", ip), ("as", numbers)):
        long = [octets for octets in known if octets]
        known = known + [changed(source, source.choice(long)) for _ in range(CHANGES)]
        known += [octets[:size] for octets in long[:2] for size in range(len(octets))]
        known += [octets + b"\0" for octets in long[:40]]
        for octets in known:
            print(row(kind, octets))
    for line in pairs(source):
        print(line)
    for line in texts(source):
        print(line)


if __name__ == "__main__":
    main()
