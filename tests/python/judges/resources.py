"""The leftmost error of contents of the extensions of RFC 3779, in the profile of RFC 6487 4.8.10 and 4.8.11, read from
the left, part by part. Blocks are pairs of numbers; those of the issuer are None."""
from typing import List, Tuple

from strict import Octets, need, number


def address(parts, width):
    """The first bits of an address, as a number, and how many they are (RFC 3779 2.1.1)."""
    octets = parts.take(3).octets
    need(octets and octets[0] < 8 and (len(octets) > 1 or not octets[0]))
    size, bits = 8 * len(octets) - 8 - octets[0], int.from_bytes(octets[1:], "big")
    need(size <= width and not bits & (1 << octets[0]) - 1)
    return bits >> octets[0], size


def ip_block(parts, width):
    if not parts.begins_with(0x10):
        bits, size = address(parts, width)
        return bits << width - size, (bits + 1 << width - size) - 1
    ends = parts.take(0x30)
    low, few = address(ends, width)
    high, many = address(ends, width)
    need((not few or low & 1) and (not many or not high & 1))
    low, high = low << width - few, (high + 1 << width - many) - 1
    size = high - low + 1
    need(size > 0 and (size & size - 1 or low % size))
    ends.end()
    return low, high


def as_number(parts):
    return number(parts, 1 << 32)


def as_block(parts):
    if not parts.begins_with(0x10):
        return (as_number(parts),) * 2
    ends = parts.take(0x30)
    low, high = as_number(ends), as_number(ends)
    need(low < high)
    ends.end()
    return low, high


def choice(parts, block):
    """NULL, which is None here, or blocks in canonical form, one at least."""
    if parts.begins_with(5):
        need(not parts.take(5).octets)
        return None
    blocks: List[Tuple[int, int]] = []
    listed = parts.take(0x30)
    need(not listed.is_empty())
    while not listed.is_empty():
        found = block(listed)
        need(not blocks or blocks[-1][1] + 1 < found[0])
        blocks.append(found)
    return blocks


def family(parts):
    named = parts.take(0x30)
    name = named.take(4).octets
    need(name in (b"\0\1", b"\0\2"))
    width = 32 if name == b"\0\1" else 128
    found = choice(named, lambda each: ip_block(each, width))
    named.end()
    return name, found


def ip_resources(octets):
    """The addresses of each family, by its octets."""
    parts = Octets(octets)
    families = parts.take(0x30)
    found = dict([family(families)])
    if b"\0\1" in found and not families.is_empty():
        name, second = family(families)
        need(name == b"\0\2")
        found[name] = second
    families.end()
    parts.end()
    return found


def as_resources(octets):
    parts = Octets(octets)
    around = parts.take(0x30)
    numbers = around.take(0xa0)
    found = choice(numbers, as_block)
    numbers.end()
    around.end()
    parts.end()
    return {None: found}
