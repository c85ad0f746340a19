"""Blocks of addresses and of AS numbers (RFC 3779), of Python's sets, and texts of addresses by its `ipaddress`."""
import ipaddress
from typing import List, Set

from der import NULL, bits, sequence, tlv, unsigned

# A window of so many addresses, at the ends of a family and at a border inside, where carries are long.
SIZE = 40
STARTS = {
    4: [0, 2**32 - SIZE, 2**31 - SIZE // 2, 0x0A000000],
    6: [0, 2**128 - SIZE, 2**127 - SIZE // 2, 0x20010DB8 << 96],
}
WIDTHS = {4: 32, 6: 128}
NAMES = {4: b"\0\1", 6: b"\0\2"}
ADDRESSES = {4: ipaddress.IPv4Address, 6: ipaddress.IPv6Address}


def blocks_of(numbers):
    """The runs of numbers that follow one another, from the lowest."""
    found: List[List[int]] = []
    for number in sorted(numbers):
        if found and found[-1][1] + 1 == number:
            found[-1][1] = number
        else:
            found.append([number, number])
    return [tuple(block) for block in found]


def is_prefix(low, high):
    size = high - low + 1
    return size & (size - 1) == 0 and low % size == 0


def address(number, size, width):
    """The first bits of an address (RFC 3779 2.1.1)."""
    octets = (size + 7) // 8
    return bits((number >> width - 8 * octets).to_bytes(octets, "big"), 8 * octets - size)


def block(low, high, width):
    """A block as a prefix, or as a range whose ends are stripped (RFC 3779 2.2.3.7 to 2.2.3.9)."""
    if is_prefix(low, high):
        return address(low, width - (high - low).bit_length(), width)
    zeros = (low & -low).bit_length() - 1 if low else width
    ones = (high + 1 & -(high + 1)).bit_length() - 1
    return sequence(address(low, width - zeros, width), address(high >> ones << ones, width - ones, width))


def named(family, *listed, inherit=False):
    """A family, with blocks as they are spelled."""
    return sequence(tlv(4, NAMES[family]), NULL if inherit else sequence(*listed))


def ip_contents(found):
    """Blocks of each family, or None for those of the issuer, as the contents of the extension (RFC 3779 2.2.3)."""
    return sequence(*[
        named(family, *[block(low, high, WIDTHS[family]) for low, high in blocks or []], inherit=blocks is None)
        for family, blocks in found.items()])


def as_contents(blocks):
    """The same of AS numbers (RFC 3779 3.2.3)."""
    listed = [unsigned(low) if low == high else sequence(unsigned(low), unsigned(high)) for low, high in blocks or []]
    return sequence(tlv(0xa0, NULL if blocks is None else sequence(*listed)))


def address_text(family, number):
    """An address; one that is made of an address of IPv4 ends with that (RFC 5952 5)."""
    address = ADDRESSES[family](number)
    mapped = getattr(address, "ipv4_mapped", None)
    return f"::ffff:{mapped}" if mapped else str(address)


def text(family, low, high):
    if is_prefix(low, high):
        return f"{address_text(family, low)}/{WIDTHS[family] - (high - low).bit_length()}"
    return f"{address_text(family, low)}-{address_text(family, high)}"


def random_set(random, start):
    """Runs of random addresses of the window; at times all of them, or none."""
    numbers: Set[int] = set()
    for _ in range(random.choice([0, 1, 1, 2, 3, 5, 8])):
        low = random.randrange(SIZE)
        numbers.update(range(start + low, start + min(SIZE, low + random.choice([1, 1, 2, 3, 4, 8, 16, SIZE]))))
    return numbers
