"""Contents of the extensions of resources (RFC 3779 2.2.3, 3.2.3), by Python's `ipaddress`."""
import ipaddress

from der import NULL, bits, sequence, tlv, unsigned


def prefix(text):
    """A BIT STRING of the bits that the addresses share (RFC 3779 2.2.3.8)."""
    network = ipaddress.ip_network(text)
    octets = (network.prefixlen + 7) // 8
    return bits(network.network_address.packed[:octets], 8 * octets - network.prefixlen)


def family(number, *blocks, safi=b""):
    """A family of this AFI: these blocks, or where there are none those of the issuer."""
    return sequence(tlv(4, bytes([0, number]) + safi), sequence(*blocks) if blocks else NULL)


def addresses(*texts):
    """Prefixes, those of IP version 4 first."""
    both = [[prefix(text) for text in texts if ipaddress.ip_network(text).version == version] for version in (4, 6)]
    return sequence(*(family(number, *blocks) for number, blocks in enumerate(both, 1) if blocks))


def numbers(*blocks, more=b""):
    """AS numbers, and ranges of them as pairs; where there are none, those of the issuer."""
    listed = [sequence(*map(unsigned, block)) if isinstance(block, tuple) else unsigned(block) for block in blocks]
    return sequence(tlv(0xa0, sequence(*listed) if listed else NULL), more)


INHERITED_ADDRESSES, INHERITED_NUMBERS = sequence(family(1), family(2)), numbers()

# A name and octets that are no contents of the extension of addresses.
MALFORMED_ADDRESSES = [
    ("no octets", b""),
    ("no family", sequence()),
    ("no block", sequence(sequence(tlv(4, b"\0\1"), sequence()))),
    ("families out of order", sequence(family(2), family(1))),
    ("a family twice", sequence(family(1), family(1))),
    ("a third family", sequence(family(3))),
    ("a SAFI", sequence(family(1, prefix("10.0.0.0/8"), safi=b"\1"))),
    ("33 bits", sequence(family(1, bits(b"\x0a\0\0\0\x80", 7)))),
    ("a bit that is not used", sequence(family(1, tlv(3, b"\4\x0a\1")))),
    ("blocks out of order", addresses("10.0.0.0/8", "9.0.0.0/8")),
    ("blocks that overlap", addresses("10.0.0.0/8", "10.1.0.0/16")),
    ("blocks that continue one another", addresses("10.0.0.0/9", "10.128.0.0/9")),
    ("a range that is a prefix", sequence(family(1, sequence(prefix("10.0.0.0/8"), prefix("10.0.0.0/8"))))),
    ("a range with a zero at its end", sequence(family(1, sequence(prefix("10.0.0.0/9"), prefix("11.0.0.0/8"))))),
    ("an octet after them", addresses("10.0.0.0/8") + b"\0"),
]

# The same of AS numbers.
MALFORMED_NUMBERS = [
    ("no octets", b""),
    ("no number", sequence(tlv(0xa0, sequence()))),
    ("another tag", sequence(tlv(0xa1, NULL))),
    ("routing domain identifiers", numbers(1, more=tlv(0xa1, NULL))),
    ("a number of 2^32", numbers(2**32)),
    ("a number below 0", sequence(tlv(0xa0, sequence(tlv(2, b"\x80"))))),
    ("a range of one number", numbers((1, 1))),
    ("numbers out of order", numbers(2, 0)),
    ("numbers that continue one another", numbers(1, 2)),
    ("an octet after them", numbers(1) + b"\0"),
]
