"""Access descriptions, general names and CRL distribution points (RFC 5280 4.2.1.6, 4.2.1.13, 4.2.2.1), from the left:
what they say, in the words of a row of tests/linked/access/rows.py."""
from judges.names import general_name
from strict import Octets, identifier

# The methods by what follows id-pkix, 1.3.6.1.5.5.7.48 (RFC 5280 4.2.2, RFC 6487 4.8.8, RFC 8182 3.2).
METHODS = {2: 1, 5: 2, 10: 3, 11: 4, 13: 5}
ARC = bytes.fromhex("2b0601050507") + b"\x30"


def span_of(uri):
    return uri.span() if uri else [0, 0]


def name(octets):
    """The place of the URI, the size, and whether there is a URI."""
    found = Octets(octets)
    uri = general_name(found)
    return [*span_of(uri), found.place, int(uri is not None)]


def access(octets):
    """The places of the identifier and of the URI, the size, the method, and whether there is a URI."""
    found = Octets(octets)
    parts = found.take(0x30)
    method = identifier(parts)
    uri = general_name(parts)
    parts.end()
    number = METHODS.get(method.octets[-1], 0) if method.octets[:-1] == ARC else 0
    return [*method.span(), *span_of(uri), found.place, number, int(uri is not None)]


def point(octets):
    """The place of the names."""
    around = [Octets(octets)]
    for first in (0x30, 0x30, 0xA0, 0xA0):
        around.append(around[-1].take(first))
    for each in reversed(around[:-1]):
        each.end()
    return around[-1].span()
