"""Small names, and whether they are those of certificates of the RPKI and of routers: all names of up to two
attributes, of four types, as strings of four kinds and of four sizes. What is due is found here from the rule alone: a
common name once, a serial number and an organization name at most once, no other attribute, each value a
PrintableString, or in a router's name a UTF8String too (RFC 6487 4.4, RFC 8209 3.1.1). How many characters a value has
is another rule, of certificates."""
import itertools

from der import identifier, sequence, set_of, tlv
from makers.x509 import COMMON, ORGANIZATION, PRINTABLE, SERIAL, UTF8

COUNTRY = "2.5.4.6"
TYPES = [COMMON, SERIAL, ORGANIZATION, COUNTRY]
TELETEX, IA5 = 0x14, 0x16
KINDS = [PRINTABLE, UTF8, IA5, TELETEX]
SIZES = [0, 1, 64, 65]
# The rules, in the order in which they are looked for, by their statuses in C.
MISSING, SECOND_COMMON, SECOND_NUMBER, SECOND_ORGANIZATION, OTHER_STRING, OTHER_ATTRIBUTE = 32, 33, 34, 35, 36, 37
SECOND = {COMMON: SECOND_COMMON, SERIAL: SECOND_NUMBER, ORGANIZATION: SECOND_ORGANIZATION}

# A name of a router, of two UTF8Strings.
ROUTER_NAME = bytes.fromhex("3018310A300806035504030C0140310A300806035504050C0141")
ATTRIBUTES = list(itertools.product(TYPES, KINDS, SIZES))


def attribute(kind, string, size):
    """One attribute: a SEQUENCE of its type and its value."""
    return sequence(identifier(kind), tlv(string, b"A" * size))


def apart(*attributes):
    """A name, each of whose attributes is a relative distinguished name."""
    return sequence(*(set_of(attribute(*each)) for each in attributes))


def together(*attributes):
    """A name of one relative distinguished name."""
    return sequence(set_of(*(attribute(*each) for each in attributes)))


def broken(attributes, strings):
    """The rule that a name breaks first, from the left; 0 where it is strict."""
    found = set()
    for kind, string, _ in attributes:
        if kind not in SECOND:
            return OTHER_ATTRIBUTE
        if kind in found:
            return SECOND[kind]
        if string not in strings:
            return OTHER_STRING
        found.add(kind)
    return 0 if COMMON in found else MISSING


def names():
    """The names, and the rule that each breaks first, of those of the RPKI and of those of routers."""
    yield ROUTER_NAME, (OTHER_STRING, 0)
    lists = [(one,) for one in ATTRIBUTES] + list(itertools.product(ATTRIBUTES, ATTRIBUTES))
    for attributes in lists:
        due = broken(attributes, [PRINTABLE]), broken(attributes, [PRINTABLE, UTF8])
        for make in (apart, together)[:len(attributes)]:
            yield make(*attributes), due
