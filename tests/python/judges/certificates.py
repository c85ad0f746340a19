"""Where the parts of a certificate are, by the lengths of its values, and what its extensions say, by the octets that
RFC 6487 4.8 has them be: in the words of a row of tests/linked/certificate/rows.py."""
import lax
from der import oid

RSA = oid("1.2.840.113549.1.1.1")

# The known extensions, in the order of struct rpki_known_extensions.
KNOWN = [oid(text) for text in (
    "2.5.29.19", "2.5.29.14", "2.5.29.35", "2.5.29.15", "2.5.29.37", "2.5.29.31", "1.3.6.1.5.5.7.1.1",
    "1.3.6.1.5.5.7.1.11", "2.5.29.32", "1.3.6.1.5.5.7.1.7", "1.3.6.1.5.5.7.1.28", "1.3.6.1.5.5.7.1.8",
    "1.3.6.1.5.5.7.1.29")]
CONSTRAINTS, SUBJECT, AUTHORITY, USAGE, POLICIES = (KNOWN[number] for number in (0, 1, 2, 3, 8))

# The octets of the basic constraints, of key usage, and of certificate policies without a qualifier (RFC 6487 4.8.1,
# 4.8.4, 4.8.9; RFC 8360 4.2.1).
IS_AUTHORITY = bytes.fromhex("30030101ff")
USES = [bytes.fromhex("03020106"), bytes.fromhex("03020780")]
POLICY_NAMES = [bytes.fromhex("06082b06010505070e02"), bytes.fromhex("06082b06010505070e03")]
STATEMENT = bytes.fromhex("06082b06010505070201")


def parts_row(octets):
    """The places of the parts of a certificate, and what they say."""
    data, algorithm, signature = lax.places_in(octets, 0)
    _, serial, _, issuer, _, subject, key, context = lax.places_in(octets, data[0])
    extensions = lax.head(octets, lax.head(octets, context[0])[0])
    bits = (lax.head(octets, signature[0])[0] + 1, signature[1])
    places = [data, algorithm, bits, issuer, subject, key, extensions]
    number = octets[lax.head(octets, serial[0])[0]:serial[1]]
    format_, key_bits = lax.places_in(octets, key[0])
    is_rsa = RSA in octets[format_[0]:format_[1]]
    numbers = [number for start, end in places for number in (start, end - start)]
    return " ".join(map(str, [
        octets.hex(), 0, *numbers, int.from_bytes(number, "big").to_bytes(20, "big").hex(), 0 if is_rsa else 1,
        octets[lax.head(octets, key_bits[0])[0]], len(lax.places_in(octets, algorithm[0])) - 1,
    ]))


def extensions(octets):
    """By its identifier, whether an extension is critical, and where its octets begin and end."""
    data, *_ = lax.places_in(octets, 0)
    around = lax.head(octets, lax.places_in(octets, data[0])[-1][0])[0]
    found = {}
    for start, _ in lax.places_in(octets, around):
        (name, end), *critical, value = lax.places_in(octets, start)
        is_critical = any(octets[last - 1] for _, last in critical)
        found[octets[lax.head(octets, name)[0]:end]] = is_critical, *lax.head(octets, value[0])
    return found


def policy_number(octets):
    """1 or 2 for exactly one policy of the RPKI, with one pointer to a statement at most; else 0."""
    if octets[:1] != b"\x30" or lax.head(octets, 0)[1] != len(octets) or len(lax.places_in(octets, 0)) != 1:
        return 0
    name, *qualifiers = [octets[start:end] for start, end in lax.places_in(octets, lax.places_in(octets, 0)[0][0])]
    if name not in POLICY_NAMES or len(qualifiers) > 1:
        return 0
    for qualifier in qualifiers:
        parts = [qualifier[start:end] for start, end in lax.places_in(qualifier, lax.places_in(qualifier, 0)[0][0])]
        if len(lax.places_in(qualifier, 0)) != 1 or len(parts) != 2 or parts[0] != STATEMENT or parts[1][0] != 0x16:
            return 0
    return POLICY_NAMES.index(name) + 1


def extension_row(octets):
    """The status of rpki_certificate_extensions for a certificate, and what it finds."""
    found = extensions(octets)
    words = []
    for name in KNOWN:
        critical, start, end = found.get(name, (False, 0, 0))
        words += [int(name in found), int(critical), start, end - start]
    said = {name: octets[start:end] for name, (_, start, end) in found.items()}
    is_ca = CONSTRAINTS in found
    if is_ca and said[CONSTRAINTS] != IS_AUTHORITY or is_ca and not found[CONSTRAINTS][0]:
        return "80"
    keys = []
    for status, name, before in ((81, SUBJECT, "0414"), (82, AUTHORITY, "30168014")):
        front = bytes.fromhex(before)
        octets_of = said.get(name, front + bytes(20))
        if octets_of[:len(front)] != front or len(octets_of) != len(front) + 20 or name in found and found[name][0]:
            return str(status)
        keys.append(octets_of[len(front):].hex())
    usage = policy = 0
    if USAGE in found:
        if said[USAGE] not in USES or not found[USAGE][0]:
            return "83"
        usage = USES.index(said[USAGE]) + 1
    if POLICIES in found:
        policy = policy_number(said[POLICIES])
        if policy == 0 or not found[POLICIES][0]:
            return "84"
    return " ".join(map(str, [0, *words, *keys, int(is_ca), usage, policy]))
