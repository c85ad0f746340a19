"""Changes of a certificate, one in each: the variants of tests/python/variants, changes of each extension, and of the
other parts."""
from der import NULL, oid, tlv
from lax import Value, values_of
from makers import certificate as made, x509
from variants.certificates import VARIANTS

EXTENSIONS = {
    "basic constraints": x509.CONSTRAINTS, "the subject key identifier": x509.SUBJECT_KEY,
    "the authority key identifier": x509.AUTHORITY_KEY, "key usage": x509.USAGE, "the points": x509.REVOCATION,
    "issuer access": x509.AUTHORITY_ACCESS, "subject access": x509.SUBJECT_ACCESS, "the policies": x509.POLICIES,
    "the addresses": x509.ADDRESSES, "the numbers": x509.NUMBERS,
}
URI = b"rsync://example.net/m/"


def contents(identifier, change):
    """Changes what an extension holds."""
    def changed(it):
        it.put(identifier, change(it.extension(identifier).inside[-1].inside))
    return changed


def twice(identifier):
    return lambda it: it.list.inside.append(it.extension(identifier))


def flagged(identifier, octet):
    """Spells whether an extension is critical by this octet."""
    def changed(it):
        members = it.extension(identifier).inside
        del members[1:-1]
        members.insert(1, Value(1, bytes([octet])))
    return changed


# What is changed of each extension.
CHANGES = {
    "left out": made.remove,
    "twice": twice,
    "as critical as not": made.turn,
    "empty": lambda it: contents(it, lambda octets: b""),
    "a NULL": lambda it: contents(it, lambda octets: NULL),
    "without its last octet": lambda it: contents(it, lambda octets: octets[:-1]),
    "with an octet after it": lambda it: contents(it, lambda octets: octets + b"\0"),
    "with another tag": lambda it: contents(it, lambda octets: bytes([octets[0] ^ 1]) + octets[1:]),
    "with FALSE or another TRUE spelled": lambda it: flagged(it, 1),
}


def field(name, value):
    """Puts a value in the place of a field."""
    def changed(it):
        fields = it.tbs.inside
        fields[fields.index(getattr(it, name))] = value
    return changed


def period(first, last):
    """Puts two times in the place of the period's, each a tag and a text."""
    return lambda it: setattr(it.validity, "inside", [Value(tag, text) for tag, text in (first, last)])


MODULUS = b"\0" + b"\xc3" + bytes(254) + b"\x01"
EARLY, LATE = (0x17, b"250101000000Z"), (0x17, b"350101000000Z")
ACCESS = {"issuer access": (x509.AUTHORITY_ACCESS, [(x509.CA_ISSUERS, x509.uri(URI + b"a.cer"))]),
          "subject access": (x509.SUBJECT_ACCESS, [(x509.REPOSITORY, x509.uri(URI)),
                                                   (x509.MANIFEST, x509.uri(URI + b"m.mft"))])}
NAMES = {"a directory name": tlv(0xa4, made.named("a").octets()), "a name of a host": tlv(0x82, b"example.net"),
         "a NULL for a name": NULL, "a name of tag 9": tlv(0x89, b"a"), "an application's name": tlv(0x41, b"a"),
         "a URI of octets that aren't ASCII": x509.uri(b"rsync://example.net/\xff\xfe")}


def others():
    """Changes of parts that are no extensions, and of names in extensions."""
    yield "a key of junk", made.key_bits(b"junk")
    yield "a key without bits", made.key_bits(b"")
    yield "a key with unused bits", lambda it: made.key_bits(it.key.inside[1].inside[1:-1] + b"\x80", 7)(it)
    yield "a key of 2,048 bits", made.key_bits(x509.rsa_numbers(MODULUS, b"\x01\0\x01"))
    yield "a key of 1,024 bits", made.key_bits(x509.rsa_numbers(b"\0\xc3" + bytes(126) + b"\x01", b"\x01\0\x01"))
    yield "a key of 4,096 bits", made.key_bits(x509.rsa_numbers(b"\0\xc3" + bytes(510) + b"\x01", b"\x01\0\x01"))
    yield "a key with the exponent 3", made.key_bits(x509.rsa_numbers(MODULUS, b"\x03"))
    yield "a key with the exponent 1", made.key_bits(x509.rsa_numbers(MODULUS, b"\x01"))
    yield "a key with a modulus below 0", made.key_bits(x509.rsa_numbers(MODULUS[1:], b"\x01\0\x01"))
    yield "a key and an octet", made.key_bits(x509.rsa_numbers(MODULUS, b"\x01\0\x01") + b"\0")
    yield "a router's key of junk", made.both(made.router, made.key_bits(b"junk"))
    yield "a router's key without bits", made.both(made.router, made.key_bits(b""))
    yield "a router's key in short", made.both(made.router, made.key_bits(b"\x02" + bytes(32)))
    for text, octets in [("0", b"\0"), ("below 0", b"\x80"), ("of 20 octets", b"\x7f" + bytes(19)),
                         ("of 21 octets", b"\x01" + bytes(20)), ("with a zero in front", b"\0\x01"), ("of none", b"")]:
        yield f"the serial number {text}", made.serial(octets)
    for text, times in [
            ("in reverse", (LATE, EARLY)), ("of one second", (EARLY, EARLY)),
            ("in GeneralizedTime before 2050", ((0x18, b"20250101000000Z"), (0x18, b"20350101000000Z"))),
            ("until 2050", (EARLY, (0x18, b"20500101000000Z"))), ("without seconds", ((0x17, b"2501010000Z"), LATE)),
            ("of another zone", ((0x17, b"250101000000+0100"), LATE)),
            ("with a fraction", (EARLY, (0x18, b"20350101000000.5Z"))),
            ("of 31 February", ((0x17, b"250231000000Z"), LATE)), ("without end", (EARLY, (0x18, b"99991231235959Z")))]:
        yield f"a period {text}", period(*times)
    printable, utf8 = x509.PRINTABLE, x509.UTF8
    for text, attributes in [
            ("empty", ()), ("of a common name", ((x509.COMMON, printable, b"a"),)),
            ("of a UTF8String", ((x509.COMMON, utf8, b"a"),)),
            ("with a serial number", ((x509.COMMON, printable, b"a"), (x509.SERIAL, printable, b"1"))),
            ("of two common names", ((x509.COMMON, printable, b"a"), (x509.COMMON, printable, b"b"))),
            ("of a serial number alone", ((x509.SERIAL, printable, b"1"),)),
            ("with a country", ((x509.COMMON, printable, b"a"), ("2.5.4.6", printable, b"DE"))),
            ("of an empty string", ((x509.COMMON, printable, b""),)),
            ("of 300 letters", ((x509.COMMON, printable, b"a" * 300),)),
            ("of octets that aren't UTF-8", ((x509.COMMON, utf8, b"\xff"),)),
            ("of an underscore", ((x509.COMMON, printable, b"a_b"),))]:
        for which in ("issuer", "subject"):
            yield f"the {which}'s name {text}", field(which, values_of(x509.of_names(*attributes))[0])
    yield "a signature with unused bits", signature(lambda octets: b"\x01" + octets[1:-1] + b"\0")
    yield "a signature of no bits", signature(lambda octets: b"\0")
    yield "unique identifiers", lambda it: it.tbs.inside.insert(7, Value(0x81, b"\0a"))
    yield "the resources of RFC 8360", lambda it: resources(it, x509.ADDRESSES, x509.ADDRESSES_V2)
    later = x509.policies(x509.policy(x509.POLICY_V2))
    yield "the policy of RFC 8360 and resources of RFC 3779", made.put(x509.POLICIES, later)
    yield "resources of both kinds", both_kinds
    for text, (identifier, pairs) in ACCESS.items():
        for what, general_name in NAMES.items():
            other = pairs[0][0], general_name
            yield f"{text} with {what} first", made.put(identifier, x509.accesses(other, *pairs))
            yield f"{text} with {what} alone", made.put(identifier, x509.accesses(other, *pairs[1:]))
        yield f"{text} with its first twice", made.put(identifier, x509.accesses(pairs[0], *pairs))
    notify = [(x509.NOTIFY, x509.uri(scheme + b"://example.net/n.xml")) for scheme in (b"http", b"https", b"rsync")]
    for (method, uri), text in zip(notify, ("http", "https", "rsync")):
        pairs = [*ACCESS["subject access"][1], (method, uri)]
        yield f"notifications by {text}", made.put(x509.SUBJECT_ACCESS, x509.accesses(*pairs))
    elsewhere = [(x509.REPOSITORY, x509.uri(URI)), (x509.MANIFEST, x509.uri(b"rsync://example.net/n/m.mft"))]
    yield "a manifest elsewhere", made.put(x509.SUBJECT_ACCESS, x509.accesses(*elsewhere))
    unnamed = [(x509.REPOSITORY, x509.uri(URI)), (x509.MANIFEST, x509.uri(URI + b"m"))]
    yield "a manifest of another name", made.put(x509.SUBJECT_ACCESS, x509.accesses(*unnamed))


def signature(change):
    return lambda it: setattr(it.signature, "inside", change(it.signature.inside))


def resources(it, old, new):
    it.extension(old).inside[0].inside = oid(new)


def both_kinds(it):
    it.add(x509.ADDRESSES_V2, it.extension(x509.ADDRESSES).inside[-1].inside, critical=True)


def changes():
    """Each change, by its name."""
    for text, change, _ in VARIANTS:
        yield text, change
    for text, identifier in EXTENSIONS.items():
        for how, change in CHANGES.items():
            yield f"{text}, {how}", change(identifier)
    yield from others()
