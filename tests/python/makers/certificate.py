"""A certificate that can be changed: examples/certificate.der, which openssl made, its values, and changes of them by
the sections of RFC 5280, RFC 6487, RFC 8209 and RFC 3779."""
import hashlib

from der import oid, sequence, tlv
from lax import Value, values_of
from makers import resources
from makers.x509 import (
    ADDRESSES, ADDRESSES_V2, AUTHORITY_ACCESS, AUTHORITY_KEY, CONSTRAINTS, NUMBERS, NUMBERS_V2, OBJECT, POLICIES,
    POLICY_V2, PURPOSES, REVOCATION, ROUTER, SUBJECT_ACCESS, SUBJECT_KEY, USAGE, accesses, name, names, of_names,
    policies, policy, uri,
)
from programs import TOP, octets_of

CERTIFICATE = octets_of(TOP, "examples", "certificate.der")
IS_CA, CA_USAGE, END_ENTITY_USAGE = map(bytes.fromhex, ("30030101ff", "03020106", "03020780"))
POINT, SECURE = b"rsync://example.net/m/a.crl", b"https://example.net/a.crl"


class Certificate:
    """A certificate that can be changed."""

    def __init__(self, octets=None):
        self.whole = values_of(octets or CERTIFICATE)[0]
        self.tbs, self.algorithm, self.signature = self.whole.inside
        (self.version, self.serial, self.inner_algorithm, self.issuer, self.validity, self.subject, self.key,
         self.context_3) = self.tbs.inside
        self.list = self.context_3.inside[0]
        self.signer = self

    def octets(self):
        return self.whole.octets()

    def extension(self, identifier):
        return next(each for each in self.list.inside if each.inside[0].inside == oid(identifier))

    def remove(self, *identifiers):
        for identifier in identifiers:
            self.list.inside.remove(self.extension(identifier))

    def add(self, identifier, content, critical=False):
        flag = [Value(1, b"\xff")] if critical else []
        self.list.inside.append(Value(0x30, [Value(6, oid(identifier)), *flag, Value(4, content)]))

    def put(self, identifier, content):
        self.extension(identifier).inside[-1].inside = content

    def turn(self, identifier):
        """Makes a critical extension one that isn't, and the other way round."""
        members = self.extension(identifier).inside
        if members[1].first == 1:
            del members[1]
        else:
            members.insert(1, Value(1, b"\xff"))

    def stamp(self):
        """Signs it as the tests do, by the key of the signer."""
        bits = self.signer.key.inside[1].inside[1:]
        self.signature.inside = b"\0" + hashlib.sha256(self.tbs.octets() + bits).digest()
        return self.octets()


def named(text):
    """A name of one common name."""
    return values_of(name(text))[0]


def version(octet):
    def change(it):
        it.version.inside[0].inside = bytes([octet])
    return change


def serial(contents):
    def change(it):
        it.serial.inside = contents
    return change


def put(identifier, content):
    return lambda it: it.put(identifier, content)


def turn(identifier):
    return lambda it: it.turn(identifier)


def add(identifier, content, critical=False, times=1):
    def change(it):
        for _ in range(times):
            it.add(identifier, content, critical)
    return change


def remove(*identifiers):
    return lambda it: it.remove(*identifiers)


def one_parameter_less(it):
    it.inner_algorithm.inside = it.inner_algorithm.inside[:1]


def no_version(it):
    it.tbs.inside.remove(it.version)


def no_extensions(it):
    it.tbs.inside.remove(it.context_3)


def empty_list(it):
    it.list.inside = []


def after_extensions(it):
    it.tbs.inside.append(Value(5, b""))


def after_list(it):
    it.context_3.inside.append(Value(5, b""))


# Where the object is that an end entity signs.
SIGNED = OBJECT, uri(b"rsync://example.net/m/o.roa")


def end_entity(*pairs):
    """An end entity with these access descriptions."""
    def change(it):
        it.remove(CONSTRAINTS)
        it.put(USAGE, END_ENTITY_USAGE)
        it.put(SUBJECT_ACCESS, accesses(*pairs))
    return change


def anchor(it):
    """A trust anchor, whose authority key identifier is its subject key identifier."""
    it.remove(REVOCATION, AUTHORITY_ACCESS)
    it.tbs.inside[3] = it.issuer = it.subject
    it.put(AUTHORITY_KEY, sequence(tlv(0x80, values_of(it.extension(SUBJECT_KEY).inside[-1].inside)[0].inside)))


def both(first, second):
    """The one change, and then the other."""
    def change(it):
        first(it)
        second(it)
    return change


def anchor_with(change):
    return both(anchor, change)


def own_issuer_without_identifier(it):
    anchor(it)
    it.remove(AUTHORITY_KEY)


def detached(it):
    """An end entity without subject information access (RFC 9323 2)."""
    it.remove(CONSTRAINTS, SUBJECT_ACCESS)
    it.put(USAGE, END_ENTITY_USAGE)


def key_bits(octets, unused=0):
    """Other bits of the key."""
    def change(it):
        it.key.inside[1].inside = bytes([unused]) + octets
    return change


EXPONENT = bytes.fromhex("010001")
MODULUS = b"\0" + b"\x80" + bytes(254) + b"\x01"


def router_bits(octets, unused=0):
    return both(router, key_bits(octets, unused))


def of_version_2(*extensions, policy_too=True):
    """The extensions by their identifiers of RFC 8360, and perhaps the policy."""
    def change(it):
        if policy_too:
            it.put(POLICIES, policies(policy(POLICY_V2)))
        for old, new in ((ADDRESSES, ADDRESSES_V2), (NUMBERS, NUMBERS_V2)):
            if old in extensions:
                it.extension(old).inside[0].inside = oid(new)
    return change


version_2 = of_version_2(ADDRESSES, NUMBERS)


def period(first, last):
    def change(it):
        it.validity.inside = [Value(0x17, first.encode()), Value(0x17, last.encode())]
    return change


def router(it):
    it.remove(CONSTRAINTS, SUBJECT_ACCESS, ADDRESSES)
    it.put(USAGE, END_ENTITY_USAGE)
    it.add(PURPOSES, names(ROUTER))
    curve = [Value(6, oid("1.2.840.10045.2.1")), Value(6, oid("1.2.840.10045.3.1.7"))]
    it.key.inside = [Value(0x30, curve), Value(3, b"\0\4" + bytes(64))]


def router_with_addresses(it):
    router(it)
    it.add(ADDRESSES, resources.addresses("192.0.2.0/24"), critical=True)


def many(count):
    """Adds extensions of which no two have the same identifier, until there are so many."""
    def change(it):
        for number in range(count - len(it.list.inside)):
            it.add(f"1.3.6.1.4.1.99999.{number}", b"")
    return change


def subject(*attributes):
    def change(it):
        it.tbs.inside[5] = it.subject = values_of(of_names(*attributes))[0]
    return change
