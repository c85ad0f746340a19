"""Which rule of a profile a certificate breaks first (RFC 6487 4, RFC 8209 3.1, RFC 9323 2), as the statuses of
rpki_certificate_inspect, found without the library. The certificates are well-formed but for what extensions hold, and
what begins as a URI is one."""
from typing import List

from der import oid
from judges import resources
from judges.names import is_general_name
from lax import values_of
from makers import x509
from makers.certificate import Certificate
from strict import status_of

RSA = oid("1.2.840.113549.1.1.1")
NAMES = {"constraints": x509.CONSTRAINTS, "subject key": x509.SUBJECT_KEY, "authority key": x509.AUTHORITY_KEY,
         "usage": x509.USAGE, "purposes": x509.PURPOSES, "points": x509.REVOCATION,
         "issuer access": x509.AUTHORITY_ACCESS, "subject access": x509.SUBJECT_ACCESS, "policies": x509.POLICIES,
         "addresses": x509.ADDRESSES, "addresses v2": x509.ADDRESSES_V2, "numbers": x509.NUMBERS,
         "numbers v2": x509.NUMBERS_V2}
KNOWN = {oid(text): name for name, text in NAMES.items()}
COMMON_NAME, SERIAL_NUMBER, ORGANIZATION = map(oid, (x509.COMMON, x509.SERIAL, x509.ORGANIZATION))
PRINTABLE, UTF8 = x509.PRINTABLE, x509.UTF8

# Of each profile its rules, in the order of crates/rpki_cert/specs/Rule.antt.
BASIC = [85, 86, 87, 156, 112, 94, 108, 109, 115, 116]
ORDINARY = [*BASIC, 88, 157, 90, 98]
PROFILES = [
    [*ORDINARY, 92, 96, 101, 103, 104, 105, 118, 119, 114, 113, 117],
    [*ORDINARY, 92, 96, 104, 105, 118, 119, 95, 100, 102],
    [*ORDINARY, 93, 97, 106, 111, 119, 95, 100, 102],
    [*BASIC, 89, 157, 158, 91, 93, 97, 110, 117, 107, 99, 95, 100, 102],
]
# Those of end entities without subject information access.
DETACHED = [*ORDINARY, 93, 97, 107, 95, 100, 102]


class Extensions:
    """The extensions by their names, of which no identifier occurs twice."""

    def __init__(self, values):
        self.found, self.critical, self.unknown = {}, {}, False
        for extension in values:
            identifier, *flag, content = extension.inside
            critical = any(each.inside != b"\0" for each in flag)
            name = KNOWN.get(identifier.inside)
            if name is None:
                self.unknown = self.unknown or critical
            else:
                self.found[name], self.critical[name] = content.inside, critical

    def has(self, *names):
        return any(name in self.found for name in names)

    def content(self, name, critical):
        """The octets of the extension, where it is there and as critical as it has to be."""
        return self.found[name] if self.has(name) and self.critical[name] == critical else b""

    def value(self, name, critical):
        """The one SEQUENCE that the extension's octets are, as a list of values; else None."""
        octets = self.content(name, critical)
        values = nested(octets) or []
        return values[0].inside if len(values) == 1 and values[0].first == 0x30 else None

    def accesses(self, name):
        """The descriptions of an access extension, each a method and a general name; else None."""
        pairs = [each.inside for each in self.value(name, False) or []]
        return pairs if pairs and all(map(is_description, pairs)) else None


def nested(octets):
    """The values that octets are, with everything nested in them; None where they are none."""
    try:
        values = values_of(octets)
    except IndexError:
        return None
    return values if octets == b"".join(value.octets() for value in values) else None


def is_description(pair):
    """A method and a general name (RFC 5280 4.2.2.1)."""
    return len(pair) == 2 and pair[0].first == 6 and is_general_name(pair[1].octets())


def is_name(name, strings):
    """One common name, and perhaps a serial number and an organization: strings of the profile (RFC 6487 4.4, RFC 8209
    3.1.1)."""
    pairs = values_in(name)
    kinds = [kind.inside for kind, value in pairs]
    return (kinds.count(COMMON_NAME) == 1 and len(kinds) == len(set(kinds))
            and all(kind in (COMMON_NAME, SERIAL_NUMBER, ORGANIZATION) for kind in kinds)
            and all(value.first in strings for kind, value in pairs))


def values_in(name):
    """The attributes of a name, each its type and its value."""
    return [attribute.inside for relative in name.inside for attribute in relative.inside]


def is_sized(name):
    """Each value has 1 to 64 characters (RFC 5280 A.1). That it is a string, another rule says."""
    strings = [value.inside for kind, value in values_in(name) if isinstance(value.inside, bytes)]
    return all(1 <= len(string.decode(errors="replace")) <= 64 for string in strings)


def has_printable_number(name):
    """A serial number is a PrintableString (RFC 8209 3.1.1)."""
    return all(value.first == PRINTABLE for kind, value in values_in(name) if kind.inside == SERIAL_NUMBER)


def is_policy(values):
    """Exactly one policy of the RPKI, with one pointer to a statement at most (RFC 6487 4.8.9, RFC 7318 2)."""
    if not values or len(values) != 1:
        return False
    policy, *qualifiers = values[0].inside
    names = [oid(x509.POLICY), oid(x509.POLICY_V2)]
    pointers = [each.octets() for more in qualifiers for each in more.inside]
    return policy.inside in names and (not qualifiers or pointers == [x509.STATEMENT])


def is_rsync(name):
    return name.first == 0x86 and name.inside.startswith(b"rsync://")


def first_access(pairs, method):
    """The first rsync URI of this method (RFC 6487 4.8.7, 4.8.8)."""
    wanted = oid(method)
    return next((name.inside for kind, name in pairs or [] if kind.inside == wanted and is_rsync(name)), None)


def has_access(pairs, method):
    return first_access(pairs, method) is not None


def place_of(uri):
    """The host, the module and the names of the path of an rsync URI (RFC 5781 2)."""
    host, *names = uri[len("rsync://"):].split(b"/")
    return [host.lower(), *(name for name in names if name)]


def is_manifest_below(pairs):
    """The URI of the manifest is below that of the repository (RFC 6487 4.8.8.1)."""
    found = [first_access(pairs, method) for method in (x509.REPOSITORY, x509.MANIFEST)]
    if None in found:
        return False
    base, text = map(place_of, found)
    return len(base) < len(text) and text[:len(base)] == base


def are_notified(pairs):
    """Descriptions are there, and those of notifications have https URIs (RFC 8182 3.2)."""
    names = [name for kind, name in pairs or [] if kind.inside == oid(x509.NOTIFY)]
    return bool(pairs) and all(name.first == 0x86 and name.inside.startswith(b"https://") for name in names)


def has_only(pairs, *methods):
    """Each description has one of these methods (RFC 6487 4.8.8.2, RFC 8182 3.2)."""
    kinds = {kind.inside for kind, name in pairs or []}
    return bool(kinds) and kinds <= {oid(method) for method in methods}


def has_point(values):
    """One point, of names that are URIs, one of them rsync, and nothing else (RFC 6487 4.8.6)."""
    if not values or len(values) != 1 or [each.first for each in values[0].inside] != [0xa0]:
        return False
    full = values[0].inside[0].inside
    names = full[0].inside if [each.first for each in full] == [0xa0] else []
    return all(name.first == 0x86 and name.inside.isascii() for name in names) and any(map(is_rsync, names))


def is_rsa_key(it):
    """2,048 bits and the exponent 65537, in DER, so 270 octets of which the modulus is free (RFC 7935 3)."""
    bits = it.key.inside[1].inside
    front, back = bytes.fromhex("003082010a0282010100"), bytes.fromhex("0203010001")
    return bits[:10] == front and bits[10:11] >= b"\x80" and bits[266:] == back


def is_point(it):
    """04 and two coordinates (RFC 8608 3.1)."""
    bits = it.key.inside[1].inside
    return len(bits) == 66 and bits[:2] == b"\0\4"


def time_of(value):
    """A time as digits of a year of four digits on."""
    text = value.inside.decode()
    return text if value.first == 0x18 else ("19" if text >= "50" else "20") + text


def is_own_authority(found):
    """The authority key identifier of a trust anchor isn't there, or is the subject key identifier (RFC 6487 4.8.3)."""
    if not found.has("authority key"):
        return True
    own, subject = found.content("authority key", False), found.content("subject key", False)
    return own == bytes.fromhex("30168014") + subject[2:] and len(own) == 24


def is_one_version(found):
    """Policy and resources of one version (RFC 8360 4.2)."""
    policies_ = found.value("policies", True)
    if not policies_:
        return False
    new = policies_[0].inside[0].inside == oid(x509.POLICY_V2)
    return not (found.has("addresses", "numbers") if new else found.has("addresses v2", "numbers v2"))


def said_resources(found):
    """What the first extension of each kind says of resources; None where one is malformed or not critical."""
    said = []
    for names, reader in ((("addresses", "addresses v2"), resources.ip_resources),
                          (("numbers", "numbers v2"), resources.as_resources)):
        name = next((name for name in names if found.has(name)), None)
        if name:
            said.append(status_of(reader, found.content(name, True))[1])
    return said


def is_broken(it, found, strict):
    """Whether each rule is broken, by its status."""
    purposes = found.value("purposes", False)
    names = ["addresses", "addresses v2", "numbers", "numbers v2"]
    is_rsa = it.key.inside[0].inside[0].inside == RSA
    usage = found.content("usage", True)
    said = said_resources(found)
    holds = {
        85: any(it.serial.inside),
        86: not found.unknown,
        87: not strict or is_name(it.issuer, [PRINTABLE]),
        88: not strict or is_name(it.subject, [PRINTABLE]),
        89: not strict or is_name(it.subject, [PRINTABLE, UTF8]),
        90: is_rsa and is_rsa_key(it),
        91: not is_rsa and is_point(it),
        92: found.content("constraints", True) == bytes.fromhex("30030101ff"),
        93: not found.has("constraints"),
        94: found.content("subject key", False)[:2] == b"\x04\x14" and len(found.found["subject key"]) == 22,
        95: found.content("authority key", False)[:4] == bytes.fromhex("30168014")
            and len(found.found["authority key"]) == 24,
        96: usage == bytes.fromhex("03020106"),
        97: usage == bytes.fromhex("03020780"),
        98: not found.has("purposes"),
        99: bool(purposes) and all(each.first == 6 for each in purposes)
            and any(each.inside == oid(x509.ROUTER) for each in purposes),
        100: has_point(found.value("points", False)),
        101: not found.has("points"),
        102: has_access(found.accesses("issuer access"), x509.CA_ISSUERS),
        103: not found.has("issuer access"),
        104: has_access(found.accesses("subject access"), x509.REPOSITORY),
        105: has_access(found.accesses("subject access"), x509.MANIFEST),
        106: has_access(found.accesses("subject access"), x509.OBJECT),
        107: not found.has("subject access"),
        108: is_policy(found.value("policies", True)),
        109: found.has(*names) and all(found.critical.get(name, True) for name in names),
        110: found.has("numbers", "numbers v2") and not found.has("addresses", "addresses v2"),
        111: has_only(found.accesses("subject access"), x509.OBJECT, x509.NOTIFY),
        112: time_of(it.validity.inside[0]) <= time_of(it.validity.inside[1]),
        113: is_own_authority(found),
        114: it.tbs.inside[3].octets() == it.tbs.inside[5].octets(),
        115: is_one_version(found),
        116: None not in said,
        117: None not in said and all(blocks is not None for each in said for blocks in each.values()),
        118: is_manifest_below(found.accesses("subject access")),
        119: are_notified(found.accesses("subject access")),
        156: not strict or is_sized(it.issuer),
        157: not strict or is_sized(it.subject),
        158: not strict or has_printable_number(it.subject),
    }
    return {status: not held for status, held in holds.items()}


def statuses(octets):
    """The statuses of the profiles in order, strict; then the same not strict; then of the last, strict and not."""
    it = Certificate(octets)
    found = Extensions(it.list.inside)
    told: List[int] = []
    last: List[int] = []
    for strict in (True, False):
        broken = is_broken(it, found, strict)
        firsts = [next((status for status in rules if broken[status]), 0) for rules in (*PROFILES, DETACHED)]
        told, last = told + firsts[:-1], last + firsts[-1:]
    return told + last


def agrees(told, expected):
    """What variants/certificates.py expects of an inspection by each profile is what is told here."""
    words = {"inspect_ta": 0, "inspect_ca": 1, "inspect_ee": 2, "inspect_router": 3, "inspect_detached_ee": 8}
    return all((told[words[word]] == 0) == (text == "ok") for word, text in expected.items() if word in words)
