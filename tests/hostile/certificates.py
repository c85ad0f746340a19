"""Resource certificates: their variants, chains of certificates, changed octets, beginnings, and refused
allocations."""
from der import sequence, tlv
from lax import values_of
from makers.certificate import CERTIFICATE, Certificate, named
from makers.chain import MOMENT, chain, identifier_of, issued, period_of
from makers.x509 import AUTHORITY_KEY, SUBJECT_KEY, UNKNOWN
from programs import run
from shim import Shim
from variants.certificates import VARIANTS


def told(octets, programs):
    """The lines that are told of a certificate, by their first words."""
    seen = run(programs.calls, ["certificate", "read"], octets)
    assert seen.status == 0 and seen.faults == b"", seen
    return dict(line.split(" ", 1) for line in seen.output.decode().splitlines())


def certificate_variants(programs):
    """Each variant is read, or says what is expected of it."""
    for name, change, expected in VARIANTS:
        it = Certificate()
        change(it)
        lines = told(it.octets(), programs)
        yield name, {word: lines.get(word) for word in expected}, expected


def certificate_beginnings(programs):
    """Each proper beginning is truncated, and a certificate with another octet has trailing data."""
    for count in range(len(CERTIFICATE)):
        yield f"{count} octets", told(CERTIFICATE[:count], programs), {"rejected": "truncated value"}
    yield "another octet", told(CERTIFICATE + b"\0", programs), {"rejected": "trailing data"}


OK_ANCHOR, OK_AUTHORITY = "verify_ta ok", ["verify_issued ok", "verify_ca ok"]
OK_ENTITY = ["verify_issued ok", "verify_ee ok"]
NO_ENTITY = ["verify_issued error", "verify_ee error"]


def verified(programs, octets, moment=MOMENT):
    """The lines that are told of a chain; an error is told as such."""
    seen = run(programs.calls, ["certificate", "chain", moment], octets)
    lines = seen.output.decode().splitlines()
    return seen.status, [line if line.endswith(" ok") else line.split()[0] + " error" for line in lines]


def authority_of(issuer):
    def change(it):
        it.put(AUTHORITY_KEY, sequence(tlv(0x80, identifier_of(issuer))))
    return change


def another_issuer(it):
    it.tbs.inside[3] = named("another")


# A name, what is changed of the last certificate before it is signed, and whether it is verified all the same.
LINKS = [
    ("as it is", lambda first, it: None, True),
    ("another issuer's name", lambda first, it: another_issuer(it), False),
    ("the anchor's key identifier", lambda first, it: authority_of(first)(it), False),
    ("no authority key identifier", lambda first, it: it.remove(AUTHORITY_KEY), False),
    ("another subject key identifier", lambda first, it: it.put(SUBJECT_KEY, tlv(4, bytes(20))), False),
    ("no subject key identifier", lambda first, it: it.remove(SUBJECT_KEY), False),
    ("an unknown critical extension", lambda first, it: it.add(UNKNOWN, b"", critical=True), False),
    ("an unknown extension", lambda first, it: it.add(UNKNOWN, b""), True),
    ("the anchor's signature", lambda first, it: setattr(it, "signer", first), False),
    ("its own signature", lambda first, it: setattr(it, "signer", it), False),
    ("a period that is over", lambda first, it: period_of(it, "250101000000Z", "260101000000Z"), False),
    ("a period to come", lambda first, it: period_of(it, "280101000000Z", "290101000000Z"), False),
]

# A name, a moment, and whether the chain, of the year 2027 to its first second after, is verified.
MOMENTS = [
    ("the second before", "2026-12-31T23:59:59Z", False),
    ("the first second", "2027-01-01T00:00:00Z", True),
    ("the last second", "2028-01-01T00:00:00Z", True),
    ("the second after", "2028-01-01T00:00:01Z", False),
]


def issued_by_an_entity():
    """An authority that the key of the end entity of the chain has signed."""
    _, _, third = chain()
    it = issued("beyond", 4, third)
    period_of(it, "270101000000Z", "280101000000Z")
    return it.stamp()


def certificate_chains(programs):
    """A chain is verified exactly where each certificate is issued by the one before it, at this moment."""
    first, second, third = (it.stamp() for it in chain())
    all_good = [OK_ANCHOR, *OK_AUTHORITY, *OK_ENTITY]
    yield "in order", verified(programs, first + second + third), (0, all_good)
    yield "one left out", verified(programs, first + third), (0, [OK_ANCHOR, *NO_ENTITY])
    yield "no anchor first", verified(programs, second), (0, ["verify_ta error"])
    yield "an end entity issues", verified(programs, first + second + third + issued_by_an_entity()), (
        0, [*all_good, "verify_issued error", "verify_ca error"])
    for name, moment, good in MOMENTS:
        expected = [OK_ANCHOR, *OK_AUTHORITY] if good else ["verify_ta error"]
        yield name, verified(programs, first + second, moment), (0, expected)
    anchor_, authority, entity = chain()
    period_of(authority, "270101000000Z", "270301000000Z")
    octets = anchor_.stamp() + authority.stamp() + entity.stamp()
    yield "an authority whose period is over", verified(programs, octets), (
        0, [OK_ANCHOR, "verify_issued error", "verify_ca error"])
    for name, change, good in LINKS:
        anchor_, authority, entity = chain()
        change(anchor_, entity)
        octets = anchor_.stamp() + authority.stamp() + entity.stamp()
        yield name, verified(programs, octets), (0, [OK_ANCHOR, *OK_AUTHORITY, *(OK_ENTITY if good else NO_ENTITY)])


def changed_certificates(programs):
    """No change of one octet of what is signed, or of the signature, is verified."""
    octets = chain()[0].stamp()
    tbs = values_of(octets)[0].inside[0].octets()
    start = octets.index(tbs)
    places = [*range(start, start + len(tbs)), *range(len(octets) - 32, len(octets))]
    for place in places:
        changed = octets[:place] + bytes([octets[place] ^ 1]) + octets[place + 1:]
        status, lines = verified(programs, changed)
        yield f"octet {place}", (status in (0, 1), OK_ANCHOR in lines), (True, False)


def refused_certificates(programs):
    """With an allocation refused a line says what it says with memory, or that memory ran out."""
    full = run(programs.calls, ["certificate", "read"], CERTIFICATE).output.splitlines()
    with Shim() as shim:
        refused = 0
        for alone in (True, False):
            for allocation, met, seen in shim.runs(programs.calls, ["certificate", "read"], CERTIFICATE, alone):
                refused += met
                lines = seen.output.splitlines()
                pairs = zip(lines, full)
                whole = len(lines) == len(full) and all(line in (b"out of memory", other) for line, other in pairs)
                nothing = (seen.status, lines) in [(0, [b"out of memory"]), (1, [])]
                yield f"allocation {allocation}, {alone}", whole or (met and nothing), True
        return f"{refused} refused allocations"


TABLES = [
    certificate_variants, certificate_beginnings, certificate_chains, changed_certificates, refused_certificates,
]
