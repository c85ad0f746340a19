"""Resources down a path (RFC 6487 7.2, RFC 8360 4.2.4): a trust anchor, an authority and an end entity, of which the
lower two claim what a row says. The trust anchor has 192.0.2.0/24, 198.51.100.0/24, 2001:db8::/32, AS64496-AS64511 and
AS65551."""
from certificates import OK_ANCHOR, OK_AUTHORITY, OK_ENTITY, verified
from der import oid, sequence
from makers.chain import chain
from makers.resources import INHERITED_ADDRESSES, INHERITED_NUMBERS, addresses, family, numbers, prefix
from makers.x509 import ADDRESSES, ADDRESSES_V2, NUMBERS, NUMBERS_V2, POLICIES, POLICY_V2, policies, policy

NO_AUTHORITY = ["verify_issued ok", "verify_ca error"]
OVERCLAIMS = ["verify_issued ok", "verify_ee error"]


def claims(ip, numbers_):
    """Puts these contents of the extensions; None leaves one out."""
    def change(it):
        for identifier, content in ((ADDRESSES, ip), (NUMBERS, numbers_)):
            if content is None:
                it.remove(identifier)
            else:
                it.put(identifier, content)
    return change


def trimmed(ip, numbers_):
    """The same with the policy and the extensions of RFC 8360."""
    def change(it):
        claims(ip, numbers_)(it)
        it.put(POLICIES, policies(policy(POLICY_V2)))
        for old, new in ((ADDRESSES, ADDRESSES_V2), (NUMBERS, NUMBERS_V2)):
            if any(each.inside[0].inside == oid(old) for each in it.list.inside):
                it.extension(old).inside[0].inside = oid(new)
    return change


def as_it_is(it):
    """The resources of the trust anchor."""


INHERITS = claims(INHERITED_ADDRESSES, INHERITED_NUMBERS)

# A name, what the authority and the end entity claim, and whether each is verified.
ROWS = [
    ("all of it", as_it_is, as_it_is, True, True),
    ("inherited twice", INHERITS, INHERITS, True, True),
    ("inherited and listed", INHERITS, as_it_is, True, True),
    ("listed and inherited", as_it_is, INHERITS, True, True),
    ("a part of it", claims(addresses("192.0.2.0/25"), numbers(64500)), claims(addresses("192.0.2.64/26"), None),
     True, True),
    ("one address more", as_it_is, claims(addresses("192.0.2.0/23"), None), True, False),
    ("other addresses", as_it_is, claims(addresses("10.0.0.0/8"), None), True, False),
    ("addresses between two blocks", as_it_is, claims(addresses("193.0.0.0/32"), None), True, False),
    ("other addresses of IP version 6", as_it_is, claims(addresses("2001:db9::/32"), None), True, False),
    ("one number more", as_it_is, claims(None, numbers((64496, 64512))), True, False),
    ("a number beside good addresses", as_it_is, claims(addresses("192.0.2.0/24"), numbers(1)), True, False),
    ("more than a narrower authority has", claims(addresses("192.0.2.0/25"), numbers(64500)),
     claims(addresses("192.0.2.0/24"), None), True, False),
    ("numbers of an authority that has none", claims(addresses("192.0.2.0/24"), None), claims(None, numbers(64500)),
     True, False),
    ("inherited of an authority that has none", claims(addresses("192.0.2.0/24"), None), INHERITS, True, True),
    ("an authority of other addresses", claims(addresses("10.0.0.0/8"), None), as_it_is, False, False),
    ("inherited family by family", claims(sequence(family(1), family(2, prefix("2001:db8::/48"))), None),
     claims(addresses("192.0.2.0/24", "2001:db8::/48"), None), True, True),
    ("more than the family that is listed has", claims(sequence(family(1), family(2, prefix("2001:db8::/48"))), None),
     claims(addresses("2001:db8::/47"), None), True, False),
    ("trimmed to a part", trimmed(addresses("192.0.0.0/16"), numbers(1, 64500)),
     claims(addresses("192.0.2.0/24"), numbers(64500)), True, True),
    ("more than what was trimmed", trimmed(addresses("192.0.0.0/16"), numbers(1, 64500)),
     claims(addresses("192.0.3.0/24"), None), True, False),
    ("trimmed to nothing", as_it_is, trimmed(addresses("10.0.0.0/8"), numbers(1)), True, True),
    ("trimmed twice", trimmed(addresses("192.0.0.0/16"), None), trimmed(addresses("0.0.0.0/0"), None), True, True),
]


def expected(authority, entity):
    if not authority:
        return [OK_ANCHOR, *NO_AUTHORITY]
    return [OK_ANCHOR, *OK_AUTHORITY, *(OK_ENTITY if entity else OVERCLAIMS)]


def certificate_resources(programs):
    """Each certificate of a path has what its issuer has, or a part of it."""
    for name, upper, lower, authority, entity in ROWS:
        anchor, second, third = chain()
        upper(second)
        lower(third)
        octets = anchor.stamp() + second.stamp() + third.stamp()
        yield name, verified(programs, octets), (0, expected(authority, entity))
    inherited = {"addresses": claims(INHERITED_ADDRESSES, None), "numbers": claims(None, INHERITED_NUMBERS)}
    for name, change in inherited.items():
        anchor, _, _ = chain()
        change(anchor)
        yield f"a trust anchor that inherits {name}", verified(programs, anchor.stamp()), (0, ["verify_ta error"])


TABLES = [certificate_resources]
