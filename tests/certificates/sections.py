"""What is said of a certificate whose name or extension breaks a rule of its profile: the section of the rule, which
name or extension it is, and what is wrong with it (RFC 6487 4.4 to 4.8.9, RFC 8209 3.1)."""
from lax import values_of
from makers import certificate as made, x509

# The sections, and what each is of.
ISSUER, SUBJECT = "RFC 6487 4.4: issuer: ", "RFC 6487 4.5: subject: "
ROUTER_SUBJECT = "RFC 8209 3.1.1: subject: "
CONSTRAINTS = "RFC 6487 4.8.1: basic constraints: "
SUBJECT_KEY = "RFC 6487 4.8.2: subject key identifier: "
AUTHORITY_KEY = "RFC 6487 4.8.3: authority key identifier: "
USAGE = "RFC 6487 4.8.4: key usage: "
PURPOSES = "RFC 8209 3.1.3.2: extended key usage: "
POINTS = "RFC 6487 4.8.6: CRL distribution points: "
AUTHORITY_ACCESS = "RFC 6487 4.8.7: authority information access: "
PUBLICATION = "RFC 6487 4.8.8.1: subject information access: "
SIGNED_OBJECT = "RFC 6487 4.8.8.2: subject information access: "
POLICIES = "RFC 6487 4.8.9: certificate policies: "
# Of the variants that break a rule on a name or an extension, how their names begin, and the section.
SECTIONS = [
    ("basic constraints, not critical", CONSTRAINTS), ("empty basic constraints", CONSTRAINTS),
    ("a path length", CONSTRAINTS), ("FALSE, spelled", CONSTRAINTS),
    ("an authority key identifier with a serial number", AUTHORITY_KEY),
    ("a trust anchor with a critical authority key identifier", AUTHORITY_KEY),
    ("a trust anchor with a malformed authority key identifier", AUTHORITY_KEY),
    ("the issuer by ", AUTHORITY_ACCESS), ("a point beyond ASCII", POINTS),
    ("a repository beside a name of tag 9", PUBLICATION), ("an end entity beside a name of tag 9", SIGNED_OBJECT),
    ("a common name of 65 letters of UTF-8", SUBJECT), ("a router's name of IA5", ROUTER_SUBJECT),
    ("points: ", POINTS), ("ways to the issuer: ", AUTHORITY_ACCESS), ("access to an authority: ", PUBLICATION),
    ("access to an object: ", SIGNED_OBJECT), ("purposes: ", PURPOSES),
]


def violated(text, expected):
    """What is said of a variant that violates a profile: the section of the rule, and what is wrong."""
    if expected.startswith("RFC "):
        return f"violates the profile: {expected}"
    section, = [section for front, section in SECTIONS if text.startswith(front)]
    return f"violates the profile: {section}{expected}"


# Extensions that are malformed, or not as critical as they have to be, and names; the profile, and what is said.
CRITICAL, WRONG = "extension is not as critical as it has to be", b"\5\0"
BY_UTF8 = (x509.COMMON, x509.UTF8, b"a")


def of_issuer(name):
    """A change of the issuer's name."""
    return lambda it: it.tbs.inside.__setitem__(3, values_of(x509.of_names(name))[0])


ROWS = [
    ("an issuer of UTF-8", of_issuer(BY_UTF8), "ca", ISSUER + "invalid name"),
    ("a subject of UTF-8", made.subject(BY_UTF8), "ca", SUBJECT + "invalid name"),
    ("a subject of two names", made.subject((x509.COMMON, x509.PRINTABLE, b"a"), (x509.COMMON, x509.PRINTABLE, b"b")),
     "ca", SUBJECT + "multiple common names"),
    ("a subject without a common name", made.subject((x509.SERIAL, x509.PRINTABLE, b"1")), "ca",
     SUBJECT + "missing common name"),
    ("constraints", made.put(x509.CONSTRAINTS, WRONG), "ca", CONSTRAINTS + "unexpected value"),
    ("a critical subject key identifier", made.turn(x509.SUBJECT_KEY), "ca", SUBJECT_KEY + CRITICAL),
    ("a subject key identifier", made.put(x509.SUBJECT_KEY, WRONG), "ca", SUBJECT_KEY + "unexpected value"),
    ("a critical authority key identifier", made.turn(x509.AUTHORITY_KEY), "ca", AUTHORITY_KEY + CRITICAL),
    ("uses that aren't critical", made.turn(x509.USAGE), "ca", USAGE + CRITICAL),
    ("uses", made.put(x509.USAGE, WRONG), "ca", USAGE + "unexpected value"),
    ("uses of an end entity", made.both(made.end_entity(made.SIGNED), made.put(x509.USAGE, WRONG)), "ee",
     USAGE + "unexpected value"),
    ("a router's purposes", made.both(made.router, made.put(x509.PURPOSES, WRONG)), "router",
     PURPOSES + "unexpected value"),
    ("a router's critical purposes", made.both(made.router, made.turn(x509.PURPOSES)), "router", PURPOSES + CRITICAL),
    ("critical points", made.turn(x509.REVOCATION), "ca", POINTS + CRITICAL),
    ("critical access to the issuer", made.turn(x509.AUTHORITY_ACCESS), "ca", AUTHORITY_ACCESS + CRITICAL),
    ("critical access to the subject", made.turn(x509.SUBJECT_ACCESS), "ca", PUBLICATION + CRITICAL),
    ("critical access to the object", made.both(made.end_entity(made.SIGNED), made.turn(x509.SUBJECT_ACCESS)), "ee",
     SIGNED_OBJECT + CRITICAL),
    ("policies that aren't critical", made.turn(x509.POLICIES), "ca", POLICIES + CRITICAL),
    ("policies", made.put(x509.POLICIES, WRONG), "ca", POLICIES + "unexpected value"),
]
