"""The rules of a profile that a certificate breaks, each by its section: of the variants of tests/python/variants the
first, and of changes that break a rule each all of them."""
import functools
import itertools
import json
import os

import sections
from fields import UNASKED
from makers import certificate as made, x509
from openssl import openssl
from programs import ran
from values import changed
from variants import certificates, names_and_places
from variants.certificates import VARIANTS

# The words of hostile_calls, and the profile that is asked for.
INSPECTIONS = {"inspect_ta": "ta", "inspect_ca": "ca", "inspect_ee": "ee", "inspect_detached_ee": "detached",
               "inspect_router": "router"}


def of_profile(profile):
    """What is said of a certificate of the tests of hostile use that has the profile: nobody has signed it, as is seen
    where it is self-issued."""
    return "RFC 8630 2.3: bad signature" if profile == "ta" else UNASKED


def first_of(seen):
    """What is seen of a run, with the first line alone of its output."""
    return seen._replace(output=seen.output[:seen.output.find(b"\n") + 1])


def violations(program, folder):
    """What is said of a certificate that violates a profile is the rule that it breaks first, by its section."""
    for text, change, expected in VARIANTS:
        for word, profile in INSPECTIONS.items():
            if word in expected and "rejected" not in expected:
                path = changed(folder, change)
                good = expected[word] == "ok"
                said = of_profile(profile) if good else sections.violated(text, expected[word])
                good = good and profile != "ta"
                seen = first_of(ran(program, "--check", "--profile", profile, path))
                yield f"{text} as {profile}", seen, (0 if good else 1, f"{path}: {said}\n".encode(), b"")


def sectioned(program, folder):
    """What is said of a name, or of an extension, that isn't of the profile begins with its section."""
    for text, change, profile, said in sections.ROWS:
        path = changed(folder, change)
        line = f"{path}: violates the profile: {said}\n".encode()
        seen = first_of(ran(program, "--check", "--profile", profile, path))
        yield f"{text}, by its section", seen, (1, line, b"")
        seen = ran(program, "--profile", profile, path)
        yield f"{text}, by its section, shown", seen, (1, ran(program, path).output, b"rpkicert: " + line)


# The errors of a name that is not of its profile (RFC 6487 4.4, RFC 8209 3.1.1, RFC 5280 A.1), which --lax doesn't look
# for.
OF_NAMES = {"missing common name", "multiple common names", "multiple serial numbers", "multiple organization names",
            "invalid name", "unpermitted string variant in common name", names_and_places.ISSUER_SIZE,
            names_and_places.SUBJECT_SIZE, names_and_places.ROUTER_NUMBER}


def lax(program, folder):
    """A certificate whose names alone are not of the profile has it with --lax; one that breaks another rule hasn't."""
    for text, change, expected in VARIANTS:
        for word, profile in INSPECTIONS.items():
            if word in expected and "rejected" not in expected:
                path = changed(folder, change)
                good = expected[word] == "ok" or expected[word] in OF_NAMES
                said = of_profile(profile) if good else sections.violated(text, expected[word])
                good = good and profile != "ta"
                seen = first_of(ran(program, "--check", "--profile", profile, "--lax", path))
                yield f"{text} as {profile}, lax", seen, (0 if good else 1, f"{path}: {said}\n".encode(), b"")


NO_POLICY = "RFC 6487 4.8.9: missing certificate policies"
NO_RESOURCES = "RFC 6487 4.8.10, 4.8.11: missing resources, or ones that are not critical"
# Changes of an authority's certificate that break one rule each, in the order of the rules, and what is said of it.
SINGLE = [
    (made.serial(b"\x00"), "RFC 5280 4.1.2.2: serial number is 0"),
    (made.add(x509.UNKNOWN, b"", critical=True), "RFC 5280 4.2: unknown critical extension"),
    (sections.of_issuer(sections.BY_UTF8), sections.ISSUER + "invalid name"),
    (made.turn(x509.SUBJECT_KEY), sections.SUBJECT_KEY + sections.CRITICAL),
    # Without the policy there is no version either (RFC 8360 4.2), of which nothing more is said.
    (made.remove(x509.POLICIES), NO_POLICY), (made.remove(x509.ADDRESSES, x509.NUMBERS), NO_RESOURCES),
    (made.subject(sections.BY_UTF8), sections.SUBJECT + "invalid name"),
    (made.put(x509.CONSTRAINTS, sections.WRONG), sections.CONSTRAINTS + "unexpected value"),
    (made.turn(x509.USAGE), sections.USAGE + sections.CRITICAL),
    (made.turn(x509.AUTHORITY_KEY), sections.AUTHORITY_KEY + sections.CRITICAL),
    (made.remove(x509.REVOCATION), certificates.NO_LIST),
    (made.turn(x509.AUTHORITY_ACCESS), sections.AUTHORITY_ACCESS + sections.CRITICAL),
]
# What is said of a certificate of the web, which its own key has signed; worked by hand from RFC 6487 4.
OF_WEB = [
    sections.ISSUER + "invalid name", NO_POLICY, NO_RESOURCES, sections.SUBJECT + "invalid name",
    "RFC 6487 4.8.5: extended key usage of a key of the RPKI", certificates.OTHER_USAGE,
    "RFC 6487 4.8.8.1: missing URI of the repository", "RFC 6487 4.8.8.1: missing URI of the manifest",
    "RFC 6487 4.8.8.1, RFC 9286 2: manifest is not in the repository",
    "RFC 8182 3.2: notifications without an https URI",
]
WEB = ["keyUsage=critical,digitalSignature", "extendedKeyUsage=serverAuth", "subjectAltName=DNS:www.example.org"]
# An authority's certificate under other profiles, and all that is said of it; worked by hand from RFC 6487 4, RFC 8209
# 3.1 and RFC 9323 2.
NO_ACCESS = "RFC 8209 3.1.3.3, RFC 9323 2: subject information access"
OTHERS = {
    "ta": ["RFC 6487 4.8.6: CRL distribution points of a trust anchor",
           "RFC 6487 4.8.7: authority information access of a trust anchor", certificates.NOT_SELF_ISSUED,
           certificates.NOT_OWN],
    "ee": ["RFC 6487 4.8.1: basic constraints of an end entity", certificates.OTHER_USAGE, certificates.NO_OBJECT,
           certificates.OTHER_METHOD],
    "detached": ["RFC 6487 4.8.1: basic constraints of an end entity", certificates.OTHER_USAGE, NO_ACCESS],
    "router": [certificates.NO_POINT, "RFC 6487 4.8.1: basic constraints of an end entity", certificates.OTHER_USAGE,
               "RFC 8209 3.1.3.4, 3.1.3.5: missing numbers, or addresses are there", NO_ACCESS,
               "RFC 8209 3.1.3.2: missing purpose of a router"],
}


def of_all(program, profile, path, rules, *words):
    """What is seen of a certificate that breaks these rules, as lines and as JSON, and what has to be."""
    lines = "".join(f"{path}: violates the profile: {rule}\n" for rule in rules).encode()
    status, output, faults = ran(program, "--json", "--check", "--profile", profile, *words, path)
    yield "", ran(program, "--check", "--profile", profile, *words, path), (1, lines, b"")
    yield " as JSON", (status, json.loads(output), faults), (1, {
        "file": path, "signature": "not checked", "verdict": f"violates the profile: {rules[0]}",
        "violations": [{"rule": rule} for rule in rules]}, b"")


def all_rules(program, folder):
    """Of a certificate that breaks several rules each is told, once, in the order of the profile."""
    groups = [*itertools.combinations(SINGLE, 1), *itertools.combinations(SINGLE, 2), SINGLE]
    for group in groups:
        rules = [rule for _, rule in group]
        path = changed(folder, functools.reduce(made.both, (change for change, _ in group)))
        for form, seen, wanted in of_all(program, "ca", path, rules):
            yield f"{rules}{form}", seen, wanted
    for profile, rules in OTHERS.items():
        path = changed(folder, lambda it: None)
        for form, seen, wanted in of_all(program, profile, path, rules, "--lax"):
            yield f"an authority as {profile}{form}", seen, wanted


def of_the_web(program, folder):
    """Of a certificate of the web each rule that it breaks is told, and none that only follows from another."""
    path = os.path.join(folder, "web.der")
    openssl("req", "-x509", "-newkey", "rsa:2048", "-nodes", "-keyout", os.path.join(folder, "web.key"), "-subj",
            "/C=DE/O=Example/CN=www.example.org", *[word for line in WEB for word in ("-addext", line)], "-outform",
            "DER", "-out", path)
    for form, seen, wanted in of_all(program, "auto", path, OF_WEB):
        yield f"of the web{form}", seen, wanted


TABLES = [violations, sectioned, lax, all_rules, of_the_web]
