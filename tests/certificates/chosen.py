"""Certificates whose profile is that of what they say that they are: trust anchors, authorities, end entities with and
without subject information access, and routers, which openssl makes, and variants of each that break rules of that
profile; signed objects, whose certificates keep theirs; and what has none (RFC 6487 4.8, RFC 8209 3.1.3, RFC 9323 2).
For a verdict that is so where no profile is named, too."""
import itertools
import json
import os

import kinds
import repository
import sections
from fields import PROFILES, UNASKED, UNREVOKED, verdict
from issuers import line
from makers import authority, objects, payloads, records, signing
from openssl import certify, openssl
from programs import ran, write
from variants import certificates

ISSUED, ENTITY = authority.ISSUED.format(issuer="ca"), authority.COMMON + authority.ENTITY
DETACHED, ROUTER = authority.COMMON + authority.DETACHED, authority.COMMON + authority.ROUTER
ANCHOR = (authority.COMMON + authority.AUTHORITY).format(name="ta")
AUTHORITY = (authority.COMMON + authority.AUTHORITY + authority.ISSUED).format(name="ca", issuer="ta")
WEB, OF_ROUTER = "extendedKeyUsage = serverAuth\n", "extendedKeyUsage = 1.3.6.1.5.5.7.3.30\n"
LIST = "crlDistributionPoints = URI:rsync://rpki.example.net/ta/ta.crl\n"
CONSTRAINTS, UNCONSTRAINED = "basicConstraints = critical, CA:TRUE", "basicConstraints = critical, CA:FALSE"
OTHER_PURPOSE = "RFC 6487 4.8.5: extended key usage of a key of the RPKI"
NO_ACCESS = "RFC 8209 3.1.3.3, RFC 9323 2: subject information access"
# What a certificate is, its request, its issuer or none for its own key, its extensions, and how the rules that it
# breaks of its own profile begin.
ROWS = [
    ("an anchor", "ta", None, ANCHOR),
    ("an anchor that names its own key", "ta", None, ANCHOR + "authorityKeyIdentifier = keyid:always\n"),
    ("an anchor with a revocation list", "ta", None, ANCHOR + LIST,
     "RFC 6487 4.8.6: CRL distribution points of a trust anchor"),
    ("an authority", "ca", "ta", AUTHORITY),
    ("an authority without a revocation list", "ca", "ta",
     "".join(it + "\n" for it in AUTHORITY.splitlines() if "crlDist" not in it), certificates.NO_LIST),
    ("an authority for a router", "ca", "ta", AUTHORITY + OF_ROUTER, OTHER_PURPOSE),
    ("an authority with a path length", "ca", "ta", AUTHORITY.replace(CONSTRAINTS, CONSTRAINTS + ", pathlen:1"),
     sections.CONSTRAINTS),
    ("constraints and no authority", "ca", "ta", AUTHORITY.replace(CONSTRAINTS, UNCONSTRAINED), sections.CONSTRAINTS),
    ("an end entity", "ee", "ca", ENTITY + ISSUED),
    ("an end entity for the web", "ee", "ca", ENTITY + ISSUED + WEB, OTHER_PURPOSE),
    ("an end entity of a repository", "ee", "ca",
     DETACHED + ISSUED + "subjectInfoAccess = caRepository;URI:rsync://rpki.example.net/ca/\n", certificates.NO_OBJECT,
     certificates.OTHER_METHOD),
    ("without access", "detached", "ca", DETACHED + ISSUED),
    ("without access, for the web", "detached", "ca", DETACHED + ISSUED + WEB, OTHER_PURPOSE),
    ("a router", "router", "ca", ROUTER + ISSUED),
    ("a router with an object", "router", "ca", ROUTER + ISSUED + signing.PLACE, NO_ACCESS),
    ("a router with a key of RSA", "ca", "ca", ROUTER + ISSUED, certificates.NO_POINT),
]


# The words that ask for a verdict by a certificate's own profile.
AUTO = [["--check"], ["--check", "--profile", "auto"]]


def kinds_of_certificates(program, folder):
    """Each kind, and of each a variant that breaks a rule of that profile alone, as lines and as JSON."""
    for words, name in itertools.product(AUTO, PROFILES):
        path = authority.paths(folder)[name] + ".der"
        yield f"chosen: {name} {words}", ran(program, *words, path), (0, line(path, verdict(path)), b"")
    for number, (text, request, issuer, lines, *rules) in enumerate(ROWS):
        config = write(folder, "chosen.cnf", b"[extensions]\n" + lines.encode())
        path = os.path.join(folder, f"chosen{number}.der")
        certify(os.path.join(folder, request), issuer and os.path.join(folder, issuer), "5", "-outform", "DER", "-out",
                path, config=config)
        said = [f"violates the profile: {rule}" for rule in rules] or [UNASKED if issuer else "OK"]
        for words in AUTO:
            status, output, faults = ran(program, *words, path)
            lines_told = output.decode().splitlines()
            seen = [it[:len(f"{path}: {due}")] for it, due in zip(lines_told, said)]
            yield f"chosen: {text} {words}", (status, len(lines_told), seen, faults), (
                1 if rules else 0, len(said), [f"{path}: {due}" for due in said], b"")
            status, output, faults = ran(program, "--json", *words, path)
            broken = [it["rule"] for it in json.loads(output).get("violations", [])]
            seen = [it[:len(due)] for it, due in zip(broken, rules)]
            yield f"chosen: {text} {words}, as JSON", (status, len(broken), seen, faults), (
                1 if rules else 0, len(rules), rules, b"")
        yield f"chosen: {text}, shown", ran(program, path)[0::2], (0, b"")


def next_key(program, folder):
    """A certificate of an anchor's name by the anchor's key, for another key: it is self-issued, and no anchor, since
    its authority key identifier isn't that of its own key."""
    anchor, path = os.path.join(folder, "ta"), os.path.join(folder, "next")
    openssl("genpkey", "-algorithm", "RSA", "-out", path + ".key")
    openssl("req", "-new", "-config", anchor + ".cnf", "-key", path + ".key", "-subj", "/CN=anchor", "-out",
            path + ".csr")
    config = write(folder, "chosen.cnf", b"[extensions]\n" + AUTHORITY.encode())
    certify(path, anchor, "6", "-outform", "DER", "-out", path + ".der", config=config)
    seen = ran(program, "--check", "--profile", "auto", "--issuer", anchor + ".der", path + ".der")
    yield "chosen: the next key of an anchor", seen, (0, line(path + ".der", UNREVOKED), b"")


def names(program, folder):
    """Names are held to the profile that is chosen, but with --lax."""
    text = authority.paths(folder)["ca"]
    head = "[req]\nprompt = no\nstring_mask = utf8only\ndistinguished_name = name\n[name]\n[extensions]\n"
    config = write(folder, "chosen.cnf", (head + AUTHORITY).encode())
    path = os.path.join(folder, "names")
    openssl("req", "-new", "-config", config, "-key", text + ".key", "-subj", "/CN=authority", "-out", path + ".csr")
    certify(path, os.path.join(folder, "ta"), "7", "-outform", "DER", "-out", path + ".der", config=config)
    wrong = f"violates the profile: {sections.SUBJECT}invalid name"
    for auto, (words, said) in itertools.product(AUTO, [([], wrong), (["--lax"], UNASKED)]):
        seen = ran(program, *auto, *words, path + ".der")
        yield f"chosen: a name of UTF-8 {auto} {words}", seen, (0 if words else 1, line(path + ".der", said), b"")


def objects_and_others(program, folder):
    """A signed object's certificate stays that of an end entity, a checklist's that of one without access; a revocation
    list has no profile, and is well; no more has a certificate of another algorithm, which isn't."""
    origin = payloads.roa(1, payloads.family(4, [("10.0.0.0/8", 24)]))
    lines = signing.ADDRESSES + "IPv4:10.0.0.0/8\n"
    constrained = lines + "basicConstraints = critical, CA:TRUE\n"
    end = "RFC 6487 4.8.1: basic constraints of an end entity"
    rows = [("an origin", objects.ROA, signing.PLACE, lines, origin, None),
            ("an origin without a place", objects.ROA, "", lines, origin, certificates.NO_OBJECT),
            ("an origin of an authority", objects.ROA, signing.PLACE, constrained, origin, end),
            ("a checklist", objects.CHECKLIST, "", lines, records.checklist(), None),
            ("a checklist in a place", objects.CHECKLIST, signing.PLACE, lines, records.checklist(), NO_ACCESS),
            ("another content", kinds.OTHER_TYPE, signing.PLACE, lines, b"content", None),
            ("a manifest", objects.MANIFEST, signing.PLACE, signing.INHERITED, payloads.manifest([]), None)]
    for text, kind, place, resources, content, rule in rows:
        octets = signing.Signer(folder, resources, place).object_of(kind, content)
        for words in AUTO:
            status, output, faults = ran(program, *words, "-", octets=octets)
            told = line("-", f"violates the profile: {rule}" if rule else UNASKED)
            first = output[:output.find(b"\n") + 1]
            yield f"chosen: {text} {words}", (status, first, faults), (1 if rule else 0, told, b"")
    place = repository.made(os.path.join(folder, "chosen"))
    path = os.path.join(place, "rpki.example/repo/ca/ca.crl")
    other = os.path.join(folder, "other")
    openssl("req", "-x509", "-newkey", "ed25519", "-nodes", "-keyout", other + ".key", "-subj", "/CN=other", "-outform",
            "DER", "-out", other + ".der")
    for words in AUTO:
        yield f"chosen: a list {words}", ran(program, *words, path), (0, line(path, UNASKED), b"")
        yield f"chosen: another algorithm {words}", ran(program, *words, other + ".der"), (
            1, line(other + ".der", "signed by ED25519, which the RPKI doesn't use"), b"")
    _, output, faults = ran(program, "--profile", "auto", path)
    yield "chosen: a list, shown", (output, faults), (ran(program, path).output, b"")


TABLES = [kinds_of_certificates, next_key, names, objects_and_others]
