"""What is verified of each object, octet by octet: of a route origin attestation, a manifest, an attestation of
providers, a certificate and a revocation list that openssl signs, each octet is changed, and the verdict says which
part is wrong; the right issuer, and another key of the same name; payloads within the resources of the signer and
outside of them; a checklist."""
import hashlib
import json
import os

import kinds
import repository
from der import set_of
from fields import OK, UNASKED, UNREVOKED
from issuers import BAD, EARLY, OF_CERTIFICATE, OF_LIST, iso, line, period, valued
from lax import head, places_in
from makers import authority, objects, payloads, records, signing
from openssl import openssl
from programs import octets_of, ran, write

OF_OBJECT, OF_ORIGIN, OF_MANIFEST = "RFC 6488 3: ", "RFC 9582 5: ", "RFC 9286 5.1: "
OF_PROVIDERS = "draft-ietf-sidrops-aspa-profile 4: "
OWN = "good, issuer not checked"


def places_of(octets, value):
    """The places of the contents of the value that begins there."""
    return range(*head(octets, value[0]))


def of_object(octets):
    """Where a signed object has its content, its certificate, its signed attributes and its signature (RFC 5652 5)."""
    def within(value):
        return places_in(octets, value[0])

    _, explicit = within((0,))
    data, = within(explicit)
    _, _, content, certificates, signers = within(data)
    _, outer = within(content)
    inner, = within(outer)
    signer, = within(signers)
    _, _, _, attributes, _, signature = within(signer)
    certificate, = within(certificates)
    return {"content": places_of(octets, inner), "attributes": places_of(octets, attributes),
            "signature": places_of(octets, signature), "certificate": places_of(octets, certificates),
            "certificate's signature": signed_bits(octets, certificate[0])}


def signed_bits(octets, place):
    """The places of the bits of the signature of the signed data at this place (RFC 5280 4.1.1)."""
    *_, signed = places_in(octets, place)
    return places_of(octets, signed)[1:]


# What may be said of a change in each part, after the name of the file; of what is no object any more, another text.
SAID = {
    "content": {OF_OBJECT + "message digest mismatch"},
    "attributes": {OF_OBJECT + BAD, OF_OBJECT + "message digest mismatch", OF_OBJECT + "content type mismatch"},
    "signature": {OF_OBJECT + BAD},
    "certificate": {OF_OBJECT + BAD, OF_OBJECT + "subject key identifier mismatch", OF_CERTIFICATE + BAD},
    "certificate's signature": {OF_CERTIFICATE + BAD},
    "else": {OF_OBJECT + "content type mismatch", OF_OBJECT + "subject key identifier mismatch"},
}
# Where an object that can't be read is wrong.
UNREAD = {"content": "in the content: |in the content's |in the manifest's |in the list of files: |in the AS number: |"
                     "in the prefixes: |in the customer: |in the providers: ",
          "attributes": "in the signed attributes: ", "certificate": "in the signer's certificate",
          "certificate's signature": "in the signer's certificate", "signature": "none"}


def is_none(said):
    """Whether octets are said to be no object, of their kind or of any."""
    return said.startswith(("not a ", "neither DER nor PEM"))


def is_of(part, said):
    """Whether this may be said of a change in the part, before two values that disagree."""
    if said.split("; found ")[0] in SAID[part]:
        return True
    if is_none(said):
        told = said.split(": ", 1)[-1]
        return part == "else" or any(told.startswith(front) for front in UNREAD[part].split("|"))
    resources = (OF_ORIGIN, OF_MANIFEST, OF_PROVIDERS)
    return part == "certificate" and (said.startswith("violates the profile: RFC ") or said.startswith(resources))


def verdicts(program, folder, octets, *words):
    """What is said first of each file of these octets with one octet changed: with --check the verdict, else what is
    wrong, or None."""
    paths = []
    for place in range(len(octets)):
        other = octets[:place] + bytes([octets[place] ^ (1 << place % 8)]) + octets[place + 1:]
        paths.append(write(folder, f"octet{place}", other))
    said = {}
    for start in range(0, len(paths), 500):
        status, output, faults = ran(program, *words, *paths[start:start + 500])
        assert status == 1 and ("--check" not in words or faults == b""), (status, faults)
        for told in (output if "--check" in words else faults).decode().splitlines():
            said.setdefault(*told.removeprefix("rpkicert: ").split(": ", 1))
    return [said.get(path) for path in paths]


def octets_of_objects(program, folder):
    """Each octet of each kind of signed object."""
    place = repository.made(os.path.join(folder, "verified"))
    issuer = os.path.join(place, "rpki.example/repo/ta/ca.cer")
    for name in ("roa.roa", "ca.mft", "aspa.asa"):
        path = os.path.join(place, repository.SIGNED[name][0], name)
        octets = octets_of(path)
        yield f"{name} as it is", ran(program, "--check", "--issuer", issuer, path), (0, line(path, UNREVOKED), b"")
        yield f"{name} by itself", ran(program, "--check", path), (0, line(path, UNASKED), b"")
        where = {at: part for part, places in of_object(octets).items() for at in places}
        said = verdicts(program, folder, octets, "--check", "--issuer", issuer)
        yield f"{name}: so many", len(said) - said.count(None), len(octets)
        for at, told in enumerate(said):
            part = where.get(at, "else")
            yield f"{name}, octet {at} of its {part}: {told}", is_of(part, told), True
        alone = verdicts(program, folder, octets[:max(of_object(octets)["content"]) + 1], "--check")
        yield f"{name}, by itself: a beginning", all(is_none(told) for told in alone), True


def octets_of_others(program, folder):
    """Each octet of a certificate and of a list, with its issuer: the signature tells each change, as is seen without
    --check, which asks for the profile first."""
    place = repository.made(os.path.join(folder, "verified"))
    base = os.path.join(place, "rpki.example/repo")
    rows = [("ta/ca.cer", "ta/ta.cer", OF_CERTIFICATE, "certificate"),
            ("ca/ca.crl", "ta/ca.cer", OF_LIST, "revocation list")]
    for name, issuer, clause, kind in rows:
        octets = octets_of(base, name)
        words = "--issuer", os.path.join(base, issuer)
        seen = ran(program, "--check", *words, os.path.join(base, name))
        yield f"{name} as it is", seen, (0, line(os.path.join(base, name), OK if clause == OF_LIST else UNREVOKED), b"")
        said = verdicts(program, folder, octets, *words)
        yield f"{name}: so many", len(said) - said.count(None), len(octets)
        for at, told in enumerate(said):
            good = told == clause + BAD or at not in signed_bits(octets, 0) and (
                is_none(told) or told.startswith("RFC 7935 2, 3: "))
            yield f"{name}, octet {at}: {told}", good, True
        said = verdicts(program, folder, octets, "--check", *words)
        yield f"{name}: a verdict each", [at for at, told in enumerate(said) if told is None or told.startswith(OK)], []
    octets = octets_of(base, "ta/ta.cer")
    for at, told in enumerate(verdicts(program, folder, octets)):
        # By itself: a change of a name makes it another's certificate, whose issuer isn't asked for.
        if told is not None:
            yield f"an anchor, octet {at}: {told}", told == "RFC 8630 2.3: " + BAD or is_none(told), True
    said = verdicts(program, folder, octets, "--check")
    yield "an anchor: a verdict each", [at for at, told in enumerate(said) if told is None or told.startswith(OK)], []


def keys(program, folder):
    """The right issuer, and another key of the same name: of a certificate, a signed object and a list."""
    place = repository.made(os.path.join(folder, "verified"))
    base = os.path.join(place, "rpki.example/repo")
    other, config = os.path.join(folder, "key.cer"), os.path.join(folder, "key.cnf")
    with open(config, "w", encoding="ascii") as file:
        file.write("[req]\ndistinguished_name = name\nstring_mask = nombstr\n[name]\n[extensions]\n")
        file.write((authority.COMMON + authority.AUTHORITY).format(name="ca"))
    openssl("req", "-x509", "-new", "-newkey", "rsa:2048", "-nodes", "-keyout", os.path.join(folder, "key.key"),
            "-config", config, "-extensions", "extensions", "-subj", "/CN=ca", "-outform", "DER", "-out", other)
    for name, clause in (("ca/roa.roa", OF_CERTIFICATE), ("ca/ca.mft", OF_CERTIFICATE), ("ca/ca.crl", OF_LIST)):
        path = os.path.join(base, name)
        right = os.path.join(base, "ta/ca.cer")
        good = OK if clause == OF_LIST else UNREVOKED
        for issuer, said, signature in ((right, good, "good"), (other, clause + BAD, BAD)):
            seen = ran(program, "--check", "--issuer", issuer, path)
            yield f"{name} by {issuer}", seen, (0 if said == good else 1, line(path, said), b"")
            status, output, _ = ran(program, "--json", "--check", "--issuer", issuer, path)
            told = {"file": path, "signature": signature, "verdict": said}
            yield f"{name} by {issuer} as JSON", (status, json.loads(output)), (0 if said == good else 1, told)
        status, output, _ = ran(program, "--issuer", right, path)
        yield f"{name}, a field", (status, b"Signature: good\n" in output), (0, True)


ORIGIN = payloads.roa(1, payloads.family(4, [("10.0.0.0/8", 24)]))
PROVIDERS = payloads.aspa(5, [6])
V4, BOTH = signing.ADDRESSES + "IPv4:10.0.0.0/8\n", signing.ADDRESSES + "IPv4:10.0.0.0/8, IPv6:2001:db8::/32\n"
AS = signing.NUMBERS + "AS:5\n"
# A type, the resources of the signer's certificate, the content, and what is wrong.
PAYLOADS = [
    ("its prefix", objects.ROA, V4, ORIGIN, None),
    ("a prefix of its", objects.ROA, signing.ADDRESSES + "IPv4:10.0.0.0/7\n", ORIGIN, None),
    ("two blocks that make the prefix", objects.ROA,
     signing.ADDRESSES + "IPv4:10.0.0.0-10.1.0.0, IPv4:10.1.0.1-10.255.255.255\n", ORIGIN, None),
    ("half of the prefix", objects.ROA, signing.ADDRESSES + "IPv4:10.0.0.0/9\n", ORIGIN,
     OF_ORIGIN + "prefix outside of the resources"),
    ("another family", objects.ROA, signing.ADDRESSES + "IPv6:2001:db8::/32\n", ORIGIN,
     OF_ORIGIN + "prefix outside of the resources"),
    ("both families", objects.ROA, BOTH,
     payloads.roa(1, payloads.family(4, [("10.0.0.0/8", None)]), payloads.family(6, [("2001:db8::/32", None)])), None),
    ("one of two outside", objects.ROA, BOTH,
     payloads.roa(1, payloads.family(4, [("10.0.0.0/8", None)]), payloads.family(6, [("2001:db9::/32", None)])),
     OF_ORIGIN + "prefix outside of the resources"),
    ("numbers beside", objects.ROA, V4 + AS, ORIGIN, OF_ORIGIN + "AS numbers beside prefixes"),
    ("inherited addresses", objects.ROA, signing.ADDRESSES + "IPv4:inherit\n", ORIGIN,
     OF_ORIGIN + "inherited addresses"),
    ("inherited addresses of the other family", objects.ROA, signing.ADDRESSES + "IPv4:10.0.0.0/8, IPv6:inherit\n",
     ORIGIN, OF_ORIGIN + "inherited addresses"),
    ("no addresses", objects.ROA, AS, ORIGIN, OF_ORIGIN + "no addresses"),
    ("its number", objects.ASPA, AS, PROVIDERS, None),
    ("a range with the number", objects.ASPA, signing.NUMBERS + "AS:1-9\n", PROVIDERS, None),
    ("another number", objects.ASPA, signing.NUMBERS + "AS:6\n", PROVIDERS,
     OF_PROVIDERS + "customer outside of the resources"),
    ("inherited numbers", objects.ASPA, signing.NUMBERS + "AS:inherit\n", PROVIDERS,
     OF_PROVIDERS + "inherited AS numbers"),
    ("addresses beside", objects.ASPA, V4 + AS, PROVIDERS, OF_PROVIDERS + "addresses beside AS numbers"),
    ("no numbers", objects.ASPA, V4, PROVIDERS, OF_PROVIDERS + "no AS numbers"),
    ("all inherited", objects.MANIFEST, signing.INHERITED, payloads.manifest([]), None),
    ("addresses that are listed", objects.MANIFEST, V4 + signing.NUMBERS + "AS:inherit\n", payloads.manifest([]),
     OF_MANIFEST + "resources that are not inherited"),
    ("numbers that are listed", objects.MANIFEST, signing.ADDRESSES + "IPv4:inherit\n" + AS, payloads.manifest([]),
     OF_MANIFEST + "resources that are not inherited"),
]


def within(program, folder):
    """Payloads within the resources of the signer's certificate and outside of them (RFC 9286 5.1, RFC 9582 5, ASPA
    4)."""
    for text, kind, lines, content, wrong in PAYLOADS:
        octets = signing.Signer(folder, lines).object_of(kind, content)
        seen = ran(program, "--check", "-", octets=octets)
        yield f"within: {text}", seen, (1 if wrong else 0, line("-", wrong or UNASKED), b"")
        status, output, _ = ran(program, "--json", "--check", "-", octets=octets)
        yield f"within: {text}, as JSON", json.loads(output)["signature"], OWN
    many = [(f"10.{number // 256}.{number % 256}.0/24", None) for number in range(10000)]
    octets = signing.object_of(folder, objects.ROA, payloads.roa(1, payloads.family(4, many)))
    yield "10,000 prefixes", ran(program, "--check", "-", octets=octets), (0, line("-", UNASKED), b"")


def order(program, folder):
    """Which of several faults is told: first the profile, the moment, the object, its resources, then the issuer."""
    signer = signing.Signer(folder, signing.ADDRESSES + "IPv4:11.0.0.0/8\n")
    outside = signer.object_of(objects.ROA, ORIGIN)
    issuer = os.path.join(folder, "ta.der")
    content = payloads.roa(2, payloads.family(4, [("10.0.0.0/8", 24)]))
    edited = outside.replace(ORIGIN, content)
    digests = [hashlib.sha256(each).hexdigest().upper() for each in (content, ORIGIN)]
    mismatch = valued(OF_OBJECT + "message digest mismatch", *digests)
    rows = [("of resources and issuer", outside, ["--issuer", issuer], OF_ORIGIN + "prefix outside of the resources"),
            ("of the content and resources", edited, [], mismatch),
            ("of the moment and the content", edited, ["--at", "1999-01-01T00:00:00Z"],
             valued(EARLY, "1999-01-01 00:00:00Z", iso(period(signer.path)[0])))]
    for text, octets, words, said in rows:
        yield text, ran(program, "--check", *words, "-", octets=octets), (1, line("-", said), b"")
    status, output, faults = ran(program, "--check", "--json", "-", octets=edited)
    yield "digests as JSON", (status, json.loads(output), faults), (1, {
        "file": "-", "signature": "not checked", "verdict": OF_OBJECT + "message digest mismatch", "found": digests[0],
        "expected": digests[1]}, b"")
    seen = ran(program, "--check", "--profile", "ca", "--at", "1999-01-01T00:00:00Z", "-", octets=edited)
    yield "of the profile and the moment", (seen[0], seen[1].startswith(b"-: violates the profile: ")), (1, True)
    status, output, faults = ran(program, "-", octets=edited)
    yield "a fault, shown", (status, output.startswith(b"File: -\n"), b"\nASID: 2\n" in output, faults), (
        1, True, True, b"rpkicert: " + line("-", mismatch))
    signer = signing.Signer(folder, V4)
    members = [objects.of_type(objects.MANIFEST), objects.of_digest(hashlib.sha256(ORIGIN).digest())]
    other = objects.signed_object(objects.ROA, ORIGIN, signer.certificate, signer.identifier, members,
                                  signer.key.sign(set_of(*members)))
    types = [f"1.2.840.113549.1.9.16.1.{last}" for last in (24, 26)]  # RFC 9582 3, RFC 9286 4.1
    yield "another type", ran(program, "--check", "-", octets=other), (
        1, line("-", valued(OF_OBJECT + "content type mismatch", *types)), b"")


def checklists(program, folder):
    """The certificate of a checklist has no subject information access (RFC 9323 2), that of other contents has."""
    lines, other = V4, kinds.OTHER_TYPE
    rows = [("a checklist", objects.CHECKLIST, "", None),
            ("a checklist in a place", objects.CHECKLIST, signing.PLACE, 1),
            ("another content", other, signing.PLACE, None), ("another content without a place", other, "", 1)]
    for text, kind, place, wrong in rows:
        content = records.checklist() if kind == objects.CHECKLIST else b"content"
        octets = signing.Signer(folder, lines, place).object_of(kind, content)
        status, output, faults = ran(program, "--check", "-", octets=octets)
        good = output.startswith(b"-: violates the profile: RFC ") if wrong else output == line("-", UNASKED)
        yield text, (status, good, faults), (1 if wrong else 0, True, b"")


def lax(program, folder):
    """The signer's names are checked against the profile, unless it is asked for with --lax."""
    octets = signing.Signer(folder, V4, signing.PLACE, "utf8only").object_of(objects.ROA, ORIGIN)
    status, output, _ = ran(program, "--check", "-", octets=octets)
    due = line("-", "violates the profile: RFC 6487 4.5: subject: invalid name")
    yield "a signer's name", (status, output), (1, due)
    for words, good in (["--profile", "ee"], False), (["--profile", "ee", "--lax"], True):
        status, output, _ = ran(program, "--check", *words, "-", octets=octets)
        yield f"a signer's name {words}", (status, output == line("-", UNASKED)), (0 if good else 1, good)


TABLES = [keys, within, order, checklists, lax, octets_of_objects, octets_of_others]
