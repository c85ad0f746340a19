"""Lists, signed objects and contents that use or break one rule each, as rpkicert judges them, and objects of many
sizes."""
import hashlib
import json

from der import bits, oid, sequence, tlv, unsigned
from fields import UNASKED
from files import OTHER
from judges import contents as judged_contents, lists as judged_lists, objects as judged_objects
from makers import payloads, signing
from makers.certificate import CERTIFICATE
from makers.lists import entry, listed
from makers.objects import ASPA, MANIFEST, ROA
from makers.payloads import NEXT, THIS
from programs import ran
from strict import status_of
from variants import lists, objects

# What is said of an object that is read, whose certificate is that of an authority (RFC 6487 4.8.1).
OF_AUTHORITY = "violates the profile: RFC 6487 4.8.1: basic constraints of an end entity"

KINDS = {"list": "revocation list", "manifest": "manifest", "roa": "route origin attestation",
         "aspa": "provider attestation", "object": "signed object", "certificate": "certificate"}
TYPES = {MANIFEST: "manifest", ROA: "roa", ASPA: "aspa"}


def inside(octets):
    """What is after identifier and length at the front (X.690 8.1)."""
    if len(octets) < 2:
        return b""
    return octets[2:] if octets[1] < 128 else octets[2:][octets[1] - 128:]


def kind(octets):
    """The kind of an object by what stands at its front: RFC 5652 3 and 5.1, RFC 5280 4.1 and 5.1."""
    if octets[:1] != b"\x30":
        return "certificate"
    contents = inside(octets)
    if contents[:1] == b"\x06":
        data = inside(inside(contents[2 + contents[1]:]))
        for _ in range(2):
            data = data[2 + data[1]:] if len(data) > 1 else b""
        content = inside(data)
        return TYPES.get(content[2:2 + content[1]] if content[:2] == b"\x06\x0b" else None, "object")
    return "list" if contents[:1] == b"\x30" and inside(contents)[:3] == b"\x02\x01\x01" else "certificate"


# What a person reads of a part, by the number that include/rpki.h gives it.
PARTS = {64: "", 65: "in what is signed: ", 66: "in its algorithm: ", 67: "in its signature: ",
         68: "in what is signed: ", 69: "in its version: ", 71: "in the algorithm that is signed: ",
         72: "in its issuer: ", 76: "in its extensions: ", 79: "in its algorithms: ", 120: "in this update: ",
         121: "in the next update: ", 122: "in its entries: ", 123: "", 124: "in its type: ",
         125: "in the signed data: ", 126: "in the version of the signed data: ", 127: "in the digest algorithms: ",
         128: "in the content: ", 129: "in the certificates: ", 130: "in the signers: ", 131: "in the signer: ",
         132: "in the signer's version: ", 133: "in the signer's identifier: ",
         134: "in the signer's digest algorithm: ", 135: "in the signed attributes: ",
         136: "in the algorithm of the signature: ", 137: "in the signature: ", 138: "in the content: ",
         139: "in the manifest's number: ", 140: "in the manifest's this update: ",
         141: "in the manifest's next update: ", 142: "in the manifest's algorithm: ", 143: "in the list of files: ",
         144: "in the manifest's times: ", 145: "in the content: ", 146: "in the AS number: ", 147: "in the prefixes: ",
         148: "in the content: ", 149: "in the content's version: ", 150: "in the customer: ",
         151: "in the providers: "}


def part(octets):
    """What a person reads of the malformed part of octets that are no certificate."""
    of_kind = kind(octets)
    if of_kind == "list":
        return PARTS.get(status_of(judged_lists.read, octets)[0], "")
    status, before = status_of(judged_objects.front, octets)
    if status:
        return PARTS[status]
    certificates = [CERTIFICATE, *(signer.certificate for signer in signing.SIGNERS.values())]
    if before.certificates.octets not in certificates:
        return "in the signer's certificate: "
    status, _ = status_of(judged_objects.signer, before.following, False)
    if status:
        return PARTS[status]
    content = before.content.octets
    calls = {"manifest": (judged_contents.manifest, content), "roa": (judged_contents.roa, content, False),
             "aspa": (judged_contents.aspa, content)}
    return PARTS.get(status_of(*calls[of_kind])[0], "") if of_kind in calls else ""


def beginning(octets):
    """How what is said of octets begins that are none, by their front."""
    if octets[:1] == b"\x30":
        return f"not a {KINDS[kind(octets)]}: {'' if kind(octets) == 'certificate' else part(octets)}"
    return OTHER if octets else "empty"


def said_of_octets(program, text, octets, expected):
    """What is said of octets: that all is well, or that they are no such object, and why."""
    status, output, faults = ran(program, "--check", "-", octets=octets)
    if expected is None:
        start = f"-: {beginning(octets)}".encode()
        return text, (status, output.startswith(start), faults), (1, True, b"")
    if expected[0].startswith("rejected "):
        said = f"not a {KINDS[kind(octets)]}: {part(octets)}{expected[0][len('rejected '):]}"
        return text, (status, output.decode(), faults), (1, f"-: {said}\n", b"")
    if kind(octets) == "list":
        return text, (status, output, faults), (0, f"-: {UNASKED}\n".encode(), b"")
    first = output[:output.find(b"\n") + 1]
    return text, (status, first, faults), (1, f"-: {OF_AUTHORITY}\n".encode(), b"")


def is_like_a_list(octets):
    return kind(octets) == "list"


def variants(program, folder):
    """Lists and objects that use or break one rule each; what is told of an object of another kind isn't compared."""
    for text, octets, expected in lists.ACCEPTED + lists.REFUSED:
        yield said_of_octets(program, f"a list: {text}", octets, expected if is_like_a_list(octets) else None)
    for text, octets, expected, _ in objects.ACCEPTED:
        yield said_of_octets(program, f"an object: {text}", with_type(octets), expected)
    for text, octets, expected in objects.REFUSED:
        octets = with_type(octets)
        yield said_of_octets(program, f"an object: {text}", octets, expected if kind(octets) != "certificate" else None)


def with_type(octets):
    """The same object with another type of content, whose octets may be any."""
    return octets.replace(tlv(6, ROA), tlv(6, OTHER_TYPE)).replace(tlv(6, MANIFEST), tlv(6, OTHER_TYPE))


OTHER_TYPE = oid("1.2.840.113549.1.9.16.1.99")


def entries(*names, digest=hashlib.sha256(b"").digest()):
    return [sequence(tlv(22, name), bits(digest)) for name in names]


GOOD, FILES = None, payloads.manifest
CONTENTS = [
    ("a manifest", MANIFEST, FILES(entries(b"a.roa")), GOOD),
    ("a manifest of no files", MANIFEST, FILES([]), GOOD),
    ("a file twice", MANIFEST, FILES(entries(b"a.roa", b"a.roa")), "file listed twice"),
    ("a digest of 31 octets", MANIFEST, FILES(entries(b"a.roa", digest=bytes(31))), "digest of another size"),
    ("a digest of 33 octets", MANIFEST, FILES(entries(b"a.roa", digest=bytes(33))), "digest of another size"),
    ("a name with a slash", MANIFEST, FILES(entries(b"a/b.roa")), "malformed name of a file"),
    ("a name without an extension", MANIFEST, FILES(entries(b"aroa")), "malformed name of a file"),
    ("an extension of four letters", MANIFEST, FILES(entries(b"a.aroa")), "malformed name of a file"),
    ("times in reverse", MANIFEST, FILES([], this=NEXT, until=THIS),
     "next update not after this update"),
    ("a moment", MANIFEST, FILES([], until=THIS), "next update not after this update"),
    ("a manifest and a value", MANIFEST, FILES([]) + tlv(5, b""), "trailing data"),
    ("a spelled version", MANIFEST, sequence(tlv(0xA0, unsigned(0)), FILES([])[2:]), "unexpected value"),
    ("a route origin", ROA, payloads.roa(1, payloads.family(4, [("10.0.0.0/8", None)])), GOOD),
    ("IPv6 first", ROA,
     payloads.roa(1, payloads.family(6, [("::/0", None)]), payloads.family(4, [("10.0.0.0/8", None)])), GOOD),
    ("maxLength 33", ROA, payloads.roa(1, payloads.family(4, [("10.0.0.0/8", 33)])),
     "invalid maximum length of prefixes"),
    ("maxLength 129", ROA, payloads.roa(1, payloads.family(6, [("::/0", 129)])), "invalid maximum length of prefixes"),
    ("maxLength below the prefix", ROA, payloads.roa(1, payloads.family(4, [("10.0.0.0/8", 7)])),
     "invalid maximum length of prefixes"),
    ("a family of no prefixes", ROA, payloads.roa(1, payloads.family(4, [])), ""),
    ("no family", ROA, payloads.roa(1), ""),
    ("a family twice", ROA, payloads.roa(1, *[payloads.family(4, [("10.0.0.0/8", None)])] * 2), ""),
    ("AS 2^32", ROA, payloads.roa(2 ** 32, payloads.family(4, [("10.0.0.0/8", None)])), ""),
    ("providers", ASPA, payloads.aspa(1, [2, 3]), GOOD),
    ("no provider", ASPA, payloads.aspa(1, []), "invalid providers"),
    ("the customer among them", ASPA, payloads.aspa(2, [1, 2]), "invalid providers"),
    ("providers that don't ascend", ASPA, payloads.aspa(1, [3, 2]), "invalid providers"),
    ("a provider twice", ASPA, payloads.aspa(1, [2, 2]), "invalid providers"),
    ("a manifest as a route origin", ROA, FILES([]), ""),
    ("a route origin as a manifest", MANIFEST, payloads.roa(1, payloads.family(4, [("10.0.0.0/8", None)])), ""),
    ("anything in another content", OTHER_TYPE, b"anything", GOOD),
]


def contents(program, folder):
    """Contents of signed objects that use or break one rule each (RFC 9286 4.2, RFC 9582 4, ASPA)."""
    for text, of_type, content, wrong in CONTENTS:
        octets = signing.object_of(folder, of_type, content)
        status, output, faults = ran(program, "--check", "-", octets=octets)
        if wrong is GOOD:
            yield f"a content: {text}", (status, output, faults), (0, f"-: {UNASKED}\n".encode(), b"")
        else:
            said = f"-: not a {KINDS[TYPES.get(of_type, 'object')]}: {part(octets)}{wrong}".encode()
            same = output.startswith(said) and (not wrong or output == said + b"\n")
            yield f"a content: {text}", (status, same, faults), (1, True, b"")
    octets = signing.object_of(folder, OTHER_TYPE, b"x" * 1000)
    status, output, _ = ran(program, "--json", "-", octets=octets)
    told = json.loads(output)
    seen = (status, told["type"], told["content_type"], told["content_size"])
    yield "another content", seen, (0, "signed_object", "1.2.840.113549.1.9.16.1.99", 1000)


def sizes(program, folder):
    """Objects that list many items: each is printed, in order."""
    for count in (0, 1, 127, 128, 1_000, 5_000):
        names = [f"f{number}.roa" for number in range(count)]
        octets = signing.object_of(folder, MANIFEST, FILES(entries(*(name.encode() for name in names))))
        status, output, _ = ran(program, "--json", "-", octets=octets)
        told = [one["filename"] for one in json.loads(output)["filesandhashes"]]
        yield f"{count} files", (status, told), (0, names)
        serials = [f"{number + 256:04X}" for number in range(count)]
        octets = listed(entries=sequence(*(entry(int(serial, 16)) for serial in serials)))
        status, output, _ = ran(program, "--json", "-", octets=octets)
        yield f"{count} revoked", (status, [one["serial"] for one in json.loads(output)["revoked_certs"]]), (0, serials)
        if count:
            octets = signing.object_of(folder, ASPA, payloads.aspa(0, range(1, count + 1)))
            status, output, _ = ran(program, "-", octets=octets)
            lines = [line for line in output.decode().splitlines() if line.startswith("Provider Set: ")]
            yield f"{count} providers", (status, lines), (0, [f"Provider Set: ASID {one + 1}" for one in range(count)])


TABLES = [variants, contents, sizes]
