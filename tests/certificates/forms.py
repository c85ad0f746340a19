"""How JSON has what rpkicert prints as lines: the names of members, times in seconds since 1970 and numbers, and the
resources of a certificate block by block, as rpki-client has them."""
import base64
import hashlib
from datetime import datetime, timezone

from openssl import text_of

TIMES = {"Valid Since", "Valid Until", "Cert Valid Since", "Cert Valid Until", "Signing Time", "Revocation Date"}
NUMBERS = {"Version", "Public Key Bits"}


def member(label):
    """The name of a field."""
    return label.lower().replace(" ", "_").replace("-", "_")


def seconds(text):
    """A time in seconds since 1970."""
    return int(datetime.strptime(text, "%Y-%m-%d %H:%M:%SZ").replace(tzinfo=timezone.utc).timestamp())


def pair(label, value):
    """A field as a member."""
    if label in TIMES:
        return member(label), seconds(value)
    return member(label), int(value) if label in NUMBERS else value


def pairs(fields):
    """Fields as members, in order."""
    return [pair(label, value) for label, value in fields]


def hash_id(octets):
    """The digest by SHA-256, as manifests have it (RFC 9286 4.2.1), in base 64."""
    return "Hash ID", base64.b64encode(hashlib.sha256(octets).digest()).decode()


def block(label, text):
    """A block of resources as a member."""
    if text == "inherit":
        return ("asid_inherit" if label == "AS" else "ip_inherit"), "true"
    ends = text.replace("AS", "").split("-")
    if label == "AS":
        ends = [int(end) for end in ends]
    if len(ends) == 2:
        return ("asrange" if label == "AS" else "ip_range"), [("min", ends[0]), ("max", ends[1])]
    return ("asid" if label == "AS" else "ip_prefix"), ends[0]


def resources(fields):
    """The resources that these fields tell, as an array of objects: AS numbers before addresses."""
    kinds = [(label, value) for label, value in fields if label in ("IPv4", "IPv6", "AS")]
    blocks = [(label, text) for label, value in sorted(kinds, key=lambda field: field[0] != "AS")
              for text in value.split(", ") if not value.startswith("not of the RPKI's profile")]
    return "subordinate_resources", [[block(label, text)] for label, text in blocks]


# The methods of access descriptions, as openssl has them.
METHODS = {"CA Issuers": "caIssuers", "CA Repository": "caRepository", "RPKI Manifest": "rpkiManifest",
           "Signed Object": "signedObject", "RPKI Notify": "rpkiNotify", "OCSP": "1.3.6.1.5.5.7.48.1"}
ACCESSES = ("Authority Information Access", "Subject Information Access")


def accesses(path):
    """The access descriptions of a certificate, as openssl prints them: the label of each extension, and its items."""
    found, label = {name: [] for name in ACCESSES}, None
    for line in text_of(path).splitlines():
        depth, text = len(line) - len(line.lstrip()), line.strip()
        if depth <= 12:
            label = text.partition(":")[0]
        elif label in found and text:
            method, _, location = text.partition(" - ")
            form, _, value = location.partition(":")
            place = ("URI", value) if form == "URI" else ("Location", "not a URI")
            found[label].append([("Method", METHODS.get(method, method)), place])
    return list(found.items())


def listed(path):
    """The same as members."""
    return [(member(label), [pairs(item) for item in items]) for label, items in accesses(path)]


def lines(path):
    """The same as lines."""
    return [(label, ", ".join(" ".join(field) for field in item)) for label, items in accesses(path) for item in items]
