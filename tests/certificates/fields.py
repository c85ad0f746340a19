"""The fields that rpkicert prints of a certificate of authority.py, as openssl says them and as extensions were
given."""
import ipaddress
import os

from makers import authority
from openssl import key_identifier, said_of, text_of

PROFILES = ["ta", "ca", "ee", "detached", "router"]
TYPES = {"ta": "ca_cert", "ca": "ca_cert", "router": "router_key"}
OK, UNASKED, UNREVOKED = "OK", "OK, issuer not checked", "OK, revocation not checked"
EXTENSIONS = {
    "X509v3 Basic Constraints": "basicConstraints",
    "X509v3 Key Usage": "keyUsage",
    "X509v3 Extended Key Usage": "extendedKeyUsage",
    "X509v3 Subject Key Identifier": "subjectKeyIdentifier",
    "X509v3 Authority Key Identifier": "authorityKeyIdentifier",
    "X509v3 Certificate Policies": "certificatePolicies",
    "X509v3 CRL Distribution Points": "cRLDistributionPoints",
    "Authority Information Access": "authorityInfoAccess",
    "Subject Information Access": "subjectInfoAccess",
    "sbgp-ipAddrBlock": "ipAddrBlocks",
    "sbgp-autonomousSysNum": "autonomousSysIds",
}


def lines_of(output):
    """The fields of a text, in order: each record ends with an empty line, and has no other."""
    records = output.decode().split("\n\n")
    assert records[-1] == "" and all(record.startswith("File: ") for record in records[:-1]), output[-300:]
    return [tuple(line.split(": ", 1)) for record in records for line in record.splitlines()]


def size(path):
    """How many bits the key has, by openssl."""
    text = text_of(path)
    return text.split("Public-Key: (", 1)[1].split(" bit)", 1)[0]


def address_text(ends):
    """A prefix or a range of addresses, by Python's `ipaddress`."""
    first, last = (ipaddress.ip_address(end) for end in ends)
    networks = list(ipaddress.summarize_address_range(first, last))
    return str(networks[0]) if len(networks) == 1 else f"{first}-{last}"


def block_text(line):
    """A block, as openssl prints it, or `inherit`."""
    if "/" in line:
        network = ipaddress.ip_network(line)
        return address_text((str(network[0]), str(network[-1])))
    if "." in line or ":" in line:
        return address_text(line.split("-"))
    return line if line == "inherit" else "-".join("AS" + number for number in line.split("-"))


def resource_fields(path):
    """The resources, as openssl prints them."""
    labels = {"IPv4": "IPv4", "IPv6": "IPv6", "Autonomous System Numbers": "AS"}
    fields, label, inside = {}, None, False
    for line in text_of(path).splitlines():
        depth, text = len(line) - len(line.lstrip()), line.strip()
        if depth <= 12:
            inside = text.startswith("sbgp-")
        elif inside and depth == 16:
            label, _, word = text.partition(":")
            fields[labels[label]] = [block_text(word.strip())] if word else []
        elif inside and text:
            fields[labels[label]].append(block_text(text))
    return [(label, ", ".join(fields[label])) for label in labels.values() if label in fields]


def expected_fields(name, paths):
    """The fields of a certificate, by openssl and by the extensions that it was given."""
    path = paths[name] + ".der"
    (_, subject, issuer, key, _, _), = [row for row in authority.CERTIFICATES if row[0] == name]
    fields = [("Type", TYPES.get(name, "ee_cert"))]
    if name in ("ta", "ca"):
        fields += [("Basic Constraints", "CA:TRUE"), ("Key Usage", "Certificate Sign, CRL Sign")]
    else:
        fields += [("Key Usage", "Digital Signature")]
    if name == "router":
        fields += [("Extended Key Usage", "BGPsec Router")]
    fields += [("Certificate Policies", "ipAddr-asNumber"), ("SKI", key_identifier(path))]
    if issuer != name:
        fields += [("AKI", key_identifier(paths[issuer] + ".der"))]
    fields += [
        ("Version", "3"),
        ("Cert Serial", said_of(path, "-serial")),
        ("Signature Algorithm", "sha256WithRSAEncryption"),
        ("Cert Issuer", said_of(path, "-issuer", "-nameopt", "sep_comma_plus_space,sname")),
        ("Valid Since", said_of(path, "-startdate", "-dateopt", "iso_8601")),
        ("Valid Until", said_of(path, "-enddate", "-dateopt", "iso_8601")),
        ("Subject", said_of(path, "-subject", "-nameopt", "sep_comma_plus_space,sname")),
        ("Public Key Algorithm", "rsaEncryption" if key == "RSA" else "id-ecPublicKey prime256v1"),
        ("Public Key Bits", size(path)),
        ("Public Key SHA-1", key_identifier(path)),
    ]
    if issuer != name:
        fields += [("CRL Distribution Points", f"rsync://rpki.example.net/{issuer}/{issuer}.crl"),
                   ("AIA", f"rsync://rpki.example.net/{issuer}/{issuer}.cer")]
    if name in ("ta", "ca"):
        fields += [("CARepository", f"rsync://rpki.example.net/{name}/"),
                   ("Manifest", f"rsync://rpki.example.net/{name}/{name}.mft")]
    if name == "ee":
        fields += [("SIA", "rsync://rpki.example.net/ca/object.roa")]
    if name in ("ta", "ca"):
        fields += [("Notify URL", f"https://rrdp.example.net/{name}.xml")]
    fields += resource_fields(path)
    for line in text_of(path).splitlines():
        label, _, critical = line.strip().partition(":")
        if label in EXTENSIONS and line.startswith(" " * 12):
            fields += [("Extension " + EXTENSIONS[label],
                        "critical" if critical.strip() == "critical" else "not critical")]
    return fields + [("SHA-256 Fingerprint", said_of(path, "-fingerprint", "-sha256"))]


def verdict(path):
    """What is said of a certificate that is well, without an issuer: the anchor alone is its own."""
    return OK if os.path.basename(path) in ("ta.der", "ta.pem") else UNASKED


def signature(name):
    """What is said of its signature."""
    return "Signature", "good" if name == "ta" else "not checked"
