"""Certificates of algorithms that the RPKI doesn't use: the roots that the machine trusts, and some that openssl makes,
beside what openssl says of them and what a reader of DER finds in them."""
import functools
import glob
import hashlib
import json
import os
import re
import ssl

import forms
from fields import lines_of
from lax import arcs, values
from openssl import certify, openssl
from programs import ran

ROOTS = "/etc/ssl/certs/*.pem"
# What rpkicert calls attributes (RFC 4514 3) and extensions (RFC 5280 4.2.1, 4.2.2); all others have their arcs.
ATTRIBUTES = {"2.5.4.3": "CN", "2.5.4.5": "serialNumber", "2.5.4.6": "C", "2.5.4.10": "O", "2.5.4.11": "OU"}
EXTENSIONS = {"2.5.29.14": "subjectKeyIdentifier", "2.5.29.15": "keyUsage", "2.5.29.19": "basicConstraints",
              "2.5.29.31": "cRLDistributionPoints", "2.5.29.32": "certificatePolicies",
              "2.5.29.35": "authorityKeyIdentifier", "2.5.29.37": "extendedKeyUsage",
              "1.3.6.1.5.5.7.1.1": "authorityInfoAccess", "1.3.6.1.5.5.7.1.11": "subjectInfoAccess"}
STRINGS = {0x13: "ascii", 0x0C: "utf-8", 0x16: "ascii"}


def escaped(octets):
    """A string of a name (RFC 4514 2.4): what isn't a printable character of ASCII by its digits."""
    text = ""
    for place, octet in enumerate(octets):
        if chr(octet) in '"#+,;<=>\\' or octet == 32 and place in (0, len(octets) - 1):
            text += "\\" + chr(octet)
        else:
            text += chr(octet) if 32 <= octet < 127 else f"\\{octet:02X}"
    return text


def name_text(contents):
    """A name (RFC 4514), in the order of its parts."""
    parts = []
    for _, relative, _ in values(contents):
        attributes = []
        for _, attribute, _ in values(relative):
            (_, identifier, _), (tag, string, whole) = values(attribute)
            text = escaped(string) if tag in STRINGS else "#" + whole.hex().upper()
            attributes.append(f"{ATTRIBUTES.get(arcs(identifier), arcs(identifier))}={text}")
        parts.append(" + ".join(attributes))
    return ", ".join(parts)


@functools.lru_cache(maxsize=None)
def said_of(text):
    """What `openssl x509` says of a certificate in PEM: its text, what is after each sign of equality before that, and
    its octets."""
    words = ["-serial", "-startdate", "-enddate", "-dateopt", "iso_8601", "-fingerprint", "-sha256"]
    said = openssl("x509", "-noout", *words, "-text", input=text).decode(errors="replace")
    before, _, whole = said.partition("\nCertificate:\n")
    facts = dict(line.split("=", 1) for line in before.split("\n"))
    return whole, facts, ssl.PEM_cert_to_DER_cert(text.decode())


def told(path):
    """The same of the certificate in a file. Of each certificate openssl is asked once."""
    with open(path, "rb") as file:
        return said_of(file.read())


def read(path):
    """The parts of what is signed of a certificate."""
    (_, contents, _), = values(told(path)[2])
    (_, signed, _), _, _ = values(contents)
    return list(values(signed))


def said_of_key(text, algorithm):
    """The algorithm of a key, its curve, and its size, as openssl prints them."""
    curve = re.search(r"ASN1 OID: (\S+)", text)
    size = re.search(r"Public-Key: \((\d+) bit\)", text)
    known = curve is None or curve[1] in ("prime256v1", "secp384r1", "secp521r1")
    fields = [("Public Key Algorithm", algorithm + (f" {curve[1]}" if curve and known else ""))]
    return fields + ([("Public Key Bits", size[1])] if size and known else [])


def expected_fields(path):
    """The fields of a certificate, by openssl and by the reader above."""
    parts = read(path)
    text, facts, _ = told(path)
    signature = re.search(r"Signature Algorithm: (\S+)", text)[1]
    algorithm = re.search(r"Public Key Algorithm: (\S+)", text)[1]
    key = said_of_key(text, algorithm)
    objection = f"with a key of {key[0][1]}" if signature == "sha256WithRSAEncryption" else f"signed by {signature}"
    (_, _, _), (_, bits, _) = values(parts[6][1])
    fields = [
        ("Type", "certificate"),
        ("Version", re.search(r"Version: (\d+)", text)[1]), ("Cert Serial", facts["serial"]),
        ("Signature Algorithm", signature), ("RPKI Profile", f"{objection}, which the RPKI doesn't use"),
        ("Cert Issuer", name_text(parts[3][1])),
        ("Valid Since", facts["notBefore"]), ("Valid Until", facts["notAfter"]),
        ("Subject", name_text(parts[5][1])), *key,
        ("Public Key SHA-1", ":".join(f"{octet:02X}" for octet in hashlib.sha1(bits[1:]).digest()))]
    for tag, contents, _ in parts[7:]:
        if tag == 0xA3:
            (_, extensions, _), = values(contents)
            for _, extension, _ in values(extensions):
                identifier, *others = values(extension)
                critical = "critical" if others[0][0] == 1 and others[0][1] == b"\xff" else "not critical"
                fields += [("Extension " + EXTENSIONS.get(arcs(identifier[1]), arcs(identifier[1])), critical)]
    return fields + [("SHA-256 Fingerprint", facts["sha256 Fingerprint"])], objection


def is_rpki(path):
    """Whether both algorithms are those of the RPKI (RFC 7935 2, 3, RFC 8608 3)."""
    text, _, _ = told(path)
    key = re.search(r"Public Key Algorithm: (\S+)", text)[1]
    signed = re.search(r"Signature Algorithm: (\S+)", text)[1] == "sha256WithRSAEncryption"
    return signed and (key == "rsaEncryption" or key == "id-ecPublicKey" and "ASN1 OID: prime256v1" in text)


def of_other(program, name, path):
    """A certificate of other algorithms: as lines, as JSON, checked, and held to a profile."""
    fields, objection = expected_fields(path)
    fields = [forms.hash_id(told(path)[2]), ("Signature", "not checked")] + fields
    status, output, faults = ran(program, path)
    yield f"{name}", (status, lines_of(output), faults), (0, [("File", path)] + fields, b"")
    status, output, faults = ran(program, "--json", path)
    named = forms.pairs([("File", path)] + fields)
    yield f"{name} as JSON", (status, json.loads(output, object_pairs_hook=list), faults), (0, named, b"")
    line = f"{path}: {objection}, which the RPKI doesn't use\n".encode()
    yield f"{name}, checked", ran(program, "--check", path), (1, line, b"")
    shown = (1, ran(program, path).output,
             f"rpkicert: {path}: RFC 7935 2, 3: of an algorithm that the RPKI doesn't use\n".encode())
    for profile in ("ta", "router", "auto"):
        yield f"{name} as {profile}", ran(program, "--check", "--profile", profile, path), (1, line, b"")
        yield f"{name} as {profile}, shown", ran(program, "--profile", profile, path), shown
    status, output, faults = ran(program, "--check", "--json", path)
    seen = (status, json.loads(output), faults)
    yield f"{name}, checked, as JSON", seen, (
        1, {"file": path, "signature": "not checked", "verdict": f"{objection}, which the RPKI doesn't use"}, b"")


def roots(program, folder):
    """Each root that the machine trusts is shown; of other algorithms its fields are those that openssl tells."""
    for path in sorted(glob.glob(ROOTS)):
        status, output, faults = ran(program, path)
        yield f"root {path}", (status, output.startswith(f"File: {path}\n".encode()), faults), (0, True, b"")
        if not is_rpki(path):
            yield from of_other(program, f"root {path}", path)


# A name, the key of the subject, that of the issuer, the digest, and the serial number.
EC, RSA = ["-algorithm", "EC", "-pkeyopt"], ["-algorithm", "RSA", "-pkeyopt", "rsa_keygen_bits:2048"]
MADE = [
    ("P-256", EC + ["ec_paramgen_curve:P-256"], None, "-sha256", "1"),
    ("P-384", EC + ["ec_paramgen_curve:P-384"], None, "-sha384", "0x80"),
    ("P-521", EC + ["ec_paramgen_curve:P-521"], None, "-sha512", "0x7f"),
    ("P-384 by SHA-224", EC + ["ec_paramgen_curve:P-384"], None, "-sha224", "2"),
    ("P-256 by SHA-1", EC + ["ec_paramgen_curve:P-256"], None, "-sha1", "3"),
    ("brainpool", EC + ["ec_paramgen_curve:brainpoolP256r1"], None, "-sha256", "4"),
    ("Ed25519", ["-algorithm", "ED25519"], None, None, "5"),
    ("Ed448", ["-algorithm", "ED448"], None, None, "6"),
    ("SHA-512", RSA, None, "-sha512", "0x" + "f" * 40),
    ("SHA-384", RSA, None, "-sha384", "0x0" + "1" * 60),
    ("SHA-224", RSA, None, "-sha224", "7"),
    ("SHA-1", RSA, None, "-sha1", "8"),
    ("MD5", RSA, None, "-md5", "9"),
    ("P-384 by RSA", EC + ["ec_paramgen_curve:P-384"], RSA, "-sha256", "10"),
    ("Ed25519 by RSA", ["-algorithm", "ED25519"], RSA, "-sha256", "11"),
    ("RSA by P-256", RSA, EC + ["ec_paramgen_curve:P-256"], "-sha256", "12"),
]
TEXT = """basicConstraints = critical, CA:TRUE, pathlen:0
keyUsage = critical, keyCertSign
subjectKeyIdentifier = hash
subjectAltName = DNS:example.net
"""


def make(folder, number, key, issuer, digest, serial):
    """A certificate of such a key, by itself or by an issuer."""
    path = os.path.join(folder, f"algorithm{number}")
    openssl("genpkey", *key, "-out", path + ".key")
    openssl("req", "-new", "-key", path + ".key", "-subj", "/C=NZ/ST=Otago/O=A, \\#b/CN= x ", "-out", path + ".csr")
    with open(path + ".cnf", "w", encoding="utf-8") as file:
        file.write("[extensions]\n" + TEXT)
    if issuer:
        openssl("genpkey", *issuer, "-out", path + ".ca.key")
        openssl("req", "-new", "-x509", "-key", path + ".ca.key", "-subj", "/CN=issuer", "-out", path + ".ca.pem")
    certify(path, path + ".ca" if issuer else None, serial, "-out", path + ".pem", days="9000", digest=digest or "")
    return path + ".pem"


def made(program, folder):
    """Certificates of each algorithm that openssl makes."""
    for number, (name, *what) in enumerate(MADE):
        yield from of_other(program, name, make(folder, number, *what))


TABLES = [roots, made]
