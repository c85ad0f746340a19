"""Certificates that openssl makes: a trust anchor, a certification authority, an end entity, one without subject
information access, and a BGPsec router."""
import os

from openssl import certify, openssl
from programs import write

# The extensions of each (RFC 6487 4.8, RFC 9323 2, RFC 8209 3.1.3), as openssl writes them.
COMMON = """subjectKeyIdentifier = hash
certificatePolicies = critical, 1.3.6.1.5.5.7.14.2
"""
AUTHORITY = """basicConstraints = critical, CA:TRUE
keyUsage = critical, keyCertSign, cRLSign
sbgp-ipAddrBlock = critical, IPv4:192.0.2.0/24, IPv6:2001:db8::/32
sbgp-autonomousSysNum = critical, AS:64496
subjectInfoAccess = caRepository;URI:rsync://rpki.example.net/{name}/, \
1.3.6.1.5.5.7.48.10;URI:rsync://rpki.example.net/{name}/{name}.mft, \
1.3.6.1.5.5.7.48.13;URI:https://rrdp.example.net/{name}.xml
"""
ISSUED = """authorityKeyIdentifier = keyid
crlDistributionPoints = URI:rsync://rpki.example.net/{issuer}/{issuer}.crl
authorityInfoAccess = caIssuers;URI:rsync://rpki.example.net/{issuer}/{issuer}.cer
"""
DETACHED = """keyUsage = critical, digitalSignature
sbgp-ipAddrBlock = critical, IPv4:192.0.2.0/25
"""
ENTITY = DETACHED + """subjectInfoAccess = 1.3.6.1.5.5.7.48.11;URI:rsync://rpki.example.net/ca/object.roa
"""
ROUTER = """keyUsage = critical, digitalSignature
extendedKeyUsage = 1.3.6.1.5.5.7.3.30
sbgp-autonomousSysNum = critical, AS:64496
"""
# A name, its subject, its issuer, its key, its serial number and its extensions.
CERTIFICATES = [
    ("ta", "/CN=anchor", "ta", "RSA", "0x01", COMMON + AUTHORITY),
    ("ca", "/CN=authority/serialNumber=00FF", "ta", "RSA", "0x7fedcba9876543210123456789abcdef01234567",
     COMMON + AUTHORITY + ISSUED),
    ("ee", "/CN=entity", "ca", "RSA", "0x80", COMMON + ENTITY + ISSUED),
    ("detached", "/CN=checklist", "ca", "RSA", "0x81", COMMON + DETACHED + ISSUED),
    ("router", "/CN=ROUTER-0000FBF0/serialNumber=C0000201", "ca", "EC", "0x0100", COMMON + ROUTER + ISSUED),
]


def make(folder):
    """Makes NAME.der and NAME.pem of each certificate in the folder."""
    made = paths(folder)
    for name, subject, issuer, key, serial, extensions in CERTIFICATES:
        path = made[name]
        with open(path + ".cnf", "w", encoding="ascii") as file:
            file.write("[req]\nprompt = no\nstring_mask = pkix\ndistinguished_name = name\n[name]\n[extensions]\n")
            file.write(extensions.format(name=name, issuer=issuer))
        kind = ["-algorithm", "EC", "-pkeyopt", "ec_paramgen_curve:P-256"] if key == "EC" else ["-algorithm", "RSA"]
        openssl("genpkey", *kind, "-out", path + ".key")
        openssl("req", "-new", "-config", path + ".cnf", "-key", path + ".key", "-subj", subject, "-out", path + ".csr")
        certify(path, made[issuer] if issuer != name else None, serial, "-out", path + ".pem")
        openssl("x509", "-in", path + ".pem", "-outform", "DER", "-out", path + ".der")


def paths(folder):
    """Where these are, by their names, without the endings."""
    return {name: os.path.join(folder, name) for name, *_ in CERTIFICATES}


def with_extensions(folder, lines):
    """A certificate of an authority, by the anchor that [make] made, with these lines for its resources, or in place of
    those of the same extensions."""
    others = [line for line in (COMMON + AUTHORITY + ISSUED).splitlines() if not line.startswith("sbgp-")]
    text = "\n".join(others).format(name="ca", issuer="ta")
    config = write(folder, "resources.cnf", ("[extensions]\n" + "\n".join([text, *lines]) + "\n").encode())
    path = os.path.join(folder, "resources.der")
    certify(os.path.join(folder, "ca"), os.path.join(folder, "ta"), "2", "-outform", "DER", "-out", path, config=config)
    return path
