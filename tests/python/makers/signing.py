"""Signed objects by keys that openssl makes: an end entity for each kind, which an authority of authority.py has
issued, and any content, signed as RFC 5652 5.4 and RFC 8017 8.2.1 have it."""
import hashlib
import os

from der import set_of
from makers import objects
from makers.authority import COMMON, ISSUED
from makers.objects import ASPA, ROA
from makers.rsa import Key
from openssl import certify, key_identifier, openssl
from programs import octets_of

USAGE = "keyUsage = critical, digitalSignature\n"
PLACE = "subjectInfoAccess = 1.3.6.1.5.5.7.48.11;URI:rsync://rpki.example.net/ca/object.roa\n"
ADDRESSES, NUMBERS = "sbgp-ipAddrBlock = critical, ", "sbgp-autonomousSysNum = critical, "
INHERITED = ADDRESSES + "IPv4:inherit, IPv6:inherit\n" + NUMBERS + "AS:inherit\n"
# What the signer of each type has of resources: all, where it may have any; else all of its issuer's.
RESOURCES = {ROA: ADDRESSES + "IPv4:0.0.0.0/0, IPv6:::/0\n", ASPA: NUMBERS + "AS:0-4294967295\n"}


class Signer:
    """An end entity of the authority `ca`, whose files are in the folder. All of a folder have the same key, since
    making one takes a third of a second."""

    made = 0

    def __init__(self, folder, lines=INHERITED, place=PLACE, mask="pkix"):
        Signer.made += 1
        path, issuer = os.path.join(folder, f"signer{Signer.made}"), os.path.join(folder, "ca")
        with open(path + ".cnf", "w", encoding="ascii") as file:
            file.write(f"[req]\nstring_mask = {mask}\ndistinguished_name = name\n[name]\n[extensions]\n")
            file.write(COMMON + USAGE + place + lines + ISSUED.format(issuer="ca"))
        self.key = Key(os.path.join(folder, "signer.key"))
        openssl("req", "-new", "-config", path + ".cnf", "-key", self.key.path, "-subj", "/CN=signer", "-out",
                path + ".csr")
        certify(path, issuer, "9", "-outform", "DER", "-out", path + ".cer")
        self.path, self.certificate = path + ".cer", octets_of(path + ".cer")
        self.identifier = bytes.fromhex(key_identifier(self.path).replace(":", ""))

    def object_of(self, kind, content):
        """A signed object of this type and content."""
        members = [objects.of_type(kind), objects.of_time(), objects.of_digest(hashlib.sha256(content).digest())]
        return objects.signed_object(kind, content, self.certificate, self.identifier, members,
                                     self.key.sign(set_of(*members)))


SIGNERS = {}


def signer_of(folder, kind):
    """The signer of objects of this type, which is made once a folder."""
    name = folder, kind if kind in RESOURCES else None
    if name not in SIGNERS:
        SIGNERS[name] = Signer(folder, RESOURCES.get(kind, INHERITED))
    return SIGNERS[name]


def object_of(folder, kind, content):
    """A signed object of this type and content, by an end entity that has all resources that the type may have."""
    return signer_of(folder, kind).object_of(kind, content)
