"""Signed objects that openssl makes in a folder: an end entity, and contents that it signs."""
from openssl import openssl_in
from programs import octets_of, write

CONFIGURATION = b"""[req]
distinguished_name = name
prompt = no
[name]
commonName = entity
[entity]
keyUsage = critical, digitalSignature
subjectKeyIdentifier = hash
"""


def signer(folder):
    """Makes the end entity: the files `key` and `cert`."""
    write(folder, "configuration", CONFIGURATION)
    openssl_in(folder, "req", "-x509", "-newkey", "rsa:2048", "-nodes", "-keyout", "key", "-out", "cert",
               "-extensions", "entity", "-config", "configuration")


def signed(folder, content, kind):
    """A signed object of this content and type, by the end entity; `object` has it too."""
    write(folder, "content", content)
    openssl_in(folder, "cms", "-sign", "-nodetach", "-binary", "-outform", "DER", "-econtent_type", kind, "-keyid",
               "-md", "sha256", "-nosmimecap", "-signer", "cert", "-inkey", "key", "-in", "content", "-out", "object")
    return octets_of(folder, "object")
