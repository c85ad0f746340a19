#!/usr/bin/env python3
"""Writes certificates of certification authorities of the RPKI (RFC 6487), each another, in one file: of each its size
in 4 octets, the last first, and its octets. The octets of keys, identifiers and signatures are random, of a fixed seed;
so nothing verifies them, and all else is as the profile has it. Needs Python 3.9.

usage: bench/certificates.py COUNT FILE"""
import os
import random
import struct
import sys

sys.dont_write_bytecode = True
sys.path.append(os.path.join(os.path.dirname(os.path.abspath(__file__)), "..", "tests", "python"))

from der import TRUE, bits, integer, sequence, tlv
from makers import x509
from makers.certificate import CA_USAGE, IS_CA
from makers.resources import family
from makers.x509 import access, extension, name, uri

HOSTS = ["rpki.ripe.net", "rpki.apnic.net", "repository.lacnic.net", "rpki-repository.nic.ad.jp", "rpki.arin.net"]
HOSTS += ["rpki.afrinic.net", "rpkica.twnic.tw", "rsync.paas.rpki.ripe.net"]


class Certificates:
    """Certificates of one seed."""

    def __init__(self):
        self.random = random.Random(1)

    def digits(self, count):
        """Hexadecimal digits of so many octets."""
        return self.random.randbytes(count).hex()

    def key(self):
        modulus = bytes([self.random.randrange(128, 256)]) + self.random.randbytes(254)
        modulus += bytes([self.random.randrange(256) | 1])
        return x509.rsa_key(x509.rsa_numbers(b"\0" + modulus, b"\1\0\1"))

    def period(self):
        begin = self.random.randrange(20, 26)
        end = begin + self.random.randrange(1, 10)
        return x509.validity(*[f"{year:02}{self.moment()}" for year in (begin, end)])

    def moment(self):
        draw = self.random.randrange
        return "%02d%02d%02d%02d%02dZ" % (draw(1, 13), draw(1, 29), draw(24), draw(60), draw(60))

    def resources(self):
        """Addresses of both families and numbers of autonomous systems, in canonical form, as two extensions."""
        draw = self.random.randrange
        # Prefixes of 24 and 48 bits and numbers, of one length and far apart, in order.
        fours = sorted(self.random.sample(range(0, 1 << 24, 2), draw(1, 12)))
        sixes = sorted(self.random.sample(range(0x20010000 << 16, 0x2C000000 << 16, 2), draw(1, 6)))
        four = family(1, *(bits(prefix.to_bytes(3, "big")) for prefix in fours))
        six = family(2, *(bits(prefix.to_bytes(6, "big")) for prefix in sixes))
        numbers = sorted(self.random.sample(range(0x10000, 0x60000, 2), draw(1, 6)))
        systems = sequence(*[integer(number.to_bytes(3, "big")) for number in numbers])
        return (
            extension(x509.ADDRESSES, sequence(four, six), TRUE),
            extension(x509.NUMBERS, sequence(tlv(0xA0, systems)), TRUE),
        )

    def certificate(self):
        draw = self.random.randrange
        host = self.random.choice(HOSTS)
        subject, issuer = self.random.randbytes(20), self.random.randbytes(20)
        serial = bytes([draw(1, 128)]) + self.random.randbytes(self.random.choice([1, 3, 7, 15, 18]))
        here = f"rsync://{host}/repository/{self.digits(4)}-{self.digits(2)}/{draw(10)}/"
        above = f"rsync://{host}/repository/{issuer.hex().upper()}"
        places = [(x509.REPOSITORY, here), (x509.MANIFEST, f"{here}{subject.hex().upper()}.mft"),
                  (x509.NOTIFY, f"https://{host}/notification.xml")]
        extensions = [
            extension(x509.CONSTRAINTS, IS_CA, TRUE),
            extension(x509.SUBJECT_KEY, tlv(0x04, subject)),
            extension(x509.AUTHORITY_KEY, sequence(tlv(0x80, issuer))),
            extension(x509.USAGE, CA_USAGE, TRUE),
            extension(x509.REVOCATION, sequence(x509.point(uri(f"{above}.crl".encode())))),
            extension(x509.AUTHORITY_ACCESS, sequence(access(x509.CA_ISSUERS, uri(f"{above}.cer".encode())))),
            extension(x509.SUBJECT_ACCESS, x509.accesses(*((method, uri(text.encode())) for method, text in places))),
            extension(x509.POLICIES, x509.policies(x509.policy(x509.POLICY)), TRUE),
            *self.resources(),
        ]
        if draw(3) == 0:
            extensions[0], extensions[1] = extensions[1], extensions[0]
        of_issuer, period = name(issuer.hex().upper()), self.period()
        of_subject = name(subject.hex().upper(), self.digits(4).upper() if draw(8) == 0 else None)
        signed = x509.certificate(self.key(), of_subject, of_issuer, integer(serial), period, extensions)
        return x509.signed(signed, signature=bits(self.random.randbytes(256)))


def write(count, path):
    """Writes so many certificates."""
    certificates = Certificates()
    with open(path, "wb") as file:
        for _ in range(count):
            octets = certificates.certificate()
            file.write(struct.pack("<I", len(octets)) + octets)


def main():
    if len(sys.argv) != 3 or not sys.argv[1].isdigit():
        sys.exit(__doc__)
    write(int(sys.argv[1]), sys.argv[2])


if __name__ == "__main__":
    main()
