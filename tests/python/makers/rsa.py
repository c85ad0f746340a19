"""Keys of RSA that openssl makes, or of a modulus that is near a number, and signatures (RFC 8017 8.2.1) by Python's
numbers."""
import hashlib
import math
import os
import random
import subprocess

import lax
from der import integer, sequence
from makers.x509 import rsa_key
from openssl import openssl
from programs import write

# A DigestInfo of SHA-256 up to its digest (RFC 8017 9.2, note 1).
PREFIX = bytes.fromhex("3031300d060960864801650304020105000420")


def octets_of(number):
    """A number's octets, without leading zeros; zero is one octet."""
    return number.to_bytes(max(1, (number.bit_length() + 7) // 8), "big")


def positive(octets):
    """The INTEGER of these octets, with a zero in front where the first bit would be that of the sign."""
    return integer((b"\0" if octets[:1] > b"\x7f" else b"") + octets)


def bits_of(modulus, exponent):
    """An RSAPublicKey (RFC 8017 A.1.1) of the octets of a modulus, and an exponent."""
    return sequence(positive(modulus), positive(octets_of(exponent)))


def encoded(size, message, prefix=PREFIX, kind=1, padding=None, separator=b"\0", digest=None, behind=b""):
    """EMSA-PKCS1-v1_5 of a message in so many octets (RFC 8017 9.2), and what is like it."""
    info = prefix + (hashlib.sha256(message).digest() if digest is None else digest) + behind
    padding = b"\xff" * (size - 3 - len(info)) if padding is None else padding
    return bytes([0, kind]) + padding + separator + info


class Numbers:
    """A key of these numbers."""

    def __init__(self, modulus, exponent, private):
        self.modulus, self.exponent, self.private = modulus, exponent, private
        self.octets = octets_of(modulus)
        self.bits = bits_of(self.octets, exponent)
        self.identifier = hashlib.sha1(self.bits).digest()  # RFC 6487 4.8.2

    def power(self, octets):
        """The octets to the power of the private exponent: a signature, of an encoding."""
        return pow(int.from_bytes(octets, "big"), self.private, self.modulus).to_bytes(len(self.octets), "big")

    def sign(self, message):
        return self.power(encoded(len(self.octets), message))


class Key(Numbers):
    """A key of so many bits in a file, which openssl makes where it isn't there."""

    def __init__(self, path, bits=2048, exponent=65537):
        self.path = path
        if not os.path.exists(path):
            openssl("genpkey", "-algorithm", "RSA", "-pkeyopt", f"rsa_keygen_bits:{bits}", "-pkeyopt",
                    f"rsa_keygen_pubexp:{exponent}", "-out", path)
        # RFC 8017 A.1.2.
        whole = openssl("rsa", "-in", path, "-outform", "DER", "-traditional")
        numbers = [int.from_bytes(contents, "big") for _, contents, _ in lax.values(lax.contents(whole))]
        super().__init__(numbers[1], exponent, numbers[3])

    def signed_by_openssl(self, message):
        path = write(os.path.dirname(self.path), "message", message)
        return openssl("dgst", "-sha256", "-sign", self.path, path)


def prime_from(number, step):
    """The first odd number on the way that is as good as prime (Fermat's test), and fits an exponent of 65537."""
    if number % 2 == 0:
        number += step // 2
    while any(number % it == 0 for it in (3, 5, 7, 11, 13)) or number % 65537 == 1 or pow(2, number - 1, number) != 1:
        number += step
    return number


def key_near(number, step):
    """A key whose modulus is next to a number, from there up (a step of 2) or down (-2)."""
    half = number.bit_length() // 2
    first = prime_from(random.getrandbits(half - 2) | 3 << half - 2, 2)
    second = prime_from(-(-number // first) if step > 0 else number // first, step)
    return Numbers(first * second, 65537, pow(65537, -1, math.lcm(first - 1, second - 1)))


def openssl_says(folder, bits, message, signature):
    """Whether openssl takes it for a signature by the key with these bits."""
    files = {"key": rsa_key(bits), "message": message, "signature": signature}
    key, message, signature = (write(folder, name, octets) for name, octets in files.items())
    words = ["openssl", "dgst", "-sha256", "-keyform", "DER", "-verify", key, "-signature", signature, message]
    return subprocess.run(words, capture_output=True, check=False).returncode == 0
