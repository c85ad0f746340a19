#!/usr/bin/env python3
"""Makes the rows of RSA signatures: crates/rsa_rows/stdin, a row the bits of a key, a message and a signature in
hexadecimal digits, crates/rsa_rows/stdout, what the definition says of each by Python's numbers, and
tests/signatures/names.txt. Keys are new, by openssl, or by Python's numbers where it makes none of a size: an odd one,
or one whose highest limb is to be the least or the greatest. openssl is asked the same of each key that is accepted.
Needs openssl.

usage: tests/signatures/rows.py"""
import hashlib
import os
import random
import sys
import tempfile

sys.dont_write_bytecode = True
sys.path.append(os.path.join(os.path.dirname(os.path.abspath(__file__)), "..", "python"))

from judges.signatures import answer
from makers.rsa import PREFIX, Key, bits_of, encoded, key_near, openssl_says
from programs import TOP

MESSAGE = b"abc"
SHA_1 = bytes.fromhex("3021300906052b0e03021a05000414")


def key_in(folder, bits=2048, exponent=65537):
    """The key of the folder with so many bits and this exponent."""
    return Key(os.path.join(folder, f"{bits}-{exponent}.pem"), bits, exponent)


def good(folder):
    """Good signatures: of several messages, sizes and exponents."""
    for name, message in (("abc", MESSAGE), ("nothing", b""), ("1,000 octets", b"a" * 1000)):
        key = key_in(folder)
        yield f"message {name}", key.octets, key.exponent, message, key.signed_by_openssl(message)
    for bits in (2056, 2112, 3072, 4096):
        key = key_in(folder, bits)
        yield f"{bits} bits", key.octets, key.exponent, MESSAGE, key.signed_by_openssl(MESSAGE)
    for exponent in (3, 5, 17, 257, 65539, 2**32 + 15, 2**63 + 29, 2**64 - 59):
        key = key_in(folder, exponent=exponent)
        yield f"exponent {exponent}", key.octets, exponent, MESSAGE, key.signed_by_openssl(MESSAGE)


def changed(folder):
    """A signature that is changed, or another number."""
    key = key_in(folder)
    signature = key.signed_by_openssl(MESSAGE)
    number = int.from_bytes(signature, "big")
    for at in (0, 1, 100, 254, 255):
        for bit in (1, 128):
            octets = bytearray(signature)
            octets[at] ^= bit
            yield f"octet {at} changed by {bit}", key.octets, key.exponent, MESSAGE, bytes(octets)
    yield "another message", key.octets, key.exponent, b"abd", signature
    for name, octets in (("a zero in front", b"\0" + signature), ("an octet less in front", signature[1:]),
                         ("an octet less at the end", signature[:-1]), ("an octet more", signature + b"\0"),
                         ("no octets", b"")):
        yield name, key.octets, key.exponent, MESSAGE, octets
    for name, other in (("0", 0), ("1", 1), ("the modulus", key.modulus), ("the modulus less 1", key.modulus - 1),
                        ("all ones", 256**256 - 1), ("negated", key.modulus - number)):
        yield f"the signature is {name}", key.octets, key.exponent, MESSAGE, other.to_bytes(256, "big")
    # A message whose signature is small enough that the modulus can be added.
    for count in range(10000):
        message = str(count).encode()
        small = key.power(encoded(256, message))
        if int.from_bytes(small, "big") + key.modulus < 256**256:
            more = int.from_bytes(small, "big") + key.modulus
            yield "a small number", key.octets, key.exponent, message, small
            yield "the modulus added", key.octets, key.exponent, message, more.to_bytes(256, "big")
            return


def other_encodings(folder):
    """Signatures of other encodings than the one (RFC 8017 8.2.2, step 3)."""
    key = key_in(folder)
    ones = b"\xff" * 202
    without_null = bytes.fromhex("302f300b06096086480165030402010420")
    long_lengths = bytes.fromhex("30813230810d060960864801650304020105000420")
    long_null = bytes.fromhex("3033300f06096086480165030402010502000004" "20")
    cases = {
        "block type 0": {"kind": 0, "padding": bytes(202)}, "block type 2": {"kind": 2},
        "padding with a 254": {"padding": ones[:50] + b"\xfe" + ones[51:]},
        "padding that begins with 0": {"padding": b"\0" + ones[1:]}, "no separator": {"separator": b"\xff"},
        "no NULL": {"prefix": without_null}, "long lengths": {"prefix": long_lengths},
        "NULL of two octets": {"prefix": long_null}, "the digest alone": {"prefix": b""},
        "SHA-384 named": {"prefix": PREFIX[:14] + b"\x02" + PREFIX[15:]},
        "SHA-1": {"prefix": SHA_1, "digest": hashlib.sha1(MESSAGE).digest()},
        "octets after the digest": {"behind": b"\0\0"},
        "eight octets of padding, and octets after the digest": {"padding": ones[:8], "behind": bytes(194)},
    }
    for name, words in cases.items():
        octets = encoded(256, MESSAGE, **words)
        yield name, key.octets, key.exponent, MESSAGE, key.power(octets)


def cube_root(number):
    low, high = 0, 1 << ((number.bit_length() + 2) // 3 + 1)
    while low < high:
        middle = (low + high) // 2
        low, high = (middle + 1, high) if middle**3 < number else (low, middle)
    return low


def forged(folder):
    """Forgeries under the exponent 3 (Bleichenbacher 2006), with padding and without."""
    key = key_in(folder, exponent=3)
    for name, padding in (("eight octets of padding", b"\xff" * 8), ("no padding", b"")):
        octets = encoded(256, MESSAGE, padding=padding, behind=bytes(202 - len(padding)))
        root = cube_root(int.from_bytes(octets, "big"))
        yield f"forged by a cube root, {name}", key.octets, 3, MESSAGE, root.to_bytes(256, "big")


def other_keys(folder):
    """Keys that are rejected, or odd."""
    key = key_in(folder)
    signature = key.signed_by_openssl(MESSAGE)
    for exponent in (0, 1, 2, 3, 65536, 2**64, 2**64 + 1):
        yield f"key: exponent {exponent}", key.octets, exponent, MESSAGE, signature
    numbers = {"even": key.modulus - 1, "a bit less": key.modulus >> 1 | 1, "of 255 octets": key.modulus >> 8 | 1,
               "of 513 octets": 1 << 4103 | key.modulus, "of all ones": 2**2048 - 1, "2^2047 + 1": 2**2047 + 1}
    for name, number in numbers.items():
        octets = number.to_bytes((number.bit_length() + 7) // 8, "big")
        yield f"key: modulus {name}", octets, key.exponent, MESSAGE, (2).to_bytes(len(octets), "big")
    # One zero is in front already, for the bit of the sign.
    yield "key: two zeros in front of the modulus", b"\0\0" + key.octets, key.exponent, MESSAGE, signature
    yield "key: no modulus", b"", key.exponent, MESSAGE, b""


def sizes(_):
    """Keys of an exact size, and keys of the least and the greatest moduli of a size: a good signature, and a changed
    one."""
    cases = {f"{bits} bits": (bits, random.randrange(1 << bits - 1, 1 << bits), 2)
             for bits in (2041, 2047, 2049, 2050, 2111, 3073, 4095)}
    for bits in (2048, 3072, 4096):
        cases[f"{bits} bits, the least"] = bits, 1 << bits - 1, 2
        cases[f"{bits} bits, the greatest"] = bits, (1 << bits) - 1, -2
    for name, (bits, number, step) in cases.items():
        key = key_near(number, step)
        assert key.modulus.bit_length() == bits, name
        signature = key.sign(MESSAGE)
        yield name, key.octets, key.exponent, MESSAGE, signature
        yield f"{name}, changed", key.octets, key.exponent, MESSAGE, signature[:-1] + bytes([signature[-1] ^ 1])


def main():
    names, given, expected = [], [], []
    with tempfile.TemporaryDirectory() as folder:
        for rows in (good, sizes, changed, other_encodings, forged, other_keys):
            for name, modulus, exponent, message, signature in rows(folder):
                said = answer(modulus, exponent, message, signature)
                bits = bits_of(modulus, exponent)
                # openssl dgst reads no more of a signature than the key is long.
                if said != "rejected key" and len(signature) <= len(modulus):
                    assert openssl_says(folder, bits, message, signature) == (said == "valid"), name
                names.append(f"{said:14}{name}\n")
                given.append(f"{bits.hex()} {message.hex()} {signature.hex()}\n")
                expected.append(said + "\n")
    for path, lines in (("crates/rsa_rows/stdin", given), ("crates/rsa_rows/stdout", expected),
                        ("tests/signatures/names.txt", names)):
        with open(os.path.join(TOP, path), "w", encoding="utf-8") as file:
            file.writelines(lines)
    print(f"{len(given)} rows")


main()
