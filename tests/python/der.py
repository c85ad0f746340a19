"""Writes DER by X.690, apart from the library: tags of one octet, lengths in shortest form (8.1.3, 10.1)."""
from typing import Dict

NULL = b"\x05\x00"


def length_octets(length: int) -> bytes:
    if length < 128:
        return bytes([length])
    octets = length.to_bytes((length.bit_length() + 7) // 8, "big")
    return bytes([0x80 + len(octets)]) + octets


def tlv(first: int, contents: bytes) -> bytes:
    """A value: its identifier octet, its length, and its contents."""
    return bytes([first]) + length_octets(len(contents)) + contents


def sequence(*members: bytes) -> bytes:
    return tlv(0x30, b"".join(members))


def parts(usual: Dict[str, bytes], changed: Dict[str, bytes]) -> bytes:
    """A SEQUENCE of parts that have names, in order, some of which are changed."""
    assert set(changed) <= set(usual), changed
    return sequence(*{**usual, **changed}.values())


def set_of(*members: bytes) -> bytes:
    """A SET OF these, in the order that they are in."""
    return tlv(0x31, b"".join(members))


def unsigned(number: int) -> bytes:
    """An INTEGER that is not negative, in the fewest octets of two's complement (8.3)."""
    return tlv(0x02, number.to_bytes(number.bit_length() // 8 + 1, "big"))


def integer(contents: bytes) -> bytes:
    """An INTEGER of these contents."""
    return tlv(0x02, contents)


def bits(octets: bytes, unused: int = 0) -> bytes:
    """A BIT STRING (8.6)."""
    return tlv(0x03, bytes([unused]) + octets)


TRUE, FALSE = tlv(1, b"\xff"), tlv(1, b"\x00")


def oid(text: str) -> bytes:
    """The contents of an object identifier (8.19)."""
    first, second, *others = map(int, text.split("."))
    octets = b""
    for arc in [40 * first + second, *others]:
        digits = [arc % 128]
        while arc >= 128:
            arc //= 128
            digits.insert(0, 128 + arc % 128)
        octets += bytes(digits)
    return octets


def identifier(text: str) -> bytes:
    """An object identifier."""
    return tlv(0x06, oid(text))


def nested(levels: int) -> bytes:
    """An empty SEQUENCE, and so many SEQUENCEs, each around what there is. Written from the innermost out, so that it
    takes a time that grows with its length alone."""
    reversed_octets = bytearray(b"\x00\x30")
    for _ in range(levels):
        reversed_octets += length_octets(len(reversed_octets))[::-1] + b"\x30"
    return bytes(reversed(reversed_octets))


def digits_of(octets: bytes) -> bytes:
    """Octets as hexadecimal digits."""
    return octets.hex().upper().encode()
