"""Octets that are changed at random, for rows of what is refused."""
import random


def changed(before: bytes, source: random.Random) -> bytes:
    """The octets with one to three of them changed, left out or doubled, but never all left out."""
    octets = bytearray(before)
    for _ in range(source.randint(1, 3)):
        at = source.randrange(len(octets))
        way = source.randrange(8)
        if way == 0 and len(octets) > 1:
            del octets[at]
        elif way == 1:
            octets.insert(at, octets[at])
        else:
            octets[at] = source.choice([octets[at] ^ 1 << source.randrange(8), source.randrange(256)])
    return bytes(octets)
