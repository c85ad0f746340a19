"""Reads DER that is known to be good: tags of one octet, definite lengths, and nothing is checked."""
from typing import Any, Iterator, List, Tuple

from der import tlv

Span = Tuple[int, int]


def head(octets: bytes, place: int = 0) -> Span:
    """Where the contents of the value at this place begin, and where it ends."""
    count = octets[place + 1] - 0x80 if octets[place + 1] >= 0x80 else 0
    start = place + 2 + count
    length = int.from_bytes(octets[place + 2:start], "big") if count else octets[place + 1]
    return start, start + length


def places(octets: bytes, start: int, end: int) -> List[Span]:
    """Where the values from here to there begin and end."""
    found: List[Span] = []
    while start < end:
        found.append((start, head(octets, start)[1]))
        start = found[-1][1]
    return found


def places_in(octets: bytes, place: int) -> List[Span]:
    """Where the values in the value at this place begin and end."""
    return places(octets, *head(octets, place))


def values(octets: bytes) -> Iterator[Tuple[int, bytes, bytes]]:
    """The values that octets are: of each its identifier octet, its contents and its octets."""
    for start, end in places(octets, 0, len(octets)):
        yield octets[start], octets[head(octets, start)[0]:end], octets[start:end]


def members(octets: bytes) -> List[bytes]:
    """The values that octets are, each whole, whatever is nested in them."""
    return [whole for _, _, whole in values(octets)]


def contents(value: bytes) -> bytes:
    """The contents of a value."""
    return value[head(value)[0]:]


class Value:
    """A value that can be changed: its identifier octet, and its contents or its members."""

    def __init__(self, first: int, inside: Any) -> None:
        self.first, self.inside = first, inside

    def octets(self) -> bytes:
        inside = self.inside if isinstance(self.inside, bytes) else b"".join(value.octets() for value in self.inside)
        return tlv(self.first, inside)


def values_of(octets: bytes) -> List[Value]:
    """The values that octets are, with all that is nested in them."""
    return [Value(first, values_of(inside) if first & 0x20 else inside) for first, inside, _ in values(octets)]


def arcs(octets: bytes) -> str:
    """The arcs of an object identifier, of its contents (X.690 8.19)."""
    numbers, number = [], 0
    for octet in octets:
        number = number * 128 + octet % 128
        if octet < 128:
            numbers.append(number)
            number = 0
    first = min(numbers[0] // 40, 2)
    return ".".join(map(str, [first, numbers[0] - 40 * first, *numbers[1:]]))
