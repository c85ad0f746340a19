"""Reads DER strictly, from the left, without the library: the error that is leftmost, as include/rpki.h names errors. A
judge of a format reads its parts in order, and says by `part` which of them is malformed."""
import datetime
import re
from typing import Any, Callable, List, Optional, Tuple, TypeVar

TRUNCATED, BAD_TAG, BAD_LENGTH, UNEXPECTED, CONTENT, TRAILING = range(1, 7)
CYCLE = 146097 * 86400  # the seconds of 400 years
Tag = Tuple[int, bool, int]  # the class, whether it is constructed, and the number
T = TypeVar("T")


class Wrong(Exception):
    """The status: an error, or the number of a malformed part; and of that part the error."""

    def __init__(self, status: int, error: Optional[int] = None) -> None:
        super().__init__(status)
        self.status, self.error = status, status if error is None else error


def need(holds: object, status: int = CONTENT) -> None:
    if not holds:
        raise Wrong(status)


def part(number: int, call: Callable[..., T], *words: Any) -> T:
    """What the call returns; where it can't, this part is malformed."""
    try:
        return call(*words)
    except Wrong as wrong:
        raise Wrong(number, wrong.error) from None


def status_of(call: Callable[..., T], *words: Any) -> Tuple[int, Optional[T]]:
    """The status of a call, and what it returns where that is 0."""
    try:
        return 0, call(*words)
    except Wrong as wrong:
        return wrong.status, None


class Octets:
    """Octets that are read from the left; `start` is where they begin in those that all are part of."""

    def __init__(self, octets: bytes, start: int = 0) -> None:
        self.octets, self.start, self.place = octets, start, 0

    def next(self) -> int:
        need(self.place < len(self.octets), TRUNCATED)
        self.place += 1
        return self.octets[self.place - 1]

    def tag(self) -> Tag:
        """Identifier octets in shortest form, of a number below 2^28, and not universal 0 (X.690 8.1.2)."""
        first = self.next()
        number = first & 31
        if number == 31:
            octet = self.next()
            need(octet != 0x80 and octet >= 31, BAD_TAG)
            number = octet & 127
            for _ in range(3):
                if octet < 0x80:
                    break
                octet = self.next()
                number = number << 7 | octet & 127
            need(octet < 0x80, BAD_TAG)
        need(number or first >> 6, BAD_TAG)
        return first >> 6, bool(first & 32), number

    def length(self) -> int:
        """Length octets in the shortest definite form, of a length below 2^32 (X.690 8.1.3, 10.1)."""
        first = self.next()
        if first < 0x80:
            return first
        need(0x80 < first <= 0x84, BAD_LENGTH)
        size = self.next()
        need(size and (first > 0x81 or size >= 0x80), BAD_LENGTH)
        for _ in range(first - 0x81):
            size = size << 8 | self.next()
        return size

    def begins_with(self, number: int) -> bool:
        """Whether identifier octets of this universal number come next, in either form."""
        return self.octets[self.place:self.place + 1] in (bytes([number]), bytes([number | 32]))

    def cut(self, length: int) -> "Octets":
        """The octets of this length, which come next."""
        need(length <= len(self.octets) - self.place, TRUNCATED)
        self.place += length
        first = self.place - length
        return Octets(self.octets[first:self.place], self.start + first)

    def take(self, first: int) -> "Octets":
        """The contents of a value whose identifier octet is this."""
        tag, length = self.tag(), self.length()
        need(tag == (first >> 6, bool(first & 32), first & 31), UNEXPECTED)
        return self.cut(length)

    def only(self, first: int) -> "Octets":
        """The same of a value that nothing follows."""
        inside = self.take(first)
        self.end()
        return inside

    def value(self) -> Tuple[Tag, "Octets"]:
        """The tag and the contents of any value."""
        tag = self.tag()
        return tag, self.cut(self.length())

    def nested(self) -> Tuple[Tag, "Octets"]:
        """The same of a value with everything nested in it."""
        tag, inside = self.value()
        if tag[1]:
            are_values(Octets(inside.octets))
        return tag, inside

    def each(self, call: Callable[["Octets"], T]) -> List[T]:
        """What the call returns of each value, to the end."""
        found = []
        while not self.is_empty():
            found.append(call(self))
        return found

    def end(self) -> None:
        need(self.is_empty(), TRAILING)

    def is_empty(self) -> bool:
        return self.place == len(self.octets)

    def at(self) -> int:
        """Where the next octet is."""
        return self.start + self.place

    def span(self) -> List[int]:
        """Where all of them are: their start and their length."""
        return [self.start, len(self.octets)]


def are_values(octets: Octets) -> None:
    """Reads values to the end, with everything nested in them."""
    octets.each(Octets.nested)


def is_number(octets: bytes) -> bool:
    """Whether contents are those of an INTEGER that isn't negative, in its shortest form (X.690 8.3)."""
    return bool(octets) and octets[0] < 0x80 and (len(octets) == 1 or octets[0] > 0 or octets[1] >= 0x80)


def number(octets: Octets, limit: int) -> int:
    """An INTEGER that isn't negative and is below a limit."""
    inside = octets.take(2).octets
    need(is_number(inside))
    found = int.from_bytes(inside, "big")
    need(found < limit)
    return found


def serial(octets: Octets) -> bytes:
    """The twenty octets of a serial number, which has no more (RFC 5280 4.1.2.2)."""
    inside = octets.take(2).octets
    need(is_number(inside) and len(inside) <= 20)
    return inside.rjust(20, b"\0")


def is_identifier(octets: bytes) -> bool:
    """Whether contents are arcs in their shortest form (X.690 8.19.2)."""
    starts = [at for at in range(len(octets)) if at == 0 or octets[at - 1] < 0x80]
    return octets != b"" and octets[-1] < 0x80 and all(octets[at] != 0x80 for at in starts)


def identifier(octets: Octets) -> Octets:
    """The contents of an OBJECT IDENTIFIER."""
    inside = octets.take(6)
    need(is_identifier(inside.octets))
    return inside


def seconds(first: int, text: bytes) -> int:
    """The seconds since 1970 of a time with this identifier octet, as RFC 5280 4.1.2.5 has it."""
    need(re.fullmatch({0x17: rb"[0-9]{12}Z", 0x18: rb"[0-9]{14}Z"}[first], text))
    if first == 0x17:
        text = (b"20" if text < b"50" else b"19") + text
    year, month, day, hour, minute, second = int(text[:4]), *(int(text[at:at + 2]) for at in range(4, 14, 2))
    try:
        # Python's calendar begins with the year 1.
        found = datetime.datetime(year or 400, month, day, hour, minute, second, tzinfo=datetime.timezone.utc)
    except ValueError:
        raise Wrong(CONTENT) from None
    return int(found.timestamp()) - (0 if year else CYCLE)


def moment(octets: Octets) -> int:
    """The seconds of a UTCTime or a GeneralizedTime. Of another primitive value the contents are what is wrong."""
    (kind, constructed, tag), length = octets.tag(), octets.length()
    need(not constructed, UNEXPECTED)
    text = octets.cut(length).octets
    need(kind == 0 and tag in (0x17, 0x18))
    return seconds(tag, text)
