"""Hostile octets: nested deeply, cut short, followed by more, changed in one octet, and headers at the limits."""
import re

from der import nested, sequence
from programs import run
from vectors import RSA_SIGNATURE, SIGNED, VALUES


def lines(answer, count, left, finished, borrowed):
    """What `hostile_calls cursor` tells."""
    end = "finished" if finished else "unfinished 6"
    text = f"{answer}\ncount {count}\nleft {left.hex().upper()}\n{end}\nborrowed {borrowed.hex().upper()}\n"
    return (0, text.encode(), b"")


def deep_nesting(programs):
    """Nesting has no limit but memory."""
    deep = nested(100_000)
    assert len(deep) == 483_407
    made = "made " + deep.hex().upper()
    skips = [("skip_one", "done", 0), ("skip_nested", "done", 0)]
    for call, answer, count in [("walk", "done", 100_001), *skips, ("capture_one", made, 0)]:
        seen = run(programs.calls, ["cursor", call], deep)
        yield f"{call} of 100,001 levels", seen, lines(answer, count, b"", True, deep)
    signed = sequence(nested(10_000), RSA_SIGNATURE, bytes.fromhex("030200AA"))
    assert len(signed) == 39_856
    yield "again on 10,001 levels", run(programs.basic, ["again"], signed), (0, signed, b"")
    yield "data of 10,001 levels", run(programs.basic, ["data"], signed), (0, nested(10_000), b"")


def cut_values(programs):
    """Each proper beginning of a value is truncated, the empty one too, and the cursor stays at its start."""
    for value in VALUES:
        for cut in range(len(value)):
            beginning = value[:cut]
            for call in ["capture_one", "capture", *(["skip_nested"] if cut else [])]:
                seen = run(programs.calls, ["cursor", call], beginning)
                told = lines("refused 1", 0, beginning, cut == 0, beginning)
                yield f"{call}: {cut} octets of {value.hex()}", seen, told


def values_with_more(programs):
    """Each value is captured alone and before another octet, which is then trailing."""
    for value in VALUES:
        made = "made " + value.hex().upper()
        for more in [b"", b"\x00"]:
            for call in ["capture_one", "capture"]:
                seen = run(programs.calls, ["cursor", call], value + more)
                told = lines(made, 0, more, not more, value + more)
                yield f"{call}: {value.hex()} and {more.hex()}", seen, told


# The octets that may be changed: the tag of the signed value (a primitive or constructed one of the low tag numbers,
# but for universal 0 and for the tag that is there), the count of unused bits (1 for `AA`), and the signature.
CHANGES = {
    2: {octet for octet in range(256) if octet & 0x1F != 0x1F and octet & 0xDF != 0} - {0x30},
    21: {1},
    22: set(range(256)) - {0xAA},
}
assert [len(CHANGES[at]) for at in (2, 21, 22)] == [245, 1, 255]


def changed_octets(programs):
    """Signed data of 23 octets with each one octet replaced by each other one."""
    written = 0
    for at in range(len(SIGNED)):
        for octet in range(256):
            if octet == SIGNED[at]:
                continue
            changed = SIGNED[:at] + bytes([octet]) + SIGNED[at + 1:]
            seen = run(programs.basic, ["again"], changed)
            if octet in CHANGES.get(at, set()):
                expected = (0, SIGNED if at == 21 else changed, b"")
            else:
                # Which refusal it is, is not looked at; it is none of memory, input or output.
                told = re.fullmatch(rb"refused [1-6]\n", seen.faults)
                expected = (1, b"", seen.faults if told else b"refused N\n")
            written += seen.status == 0
            yield f"octet {at} is {octet:02x}", seen, expected
    yield "how many are written", written, 501


# A header, what is made of it, and how many octets are left.
HEADERS = [
    ("308400", "refused 3", 3),
    ("30820002", "refused 3", 4),
    ("30817F", "refused 3", 3),
    ("308115", "refused 3", 3),
    ("3080", "refused 3", 2),
    ("04820080", "refused 3", 4),
    ("0485", "refused 3", 2),
    ("0000", "refused 2", 2),
    ("2000", "refused 2", 2),
    ("1F1E00", "refused 2", 3),
    ("1F8001", "refused 2", 3),
    ("1F81828384", "refused 2", 5),
    ("", "refused 1", 0),
    ("1F", "refused 1", 1),
    ("0481", "refused 1", 2),
    ("1F1F00", "made Universal 31 false 0", 0),
    ("1F810000", "made Universal 128 false 0", 0),
    ("1FFFFFFF7F00", "made Universal 268435455 false 0", 0),
    ("3084FFFFFFFF", "made Universal 16 true 4294967295", 0),
    ("A6020500", "made Context 6 true 2", 2),
]

# Octets, what a walk makes of them, how many headers it counts, and how many octets are left.
WALKS = [
    ("3006300430023000", "done", 4, 0),
    ("3084FFFFFFFF", "refused 1", 1, 6),
    ("", "nothing", 0, 0),
    ("30", "refused 1", 1, 1),
    ("30020405", "refused 1", 2, 4),
    ("300430001F1E", "refused 2", 3, 6),
    ("30020000", "refused 2", 2, 4),
    ("30800000", "refused 3", 1, 4),
    ("0402307F05", "done", 1, 1),
]


def headers_and_walks(programs):
    """Headers at the limits of tags and lengths, and walks at them."""
    for digits, answer, left in HEADERS:
        octets = bytes.fromhex(digits)
        seen = run(programs.calls, ["cursor", "take_header"], octets)
        yield f"header {digits}", seen, lines(answer, 1, octets[len(octets) - left:], left == 0, octets)
    for digits, answer, count, left in WALKS:
        octets = bytes.fromhex(digits)
        seen = run(programs.calls, ["cursor", "walk"], octets)
        yield f"walk over {digits}", seen, lines(answer, count, octets[len(octets) - left:], left == 0, octets)


TABLES = [deep_nesting, cut_values, values_with_more, changed_octets, headers_and_walks]
