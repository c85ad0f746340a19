"""Refused allocations: each allocation of a run fails, in turn, alone and with all that come after it.

`refuse.c` is put before the C library. A run counts its allocations from its start on, so those of the program's own
start, of its words and of its input are refused too: then it says so and tells of no call. Every other run tells what
the call answers, which is either what it answers when none is refused, or that memory ran out; and what the call's
arguments hold afterwards, which is then what they held before."""
import base64
from typing import FrozenSet, List, NamedTuple

from der import NULL, bits, digits_of as digits, nested, sequence
from shim import Shim
from vectors import (
    CONSTRAINTS, EXTENSIONS, EXTENSIONS_WRITTEN, EXTENSION_WITHOUT_OCTETS, KEY, KEY_DIGITS, NAME, ORGANIZATION,
    ROUTER_ORGANIZATION, RSA_OF_NUMBERS, RSA_SIGNATURE, SIGNED, SUBJECT, USAGE,
)

NOT_TOLD = (1, b"", b"out of memory\n")


class Call(NamedTuple):
    """A call, and what is to be seen of it."""

    words: List[str]
    octets: bytes
    # What is told where no allocation is refused, and what may be told where one is.
    answer: bytes
    refusals: FrozenSet[bytes]
    # Whether the call has to take memory.
    grows: bool


def on_cursor(call, octets, answer, left=b"", counts=(0,), grows=True, group="cursor"):
    """A call on a cursor, one that borrows its octets in the group `slice`; the numbers of headers that it may have
    counted, the one of success last."""
    end = b"finished" if left == b"" else b"unfinished 6"
    borrowed = b"\nborrowed " + digits(octets) + b"\n"
    told = answer + b"\ncount %d\nleft " % counts[-1] + digits(left) + b"\n" + end + borrowed
    refusals = {
        b"out of memory\ncount %d\nleft " % count + digits(octets) + b"\nunfinished 6" + borrowed for count in counts
    }
    return Call([group, call], octets, told, frozenset(refusals), grows)


def on_value(group, call, octets, answer, grows, held=None, after=None, words=()):
    """A call on a value, which holds these octets before the call, and those after it where it succeeds."""
    before = b"held " + digits(octets if held is None else held) + b"\n"
    told = before if after is None else b"held " + digits(after) + b"\n"
    refusals = frozenset([b"out of memory\n" + before])
    return Call([group, call, *words], octets, answer + b"\n" + told, refusals, grows)


def on_octets(group, call, octets, answer, grows=True):
    """A call that takes octets and leaves nothing to look at."""
    return Call([group, call], octets, answer + b"\n", frozenset([b"out of memory\n"]), grows)


def made(octets):
    return b"made " + digits(octets)


BITS = bits(b"\x61\x62\x63")
DEEP = nested(300)
DEEP_SIGNED = sequence(DEEP, RSA_SIGNATURE, bits(b"\xAA"))

READERS = [
    on_cursor("capture_one", SIGNED + b"\x00", made(SIGNED), b"\x00"),
    on_cursor("capture_one", b"\x05\x00", made(b"\x05\x00")),
    on_cursor("capture_one", DEEP, made(DEEP)),
    on_cursor("capture", SIGNED + b"\x00", made(SIGNED), b"\x00"),
    on_cursor("capture", b"\x05\x00", made(b"\x05\x00")),
    on_cursor("capture", DEEP, made(DEEP)),
    on_cursor("take_bit_string", BITS + b"\x05", made(BITS), b"\x05", grows=False),
    on_cursor("take_octets", b"\x04\x03abc\x05", made(b"abc"), b"\x05", group="slice"),
    on_cursor("take_numbers", b"\x02\x01\x05" * 300, made(b"\x05" * 300)),
    on_cursor("take_rsync_name", b"\x86\x0Frsync://h/m/abc\x05", made(b"rsync://h/m/abc"), b"\x05", group="slice"),
    on_cursor("take_https_name", b"\x86\x0Bhttps://h/a\x05", made(b"https://h/a"), b"\x05", group="slice"),
    on_cursor("skip_one", SIGNED + b"\x00", b"done", b"\x00"),
    on_cursor("skip_one", DEEP, b"done"),
    on_cursor("skip_nested", DEEP, b"done", grows=False),
    on_cursor("walk", SIGNED + b"\x00", b"done", b"\x00", counts=range(7)),
    on_cursor("walk", DEEP, b"done", counts=range(302)),
    on_cursor("take_name", NAME + b"\x00", made(NAME), b"\x00"),
    on_cursor("take_name", SUBJECT, made(SUBJECT)),
]

# Readers that keep octets, on octets that they read, and what they make of them: each shares them, and copies them.
KEEPERS = [
    ("capture_one", SIGNED, SIGNED),
    ("capture", SIGNED, SIGNED),
    ("take_bit_string", BITS, BITS),
    ("take_key", KEY, KEY),
    ("take_name", SUBJECT, SUBJECT),
    ("take_signed", SIGNED, SIGNED),
    ("take_parts", SIGNED[2:], SIGNED),
    ("take_extension", CONSTRAINTS, CONSTRAINTS),
    ("take_opt_extension", CONSTRAINTS, CONSTRAINTS),
]

# Readers that end on octets after the last part, once that part is kept.
BEHIND = [
    ("take_key", sequence(KEY[2:], NULL)),
    ("take_signed", sequence(SIGNED[2:], NULL)),
    ("take_extension", sequence(CONSTRAINTS[2:], NULL)),
    ("take_opt_extension", sequence(CONSTRAINTS[2:], NULL)),
]

READERS += [
    on_cursor(call, octets + NULL, made(value), NULL, grows=group == "slice", group=group)
    for group in ["cursor", "slice"] for call, octets, value in KEEPERS
] + [
    on_cursor(call, octets, b"refused 6", octets, grows=group == "slice", group=group)
    for group in ["cursor", "slice"] for call, octets in BEHIND
]

VALUES = [
    on_octets("whole", "decode_signed", SIGNED, made(SIGNED)),
    on_octets("whole", "decode_signed", DEEP_SIGNED, made(DEEP_SIGNED)),
    on_octets("whole", "decode_key", KEY, made(KEY), grows=False),
    on_octets("whole", "decode_name", SUBJECT, made(SUBJECT)),
    on_octets("whole", "decode_extension", CONSTRAINTS, made(CONSTRAINTS)),
    on_octets("whole", "rsa_from_components", b"\x00\x80", made(RSA_OF_NUMBERS)),
    on_value("captured", "clone", SIGNED, made(SIGNED), True),
    on_value("captured", "from_values", SIGNED, made(sequence(SIGNED)), True),
    on_value("captured", "from_values", DEEP, made(sequence(DEEP)), True),
    on_value("bits", "clone", BITS, made(BITS), False),
    on_value("bits", "octet_bytes", BITS, made(b"abc"), False),
    on_value("key", "clone", KEY, made(KEY), False),
    on_value("key", "bits_bytes", KEY, made(b"abc"), False),
    on_value("key", "to_info_bytes", KEY, made(KEY), True),
    on_value("key", "to_subject_name", KEY, made(SUBJECT), True),
    on_value("key", "from_pub_key", KEY, made(SUBJECT), True),
    on_value("signed", "clone", SIGNED, made(SIGNED), True),
    on_value("signed", "clone_signature", SIGNED, made(b"\xAA"), False),
    on_value("signed", "clone_data", SIGNED, made(b"\x30\x00"), True),
    on_value("name", "clone", SUBJECT, made(SUBJECT), True),
    on_value("extension", "clone", CONSTRAINTS, made(CONSTRAINTS), True),
]

RSYNC = b"rSync://hOst/module/foo/bar"
HTTPS = b"hTtps://hOst/foo/bar"
LONG_PATH = "/".join(["a" * 255] * 11)


def on_uri(group, call, text, answer, grows, after=None, words=()):
    return on_value(group, call, text, answer, grows, after=after, words=words)


URIS = [
    on_octets("rsync_of", "from_slice", RSYNC, made(RSYNC)),
    on_octets("rsync_of", "from_string", RSYNC, made(RSYNC), grows=False),
    on_uri("rsync", "clone", RSYNC, made(RSYNC), False),
    on_uri("rsync", "to_bytes", RSYNC, made(RSYNC), False),
    on_uri("rsync", "canonical_authority", RSYNC, made(b"host"), True),
    on_uri("rsync", "canonical_authority", RSYNC.lower(), made(b"host"), False),
    on_uri("rsync", "canonical_module", RSYNC, made(b"rsync://host/module/"), True),
    on_uri("rsync", "canonical_module", RSYNC.lower(), made(b"rsync://host/module/"), False),
    on_uri("rsync", "parent", RSYNC, made(b"rSync://hOst/module/foo/"), False),
    on_uri("rsync", "parent", b"rsync://host/module/", b"nothing", False),
    on_uri("rsync", "join", RSYNC, made(RSYNC + b"/file"), True, words=["file"]),
    on_uri("rsync", "join", RSYNC, made(RSYNC + b"/" + LONG_PATH.encode()), True, words=[LONG_PATH]),
    on_uri("rsync", "unshare", RSYNC, b"done", True),
    on_uri("rsync", "path_into_dir", RSYNC, b"done", True, after=RSYNC + b"/"),
    on_uri("rsync", "path_into_dir", RSYNC + b"/", b"done", False),
    on_octets("https_of", "from_slice", HTTPS, made(HTTPS)),
    on_octets("https_of", "from_string", HTTPS, made(HTTPS), grows=False),
    on_uri("https", "clone", HTTPS, made(HTTPS), False),
    on_uri("https", "canonical_authority", HTTPS, made(b"host"), True),
    on_uri("https", "canonical_authority", HTTPS.lower(), made(b"host"), False),
    on_uri("https", "parent", HTTPS, made(b"hTtps://hOst/foo/"), False),
    on_uri("https", "parent", b"https://host/", b"nothing", False),
    on_uri("https", "join", HTTPS, made(HTTPS + b"/file"), True, words=["file"]),
    on_uri("https", "unshare", HTTPS, b"done", True),
    on_uri("https", "path_into_dir", HTTPS, b"done", True, after=HTTPS + b"/"),
    on_uri("https", "path_into_dir", HTTPS + b"/", b"done", False),
]

DATA = bytes(range(256)) * 12
STANDARD = base64.b64encode(DATA)
URL_SAFE = base64.urlsafe_b64encode(DATA).rstrip(b"=")
SPACED = b"\n ".join(STANDARD[at:at + 64] for at in range(0, len(STANDARD), 64))

TEXTS = [
    on_value("text", "xml_encode", DATA, made(STANDARD), True),
    on_value("text", "xml_decode", SPACED, made(DATA), True),
    on_value("text", "xml_decode_bytes", SPACED, made(DATA), True),
    on_value("text", "serde_encode", DATA, made(STANDARD), True),
    on_value("text", "serde_decode", STANDARD, made(DATA), True),
    on_value("text", "slurm_encode", DATA, made(URL_SAFE), True),
    on_value("text", "slurm_decode", URL_SAFE, made(DATA), True),
    on_value("text", "https_into_string", b"", made(b"https://"), True),
    on_value("text", "rsync_into_string", b"", made(b"rsync://"), True),
]

# Words of `rpkibasic`, an input, the status, the output, and the faults.
WORDS = [
    (["again"], SIGNED, 0, SIGNED, b""),
    (["again"], DEEP_SIGNED, 0, DEEP_SIGNED, b""),
    (["again"], SIGNED + b"\x00", 1, b"", b"refused 6\n"),
    (["data"], SIGNED, 0, b"\x30\x00", b""),
    (["data"], DEEP_SIGNED, 0, DEEP, b""),
    (["key"], KEY, 0, KEY_DIGITS + b"\n", b""),
    (["uri"], RSYNC, 0, b"scheme rsync\nauthority host\nmodule module\npath foo/bar\n", b""),
    (["uri"], HTTPS + b"\n", 0, b"scheme https\nauthority host\npath /foo/bar\n", b""),
    (["uri"], b"rsync:///module/foo", 1, b"", b"refused 6\n"),
    (["ext"], EXTENSIONS, 0, EXTENSIONS_WRITTEN, b""),
    (["ext"], EXTENSION_WITHOUT_OCTETS, 0, EXTENSION_WITHOUT_OCTETS, b""),
    (["ext"], EXTENSIONS + b"\x30", 1, b"", b"refused 1\n"),
    (["name"], ORGANIZATION, 0, b"rpki yes\nrouter yes\n", b""),
    (["name"], ROUTER_ORGANIZATION, 0, b"rpki no\nrouter yes\n", b""),
    (["name"], ORGANIZATION + b"\x00", 1, b"", b"refused 6\n"),
    ([], b"", 0, USAGE, b""),
    (["x"], b"", 2, b"", USAGE),
]


def calls_of(shim, programs, call, alone):
    """The runs of one call with an allocation refused: what is seen, and what may be. With all later allocations
    refused too there is no right answer. Whether the call itself ran out of memory comes last. How many allocations
    were refused, and how often the call itself ran out."""
    name = " ".join(call.words)[:60] + (" without allocation" if alone else " without allocations from")
    answer = (0, call.answer, b"")
    refusals = {(0, told, b"") for told in call.refusals}
    refused, times = 0, 0
    for allocation, met, seen in shim.runs(programs.calls, call.words, call.octets, alone):
        may_be = refusals | {NOT_TOLD} | ({answer} if alone else set()) if met else {answer}
        refused += met
        times += tuple(seen) in refusals
        yield f"{name} {allocation}", seen, tuple(seen) if tuple(seen) in may_be else answer
    yield f"{name} N: the call ran out of memory", times > 0, call.grows or times > 0
    return refused, times


def refused_calls(programs):
    """Calls of the library answer as they do with memory, or that it ran out, and then nothing has changed."""
    with Shim() as shim:
        calls = READERS + VALUES + URIS + TEXTS
        all_refused, all_times = 0, 0
        for call in calls:
            yield f"{call.words} is under the shim", shim.run(programs.calls, call.words, call.octets)[1].met > 0, True
            for alone in [True, False]:
                refused, times = yield from calls_of(shim, programs, call, alone)
                all_refused += refused
                all_times += times
        return f"{all_refused} refused allocations in {len(calls)} calls, {all_times} of them in the call itself"


def refused_words(programs):
    """Each allocation of the program that is refused ends it with that fault, and an empty output; but one allocation
    alone of its start, where the words are collected, may be made up for by a smaller one."""
    with Shim() as shim:
        refused = 0
        for words, octets, *answer in WORDS:
            # Without words, and with one that it does not know, the program takes no memory after its start.
            start = shim.run(programs.basic, ["x"] if words else [], b"")[1].met
            yield f"{words} is under the shim", start > 0, True
            for alone in [True, False]:
                for allocation, met, seen in shim.runs(programs.basic, words, octets, alone):
                    refused += met
                    made_up = alone and allocation <= start and seen == tuple(answer)
                    expected = NOT_TOLD if met and not made_up else tuple(answer)
                    yield f"{words}, allocation {allocation}{'' if alone else ' and all later'}", seen, expected
        return f"{refused} refused allocations over {len(WORDS)} inputs"


# How many allocations a call meets, however many segments its URI has.
ALLOCATIONS = [("join", 2), ("parent", 0)]


def counted_allocations(programs):
    """`join` and `parent` meet equally many allocations on a URI of 1 segment and on one of 200."""
    with Shim() as shim:
        for call, allocations in ALLOCATIONS:
            for segments in ["1", "200"]:
                counts = [
                    shim.run(programs.calls, ["repeat", call, segments, times], b"")[1].met for times in ["1", "2"]
                ]
                yield f"{call} on {segments} segments", counts[1] - counts[0], allocations


TABLES = [refused_calls, refused_words, counted_allocations]
