"""Texts of URIs at every limit (RFC 5781, and the limits of docs/SPECIFICATION.md)."""
from programs import run

LONG = "a" * 255
SEGMENTS = (LONG + "/") * 11

# Why a text is refused, by its number.
CHARACTERS, BAD, TOO_LONG, SCHEME, DOTS, EMPTY, SEGMENT = range(1, 8)

# A text, and why it is refused; 0 where it is read.
RSYNC = [
    (f"rsync://{LONG}/m/", 0),
    (f"rsync://{LONG}a/m/", SEGMENT),
    (f"rsync://host/{LONG}/", 0),
    (f"rsync://host/{LONG}a/", SEGMENT),
    (f"rsync://host/module/{LONG}", 0),
    (f"rsync://host/module/{LONG}a", SEGMENT),
    # 3,079 octets, 3,071 of them after the scheme; and one more.
    ("rsync://host/module/" + SEGMENTS + "a" * 243, 0),
    ("rsync://host/module/" + SEGMENTS + "a" * 244, TOO_LONG),
    # 3,072 octets after the scheme, and a segment that is refused; and one octet less.
    ("rsync://../module/" + SEGMENTS + "a" * 246, TOO_LONG),
    ("rsync://../module/" + SEGMENTS + "a" * 245, DOTS),
    ("rsync://host/./a//b", DOTS),
    ("rsync://host/m/a//..", EMPTY),
    ("xsync://a b", CHARACTERS),
    ("rsync://a", BAD),
    ("rsync://a/", BAD),
    ("rsync://", BAD),
    ("rsync://host/", BAD),
    ("rsync://host/module", BAD),
    ("", SCHEME),
    ("fsync://host/module/foo/bar", SCHEME),
    ("rsync:////foo", EMPTY),
    ("rsync://host//foo", EMPTY),
    ("rsync:///module/foo", EMPTY),
    ("rsync://host/module//foo/bar/", EMPTY),
    ("rsync://host/module/foo//bar/", EMPTY),
    ("rsync://../module/", DOTS),
    ("rsync://./", DOTS),
    ("rsync://host/..", DOTS),
    ("rsync://host/./foo/bar", DOTS),
    ("rsync://host/module/foo/../bar", DOTS),
    ("rsync://host/module/foo/bar/..", DOTS),
    ("rsync://host/module/f oo/bar", CHARACTERS),
    ("rsync:// host/module/foo/bar", CHARACTERS),
    ("rsync://host/module/", 0),
    ("rsync://host/module/foo/", 0),
    ("rsync://host/module/foo/bar", 0),
    ("rsync://host/module/foo/bar/", 0),
    ("rsync://host/module/$%&'()*+,-./0123456789:;=ABCDEFGHIJKLMNOPQRSTUVWXYZ_abcdefghijklmnopqrstuvwxyz~", 0),
] + [("rsync://host/module/" + character, CHARACTERS) for character in " \"#<>?[\\]^`{|}"]

HTTPS = [
    ("https://" + LONG, 0),
    ("https://" + LONG + "a", BAD),
    ("https://" + LONG + "/some", 0),
    ("https://example.com/some", 0),
    ("https://example.com/so me", CHARACTERS),
    ("https://host/" + "a" * 65_536, 0),
]


def texts(programs):
    """Each text is read by both programs, or refused by both for the same reason."""
    for group, rows in [("rsync_of", RSYNC), ("https_of", HTTPS)]:
        for text, number in rows:
            octets = text.encode()
            answer = f"refused {number}\n".encode() if number else b"made " + octets.hex().upper().encode() + b"\n"
            for call in ["from_bytes", "from_slice", "from_string"]:
                yield f"{call}: {text}", run(programs.calls, [group, call], octets), (0, answer, b"")
            seen = run(programs.basic, ["uri"], octets + b"\n")
            if number:
                yield f"uri: {text}", seen, (1, b"", f"refused {number}\n".encode())
            else:
                yield f"uri: {text}", seen, (0, uri_lines(text).encode(), b"")


def uri_lines(text):
    """What the word `uri` writes of a text that is read."""
    scheme, rest = text.split("://", 1)
    authority, slash, path = rest.partition("/")
    lines = f"scheme {scheme.lower()}\nauthority {authority.lower()}\n"
    if scheme.lower() == "https":
        return lines + f"path {slash}{path}\n"
    module, _, path = path.partition("/")
    return lines + f"module {module}\npath {path}\n"


# A URI, what is joined to it, and the text or the number of the refusal.
HOST = "rsync://host/module/"
LONGEST = HOST + SEGMENTS + "a" * 243
JOINS = [
    (HOST, SEGMENTS + "a" * 235, HOST + SEGMENTS + "a" * 235),
    (HOST, SEGMENTS + "a" * 236, TOO_LONG),
    (HOST, SEGMENTS + LONG, TOO_LONG),
    (LONGEST, "a", TOO_LONG),
    (LONGEST, "", LONGEST),
    (HOST, LONG, HOST + LONG),
    (HOST, LONG + "a", SEGMENT),
    (HOST, ".", DOTS),
    (HOST, "foo/.", DOTS),
    (HOST, "..", DOTS),
    (HOST, "foo/../bar", DOTS),
    (HOST, "../bar", DOTS),
    (HOST, "/bar", EMPTY),
    (HOST, "b r", CHARACTERS),
    (HOST + "some", "foo", HOST + "some/foo"),
    (HOST + "some", "foo/", HOST + "some/foo/"),
    (HOST + "some/", "foo/bar", HOST + "some/foo/bar"),
]
assert len(HOST + SEGMENTS + "a" * 235) == 3_071 and len(LONGEST) == 3_079


def joins(programs):
    """Joined texts at the limits; what they are joined to is unchanged."""
    for base, path, joined in JOINS:
        answer = f"refused {joined}\n" if isinstance(joined, int) else f"made {joined.encode().hex().upper()}\n"
        answer += f"held {base.encode().hex().upper()}\n"
        seen = run(programs.calls, ["rsync", "join", path], base.encode())
        yield f"{base} join {path}", seen, (0, answer.encode(), b"")
    for base in [LONGEST, HOST]:
        held = base if base.endswith("/") else base + "/"
        seen = run(programs.calls, ["rsync", "path_into_dir"], base.encode())
        yield f"{base} as a directory", seen, (0, f"done\nheld {held.encode().hex().upper()}\n".encode(), b"")


TABLES = [texts, joins]
