"""Trust anchor locators (RFC 8630), as rpkicert judges and prints them: texts that use or break one rule each, and what
is printed of those that are well, with the keys of certificates whose identifiers openssl prints."""
import base64
import json
import os

from fields import lines_of, size
from files import NO_LOCATOR, OTHER
from forms import hash_id
from makers import authority
from openssl import key_identifier, openssl
from programs import ran, write

WELL = "OK, certificate not checked"
HTTPS, RSYNC = b"https://rpki.example.net/ta/ta.cer", b"rsync://rpki.example.net/ta/ta.cer"
MANY = [b"https://rpki.example.net/%d.cer" % number for number in range(1000)]
OTHER_URI, NO_URI = ": not a URI of a trust anchor", ": no URI"
NO_EMPTY_LINE, OTHER_TEXT, OTHER_KEY = ": no empty line before the key", ": not base 64", ": not a public key: "


def key_of(path):
    """The key of a certificate in DER, as a SubjectPublicKeyInfo (RFC 5280 4.1)."""
    text = openssl("x509", "-inform", "DER", "-in", path, "-noout", "-pubkey")
    return openssl("pkey", "-pubin", "-outform", "DER", input=text)


def digits(octets, width=64):
    """Octets in base 64 (RFC 4648 4), in lines of so many digits."""
    text = base64.b64encode(octets)
    return b"\n".join(text[at:at + width] for at in range(0, len(text), width))


def text_of(uris, key, comments=(), width=64):
    """A locator, by its parts (RFC 8630 2.2)."""
    return b"\n".join([*comments, *uris, b"", digits(key, width), b""])


def good(key):
    """Locators, each with its URIs and comments."""
    both = [HTTPS, RSYNC]
    upper = HTTPS.replace(b"https", b"HTTPS")
    return [
        ("by HTTPS", text_of([HTTPS], key), [HTTPS], []),
        ("by rsync", text_of([RSYNC], key), [RSYNC], []),
        ("two URIs", text_of(both, key), both, []),
        ("two URIs in another order", text_of(both[::-1], key), both[::-1], []),
        ("a URI twice", text_of([HTTPS, HTTPS], key), [HTTPS, HTTPS], []),
        ("a thousand URIs", text_of(MANY, key), MANY, []),
        ("a scheme in upper case", text_of([upper], key), [upper], []),
        ("comments", text_of(both, key, [b"# one", b"#two "]), both, [b"# one", b"#two "]),
        ("an empty comment", text_of(both, key, [b"#"]), both, [b"#"]),
        ("a comment in UTF-8", text_of(both, key, ["# \u00fc \\".encode()]), both, ["# \u00fc \\".encode()]),
        ("a comment that is a URI", text_of([RSYNC], key, [b"#" + HTTPS]), [RSYNC], [b"#" + HTTPS]),
        ("CRLF", text_of(both, key, [b"# one"]).replace(b"\n", b"\r\n"), both, [b"# one"]),
        ("no line feed at the end", text_of(both, key)[:-1], both, []),
        ("line feeds at the end", text_of(both, key) + b"\n\n", both, []),
        ("digits on a line", text_of(both, key, width=4000), both, []),
        ("a digit a line", text_of(both, key, width=1), both, []),
        ("two empty lines", text_of([HTTPS, b""], key), [HTTPS], []),
    ]


def bad(key):
    """Texts that are no locators, and what is wrong with the first malformed line, by its number."""
    front = HTTPS + b"\n\n"
    return [
        ("no URI", text_of([], key), 1, NO_URI),
        ("comments alone", b"# a\n#\n", 3, NO_URI),
        ("a comment without a line feed", b"#", 2, NO_URI),
        ("a folder", text_of([RSYNC, b"rsync://rpki.example.net/ta/"], key), 2, OTHER_URI),
        ("by HTTP", text_of([b"http://rpki.example.net/ta.cer"], key), 1, OTHER_URI),
        ("a space before a URI", text_of([b" " + HTTPS], key), 1, OTHER_URI),
        ("a space behind a URI", text_of([HTTPS + b" "], key), 1, OTHER_URI),
        ("a comment behind a URI", text_of([HTTPS, b"# a"], key, [b"# b"]), 3, OTHER_URI),
        ("a text behind URIs", HTTPS + b"\nhello\n", 2, OTHER_URI),
        ("no empty line", HTTPS + b"\n" + digits(key), 2, OTHER_URI),
        ("a URI alone", HTTPS, 2, NO_EMPTY_LINE),
        ("no key", front, 3, OTHER_KEY + "truncated value"),
        ("an octet out of base 64", front + b"*" + digits(key), 3, OTHER_TEXT),
        ("a digit too many", front + digits(key) + b"A", 3, OTHER_TEXT),
        ("a space in base 64", front + digits(key)[:20] + b" " + digits(key)[20:], 3, OTHER_TEXT),
        ("padding in the middle", front + b"MA==\n" + digits(key), 3, OTHER_TEXT),
        ("a NULL as the key", text_of([HTTPS], b"\x05\0"), 3, OTHER_KEY + "unexpected value"),
        ("a cut key", text_of([HTTPS], key[:-1]), 3, OTHER_KEY + "truncated value"),
        ("an octet behind the key", text_of([HTTPS, RSYNC], key + b"\0", [b"# a"]), 5, OTHER_KEY + "trailing data"),
    ]


def judged(program, folder):
    """Locators that use or break one rule each."""
    paths = authority.paths(folder)
    key, anchor = key_of(paths["ta"] + ".der"), paths["ta"] + ".der"
    for name, text, _, _ in good(key):
        seen = ran(program, "--check", "-", octets=text)
        yield f"locator: {name}", seen, (0, f"-: {WELL}\n".encode(), b"")
    for name, text, line, wrong in bad(key):
        said = f"-: {OTHER if line == 1 else f'{NO_LOCATOR}line {line}{wrong}'}\n".encode()
        for words in [], ["--profile", "ta"]:
            yield f"locator: {name}, {words}", ran(program, "--check", *words, "-", octets=text), (1, said, b"")
        yield f"locator: {name}, shown", ran(program, "-", octets=text), (1, b"", b"rpkicert: " + said)
    path = write(folder, "ta.tal", text_of([HTTPS], key))
    other = "not a certificate"
    for words, wanted in ([], WELL), (["--at", "now"], WELL), (["--profile", "auto"], WELL), (["--lax"], WELL), (
            ["--profile", "ta"], other), (["--issuer", anchor], other):
        status, line = int(wanted != WELL), f"{path}: {wanted}\n".encode()
        yield f"locator {words}", ran(program, "--check", *words, path), (status, line, b"")
        status, output, faults = ran(program, "--check", "--json", *words, path)
        yield f"locator {words} in JSON", (status, json.loads(output), faults), (
            int(wanted != WELL), {"file": path, "signature": "not checked", "verdict": wanted}, b"")
    seen = ran(program, "--check", "--issuer", path, anchor)
    yield "a locator as issuer", seen, (2, b"", f"rpkicert: {path}: neither DER nor PEM of an object\n".encode())
    seen = ran(program, "--check", path, anchor)
    yield "a locator and a file behind it", seen, (0, f"{path}: {WELL}\n{anchor}: OK\n".encode(), b"")


def printed(path, name, certificate, text, uris, comments):
    """The fields of a locator that are lines, where `-` is the value of those that are lists."""
    identifier = key_identifier(certificate)
    kind = "id-ecPublicKey prime256v1" if certificate.endswith("router.der") else "rsaEncryption"
    listed = [("Trust Anchor Locations", uris)] + ([("Comments", comments)] if comments else [])
    return [("File", path), hash_id(text), ("Signature", "not checked"), ("Type", "tal"), ("Name", name),
            ("SKI", identifier), *listed, ("Public Key Algorithm", kind), ("Public Key Bits", size(certificate)),
            ("Public Key SHA-1", identifier)]


def in_line(value):
    """A value as a line has it."""
    if isinstance(value, str):
        return value
    shown = ("".join(f"\\{octet:02X}" if octet < 32 or octet > 126 or octet == 92 else chr(octet) for octet in one)
             for one in value)
    return ", ".join(shown)


def in_json(label, value):
    """A value as JSON has it."""
    if label == "Public Key Bits":
        return int(value)
    return value if isinstance(value, str) else [one.decode() for one in value]


def shown(program, folder):
    """What is printed of each, as lines and as JSON, and of names and other keys."""
    paths = authority.paths(folder)
    rows = [(f"{name}.tal", name, "ta", *row) for name, *row in good(key_of(paths["ta"] + ".der"))]
    key = key_of(paths["router"] + ".der")
    for file, name in ("a.b.tal", "a.b"), ("noending", "noending"), (".tal", ".tal"), ("\u00fc.tal", "\u00fc"):
        rows.append((file, name, "router", text_of([RSYNC], key), [RSYNC], []))
    for file, name, signer, text, uris, comments in rows:
        path = os.path.join(folder, file)
        with open(path, "wb") as octets:
            octets.write(text)
        fields = printed(path, name, paths[signer] + ".der", text, uris, comments)
        status, output, faults = ran(program, path)
        yield f"locator {file} in lines", (status, lines_of(output), faults), (
            0, [(label, in_line(value)) for label, value in fields], b"")
        status, output, faults = ran(program, "--json", path)
        wanted = {label.lower().replace(" ", "_").replace("-", "_"): in_json(label, value) for label, value in fields}
        yield f"locator {file} in JSON", (status, json.loads(output), faults), (0, wanted, b"")


TABLES = [judged, shown]
