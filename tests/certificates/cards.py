"""Ghostbusters records (RFC 6493), as rpkicert judges and prints them: vCards that use or break one rule each, and what
is printed of those that are well."""
import json

from fields import UNASKED, lines_of
from makers import signing
from makers.cards import ADDRESS, BEGIN, CARD, EMAIL, END, FAX, NAME, ORGANIZATION, PROPERTIES, VERSION, VOICE, card
from makers.cards import folded, text
from programs import ran

TEXT, FIRST, SECOND, PROPERTY, LAST, NAMED, CONTACT = (f"in the {part}: " for part in (
    "content", "first line", "content's version", "properties", "last line", "name",
    "address, telephone number and email address"))
OTHER = "another property"


def beside(line):
    """A card with a further line."""
    return card(NAME, EMAIL, line)


# A text, the card, and what is said of it: nothing where it is well; how it begins where the end is left open.
CARDS = [
    ("the example", card(), None),
    ("a name and an email", card(NAME, EMAIL), None),
    ("a name and an address", card(NAME, ADDRESS), None),
    ("a name and a telephone number", card(NAME, VOICE), None),
    ("properties in another order", card(EMAIL, FAX, NAME), None),
    ("each property twice", card(*PROPERTIES, *PROPERTIES), None),
    ("words in lower case", card(b"fn:a", b"eMail:a", begin=b"Begin:vCard", version=b"version:4.0", last=b"end:vcard"),
     None),
    ("an empty value", card(b"FN:", b"EMAIL:"), None),
    ("a value in UTF-8", card("FN:ä€𐍈".encode(), EMAIL), None),
    ("a horizontal tab in a value", card(b"FN:\ta\t", EMAIL), None),
    ("a colon and a quotation mark in a value", card(b'FN:a:b"c', EMAIL), None),
    ("a group", card(b"item1.FN:a", b"a-B.EMAIL:a"), None),
    ("a parameter without a value", card(b"FN;X=:a", EMAIL), None),
    ("a parameter in quotation marks", card(b'FN;LABEL="a;b:c,d":e', EMAIL), None),
    ("parameters of many values", card(b'TEL;TYPE=a,"b",,c;X-Y="";Z=1:a', NAME), None),
    ("a parameter in UTF-8", card("FN;LANGUAGE=ä:a".encode(), EMAIL), None),
    ("a fold by a space", card(folded(NAME, 5), EMAIL), None),
    ("a fold by a tab", card(folded(NAME, 5, space=b"\t"), EMAIL), None),
    ("a fold in a name", card(folded(NAME, 1), folded(EMAIL, 2, 4)), None),
    ("a fold around a colon", card(folded(NAME, 2, 3), EMAIL), None),
    ("a fold in a parameter", card(NAME, folded(VOICE, 3, 4, 6, 8, 9, 11, 15, 20)), None),
    ("a fold in quotation marks", card(folded(b'FN;X="a:b":c', 6, 8, 10), EMAIL), None),
    ("folds of one octet", card(folded(b"FN:abc", *range(1, 6)), EMAIL), None),
    ("a fold at the end of a line", card(NAME + b"\r\n ", EMAIL), None),
    ("folds in the first and last lines", card(NAME, EMAIL, begin=folded(BEGIN, 3), version=folded(VERSION, 8),
                                               last=folded(END, 4)), None),
    ("no octets", b"", FIRST),
    ("no UTF-8", card(b"FN:\xff", EMAIL), TEXT),
    ("a fold within a character", card(folded("FN:ä".encode(), 4), EMAIL), TEXT),
    ("a surrogate", card(b"FN:\xed\xa0\x80", EMAIL), TEXT),
    ("a byte order mark", b"\xef\xbb\xbf" + card(), FIRST),
    ("another first line", card(NAME, EMAIL, begin=b"BEGIN:VCALENDAR"), FIRST),
    ("a space after the first line", card(NAME, EMAIL, begin=BEGIN + b" "), FIRST),
    ("an empty first line", b"\r\n" + card(), FIRST),
    ("version 3.0", card(NAME, EMAIL, version=b"VERSION:3.0"), SECOND),
    ("a version that is left out", text(BEGIN, NAME, EMAIL, END), SECOND),
    ("a version with a parameter", card(NAME, EMAIL, version=b"VERSION;VALUE=text:4.0"), SECOND),
    ("a name before the version", text(BEGIN, NAME, VERSION, EMAIL, END), SECOND),
    ("a second version", beside(VERSION), PROPERTY + OTHER),
    ("a second beginning", beside(BEGIN), PROPERTY + OTHER),
    ("a photo", beside(b"PHOTO:https://example.com/a"), PROPERTY + OTHER),
    ("an extended property", beside(b"X-A:b"), PROPERTY + OTHER),
    ("a longer name", beside(b"FNN:b"), PROPERTY + OTHER),
    ("a shorter name", beside(b"F:b"), PROPERTY + OTHER),
    ("two groups", beside(b"a.b.EMAIL:a"), PROPERTY),
    ("an empty group", beside(b".EMAIL:a"), PROPERTY),
    ("a group that is a fold", beside(b"\r\n .EMAIL:a"), PROPERTY),
    ("no name after a group", beside(b"a.:a"), PROPERTY),
    ("a low line in a group", beside(b"a_b.EMAIL:a"), PROPERTY),
    ("no colon", beside(b"EMAIL"), PROPERTY),
    ("an empty line", beside(b""), PROPERTY),
    ("a space before a name", card(b" FN:a", EMAIL), SECOND),
    ("a space after a name", beside(b"EMAIL :a"), PROPERTY),
    ("a parameter without an equals sign", beside(b"EMAIL;TYPE:a"), PROPERTY),
    ("a parameter without a name", beside(b"EMAIL;=a:a"), PROPERTY),
    ("a parameter whose name is a fold", beside(b"EMAIL;\r\n =a:a"), PROPERTY),
    ("a value without a parameter", beside(b"EMAIL,a:a"), PROPERTY),
    ("an open quotation mark", beside(b'EMAIL;X="a:a'), PROPERTY),
    ("a quotation mark within a value", beside(b'EMAIL;X=a"b":a'), PROPERTY),
    ("a character after quotation marks", beside(b'EMAIL;X="a"b:a'), PROPERTY),
    ("a quotation mark before a colon", beside(b'EMAIL":a'), PROPERTY),
    ("a control character", beside(b"EMAIL:\x07"), PROPERTY),
    ("a control character in a parameter", beside(b'EMAIL;X="\x1f":a'), PROPERTY),
    ("DEL", beside(b"EMAIL:\x7f"), PROPERTY),
    ("NUL", beside(b"EMAIL:\0"), PROPERTY),
    ("lines that end by LF", card().replace(b"\r\n", b"\n"), FIRST),
    ("lines that end by CR", card().replace(b"\r\n", b"\r"), FIRST),
    ("a line that ends by LF", card(NAME + b"\nEMAIL:a", EMAIL), PROPERTY),
    ("two carriage returns", card(NAME + b"\r", EMAIL), PROPERTY),
    ("a fold by LF alone", card(b"FN:a\n b", EMAIL), PROPERTY),
    ("no end", text(BEGIN, VERSION, NAME, EMAIL), LAST),
    ("no break at the end", card()[:-2], PROPERTY),
    ("a carriage return at the end", card()[:-1], PROPERTY),
    ("no line after the version", text(BEGIN, VERSION), LAST),
    ("another end", card(NAME, EMAIL, last=b"END:VCALENDAR"), PROPERTY + OTHER),
    ("a line after the end", card() + text(EMAIL), PROPERTY + "trailing data"),
    ("an empty line after the end", card() + text(b""), PROPERTY + "trailing data"),
    ("two cards", card() * 2, PROPERTY + "trailing data"),
    ("an octet after it", card() + b"\0", PROPERTY + "trailing data"),
    ("no name", card(ORGANIZATION, EMAIL), NAMED),
    ("no property", text(BEGIN, VERSION, END), NAMED),
    ("a name alone", card(NAME), CONTACT),
    ("a name and an organization", card(NAME, ORGANIZATION), CONTACT),
]


def object_of(folder, content):
    return signing.object_of(folder, CARD, content)


def contents(program, folder):
    """Cards that use or break one rule each."""
    for name, content, wrong in CARDS:
        status, output, faults = ran(program, "--check", "-", octets=object_of(folder, content))
        if wrong is None:
            yield f"card: {name}", (status, output, faults), (0, f"-: {UNASKED}\n".encode(), b"")
        else:
            good = output.decode().startswith(f"-: not a Ghostbusters record: {wrong}")
            yield f"card: {name}", (status, good or output, faults), (1, True, b"")


def shown(program, folder):
    """What is printed, as JSON and as lines."""
    octets = object_of(folder, card())
    told = json.loads(ran(program, "--json", "-", octets=octets).output)
    tel = ["tel:+1-666-555-1212", "tel:+1-666-555-1213"]
    labels = "type", "vcard", "name", "organization", "address", "telephone", "email"
    yield "the example in JSON", [told[label] for label in labels], [
        "gbr", card().decode(), ["Human's Name"], ["Organizational Entity"],
        [";;42 Twisty Passage;Deep Cavern;WA;98666;U.S.A."], tel, ["human@example.com"]]
    lines = lines_of(ran(program, "-", octets=octets).output)
    seen = [value for label, value in lines if label in ("Type", "vCard", "Name", "Organization", "Address",
                                                         "Telephone", "Email")]
    yield "the example in lines", seen, [
        "gbr", card().decode().replace("\r\n", "\\0D\\0A"), "Human's Name", "Organizational Entity",
        ";;42 Twisty Passage;Deep Cavern;WA;98666;U.S.A.", ", ".join(tel), "human@example.com"]
    whole = card(folded("FN:a b\\,ä".encode(), 1, 4, 5, 6), b"email:a\\\\b")
    told = json.loads(ran(program, "--json", "-", octets=object_of(folder, whole)).output)
    seen = {label: told.get(label) for label in labels}
    yield "folds in JSON", seen, {"type": "gbr", "vcard": whole.decode(), "name": ["a b\\,ä"], "organization": None,
                                  "address": None, "telephone": None, "email": ["a\\\\b"]}
    lines = dict(lines_of(ran(program, "-", octets=object_of(folder, whole)).output))
    yield "folds in lines", [lines.get(label) for label in ("Name", "Organization", "Email")], [
        "a b\\5C,\\C3\\A4", None, "a\\5C\\5Cb"]


def sizes(program, folder):
    """Lines of many octets, and many lines: each is printed, in order."""
    for count in (0, 1, 127, 128, 255, 256, 65_535, 65_536, 1_000_000):
        long = b"FN:" + b"a" * count
        octets = object_of(folder, card(long, folded(b"EMAIL:" + b"b" * count, *range(75, count, 74))))
        status, output, _ = ran(program, "--json", "-", octets=octets)
        told = json.loads(output)
        yield f"{count} octets", (status, told["name"], told["email"]), (0, ["a" * count], ["b" * count])
    for count in (1, 127, 128, 1_000, 5_000):
        lines = [f"EMAIL:a{number}@example.com" for number in range(count)]
        status, output, _ = ran(program, "--json", "-", octets=object_of(folder, card(
            NAME, *(line.encode() for line in lines))))
        yield f"{count} lines", (status, json.loads(output)["email"]), (0, [line[6:] for line in lines])


TABLES = [contents, shown, sizes]
