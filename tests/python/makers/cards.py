"""vCards of Ghostbusters records (RFC 6493 3, RFC 6350), as lists of lines."""
from der import oid

CARD = oid("1.2.840.113549.1.9.16.1.35")
BEGIN, VERSION, END = b"BEGIN:VCARD", b"VERSION:4.0", b"END:VCARD"
# The example of RFC 6493 3.
NAME, ORGANIZATION = b"FN:Human's Name", b"ORG:Organizational Entity"
ADDRESS = b"ADR;TYPE=WORK:;;42 Twisty Passage;Deep Cavern;WA;98666;U.S.A."
VOICE = b"TEL;TYPE=VOICE,TEXT,WORK;VALUE=uri:tel:+1-666-555-1212"
FAX = b"TEL;TYPE=FAX,WORK;VALUE=uri:tel:+1-666-555-1213"
EMAIL = b"EMAIL:human@example.com"
PROPERTIES = NAME, ORGANIZATION, ADDRESS, VOICE, FAX, EMAIL


def text(*lines, end=b"\r\n"):
    """Lines, each with its break."""
    return b"".join(line + end for line in lines)


def card(*properties, begin=BEGIN, version=VERSION, last=END):
    """A card of these properties; those of the example where none is given."""
    return text(begin, version, *(properties or PROPERTIES), last)


def folded(octets, *places, space=b" "):
    """The octets with a fold in front of each of these places (RFC 6350 3.2)."""
    for place in sorted(places, reverse=True):
        octets = octets[:place] + b"\r\n" + space + octets[place:]
    return octets
