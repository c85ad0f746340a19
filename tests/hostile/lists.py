"""Revocation lists: variants, changed octets and beginnings, large lists, and lists of openssl. What is expected of
them is what the RFCs say."""
import os
import random
import re
import tempfile

import openssl
from der import FALSE, sequence, unsigned
from makers.chain import MOMENT, chain
from makers.lists import HIGHEST, THIS, authority, entry, extensions, fields, issued, listed, number, of
from makers.x509 import NO_PARAMETERS, name, signed, time
from openssl import openssl_in, text_of
from programs import octets_of, run, write
from variants.lists import ACCEPTED, REFUSED, rejected


def seen(programs, octets, *words):
    told = run(programs.calls, ["list", *words], octets)
    return told.status, told.output.decode().split("\n")[:-1]


def list_variants(programs):
    """Lists that use or break one rule each. Where an error's text is another table's matter, none is expected."""
    for title, octets, expected in ACCEPTED + REFUSED:
        status, told = seen(programs, octets, "read")
        if expected is None:
            yield title, (status, len(told), told[0].split(" ")[0]), (0, 1, "rejected")
        else:
            yield title, (status, told), (0, expected)


def list_beginnings(programs):
    """Each beginning of a list is rejected; at its end the list is."""
    octets = listed()
    for end in range(len(octets)):
        status, told = seen(programs, octets[:end], "read")
        yield f"{end} octets", (status, told), (0, rejected("truncated value"))


def large_lists(programs):
    """Lists of many entries: each is found, and no other; the same once their serial numbers are kept as a set."""
    source = random.Random(5280)
    for count in (1, 127, 128, 1_000, 65_536, 100_000):
        numbers = source.sample(range(1 << 40), count)
        octets = listed(entries=sequence(*(entry(number) for number in numbers)))
        there = {0: numbers[0], 1: numbers[-1], 2: numbers[count // 2]}
        absent = [number + 1 for number in there.values() if number + 1 not in set(numbers)]
        asked = [*there.values(), *absent, 0, HIGHEST]
        status, told = seen(programs, octets, "contains", ",".join(map(str, asked)))
        expected = [f"contains {'true' if number in set(there.values()) else 'false'}" for number in asked]
        yield f"{count} entries", (status, told), (0, 2 * expected)


def issued_lists(programs):
    """Whether a verified authority has issued a list, and whether the list is stale (RFC 5280 6.3.3)."""
    anchor, other, _ = chain()
    at, end = MOMENT, "2027-07-01T00:00:00Z"
    no_signature = "verify RFC 5280 6.3.3: bad signature"
    rows = [
        ("issued", issued(anchor), at, "stale false"),
        ("at its last second", issued(anchor), end, "stale false"),
        ("a second later", issued(anchor), "2027-07-01T00:00:01Z", "stale true"),
        ("issued at the moment", issued(anchor, this=time("270601000000Z")), at, "stale false"),
        ("issued a second later", issued(anchor, this=time("270601000001Z")), at,
         "verify RFC 5280 6.3.3: issued later"),
        ("another name", issued(anchor, issuer=name("B")), at,
         "verify RFC 5280 6.3.3: issuer name mismatch"),
        ("another key's identifier", issued(anchor, identifier=bytes(20)), at,
         "verify RFC 5280 6.3.3: authority key identifier mismatch"),
        ("another key's signature", issued(anchor, signer=other), at, no_signature),
        ("another authority's list", issued(other), at, no_signature),
        ("a signature that was changed", issued(anchor, turned=1), at, no_signature),
        ("an authority that isn't valid any more", issued(anchor), "2028-01-01T00:00:01Z",
         "verify_ta RFC 6487 7.2: certificate has expired"),
    ]
    for title, octets, moment, expected in rows:
        told = run(programs.calls, ["list", "issued", moment], anchor.stamp() + octets)
        yield title, (told.status, told.output.decode()), (0, expected + "\n")


CONFIGURATION = """[ca]
default_ca = issuer
[issuer]
database = index
crlnumber = number
default_md = sha256
default_crl_days = 30
crl_extensions = extensions
[extensions]
authorityKeyIdentifier = keyid
[req]
distinguished_name = name
prompt = no
[name]
commonName = issuer
[root]
basicConstraints = critical, CA:TRUE
subjectKeyIdentifier = hash
"""


def told_by_openssl(folder):
    """The lines of the list in a folder, as openssl reads it."""
    said = text_of(os.path.join(folder, "list.crl"), "crl")
    dates = [int(openssl.moment(date).timestamp()) for date in re.findall(r"(?:Update|Revocation Date): (.*)", said)]
    identifier = re.search(r"Authority Key Identifier: *\n *(?:keyid:)?([0-9A-F:]+)", said)[1].replace(":", "")
    of_list = int(re.search(r"CRL Number: *\n *(\d+)", said)[1])
    serials = [int(digits, 16) for digits in re.findall(r"Serial Number: ([0-9A-F]+)", said)]
    found = [f"this_update {dates[0]}", f"next_update {dates[1]}", f"authority_key_identifier {identifier}"]
    found.append(f"crl_number {of_list:040X}")
    for serial, date in zip(serials, dates[2:]):
        found += [f"revoked {serial:040X}", f"at {date}"]
    return found


def lists_of_openssl(programs):
    """Lists that openssl makes say what openssl reads of them."""
    with tempfile.TemporaryDirectory() as folder:
        for file, text in (("configuration", CONFIGURATION), ("index", ""), ("number", "1A2B\n")):
            write(folder, file, text.encode())
        of = ("-config", "configuration")
        openssl_in(folder, "req", "-x509", "-newkey", "rsa:2048", "-nodes", "-keyout", "key", "-out", "cert",
                   "-extensions", "root", *of)
        for count in (0, 1, 40):
            write(folder, "index", b"".join(
                b"R\t360101000000Z\t2601%02d000000Z\t%08X\tunknown\t/CN=x\n" % (1 + number % 28, number * 7919 + 16)
                for number in range(count)))
            openssl_in(folder, "ca", "-gencrl", "-keyfile", "key", "-cert", "cert", "-out", "list", *of)
            openssl_in(folder, "crl", "-in", "list", "-outform", "DER", "-out", "list.crl")
            status, told = seen(programs, octets_of(folder, "list.crl"), "read")
            yield f"{count} entries", (status, told[1:]), (0, told_by_openssl(folder))


def written_lists(programs):
    """What is signed of a list, written: the algorithm with its parameters, times as certificates have them, and the
    authority key identifier before the number, neither with FALSE (RFC 5280 5.1.2, RFC 6487 5)."""
    usual = fields()
    for name_of, octets, wanted in [
        ("as it is", listed(), usual),
        ("the number first", of([number(), authority()]), usual),
        ("FALSE, spelled", of([authority(critical=FALSE), number()]), usual),
        ("no parameters", signed(fields(algorithm=NO_PARAMETERS), NO_PARAMETERS), usual),
        ("generalized time before 2050", listed(this=time("20" + THIS)), usual),
        ("times from 2050 on", listed(next=time("20500101000000Z")), fields(next=time("20500101000000Z"))),
        ("no list of entries", listed(entries=b""), fields(entries=b"")),
        ("an empty one", listed(entries=sequence()), fields(entries=sequence())),
        ("the highest numbers", listed(entries=sequence(entry(HIGHEST)), extensions=extensions(
            [authority(), number(unsigned(HIGHEST))])), fields(entries=sequence(entry(HIGHEST)), extensions=extensions(
                [authority(), number(unsigned(HIGHEST))]))),
    ]:
        yield name_of, seen(programs, octets, "written"), (0, [f"written {wanted.hex().upper()}"])
    for count in (0, 1, 127, 128, 5_000, 50_000):
        entries = sequence(*(entry(serial) for serial in range(1, count + 1)))
        wanted = fields(entries=entries)
        yield f"{count} entries", seen(programs, listed(entries=entries), "written"), (
            0, [f"written {wanted.hex().upper()}"])


TABLES = [lists_of_openssl, issued_lists, list_variants, list_beginnings, large_lists, written_lists]
