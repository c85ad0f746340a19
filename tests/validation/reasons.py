"""What is told on standard error of a repository from which something is missing, or in which it is wrong: each line,
with the rule that is broken."""
from counting import same
from alterations import another_anchor, another_key, as_folder, other_octet, removed, swapped
from repositories import AUTHORITIES, STALE_LIST, STALE_MANIFEST

BASE = "rsync://rpki.example/repo"


def point(authority, why):
    return f"{BASE}/d{authority}/m.mft: publication point rejected: {why}"


def counted(count):
    return f"rpkivalid: example: {count} route origins, 0 providers, 0 router keys"


def anchor(why):
    return [f"rpkivalid: example: no trust anchor: {why}",
            "rpkivalid: no locator has a trust anchor: nothing is written"]


# A name, a change of a repository, a variant of it, and the lines, the last of them in this place.
REASONS = [
    ("nothing", None, {}, [counted(18)]),
    ("a stale list", None, STALE_LIST, [point(0, "invalid: RFC 5280 6.3.3: stale list"), counted(0)]),
    ("a list of tomorrow", None, {"LISTFROM": "261201000000Z"},
     [point(0, "invalid: RFC 5280 6.3.3: issued later"), counted(0)]),
    ("a stale manifest", None, STALE_MANIFEST, [point(0, "invalid: RFC 9286 6.3: stale manifest"), counted(0)]),
    ("a manifest of tomorrow", None, {"MANIFESTFROM": "20261201000000Z"},
     [point(0, "invalid: RFC 9286 6.3: manifest issued later"), counted(0)]),
    ("two lists", None, {"TWOCRL": "1"}, [point(0, "RFC 6481 2.2: not one revocation list"), counted(0)]),
    ("no manifest", removed(2, "m.mft"), {}, [point(2, "RFC 9286 6.2: no manifest"), counted(9)]),
    ("no list", removed(2, "l.crl"), {}, [point(2, f"RFC 9286 6.4: no file at {BASE}/d2/l.crl"), counted(9)]),
    ("no object", removed(2, "r0.roa"), {}, [point(2, f"RFC 9286 6.4: no file at {BASE}/d2/r0.roa"), counted(9)]),
    ("no certificate", removed(0, "ca2.cer"), {},
     [point(0, f"RFC 9286 6.4: no file at {BASE}/d0/ca2.cer"), counted(0)]),
    ("another octet", other_octet(2, "r1.roa"), {},
     [point(2, f"RFC 9286 6.5: another digest at {BASE}/d2/r1.roa"), counted(9)]),
    ("another's manifest", swapped(2, 3, "m.mft"), {},
     [point(2, f"RFC 9286 6.5: another digest at {BASE}/d2/l.crl"), counted(9)]),
    ("another list is named by a manifest", None, {"OTHERLIST": "2"},
     [point(2, "invalid: RFC 6487 4.8.6: another revocation list is named"), counted(9)]),
    ("a list is named by its host in capitals", None, {"CAPITALS": "1"}, [counted(18)]),
    ("a malformed object", None, {"BADROA": "1"},
     [*(f"{BASE}/d{it}/bad.roa: malformed: unexpected value" for it in range(1, AUTHORITIES + 1)), counted(18)]),
    ("a prefix outside", None, {"OUTSIDE": "1"},
     [*(f"{BASE}/d{it}/r0.roa: invalid: RFC 9582 5: prefix outside of the resources"
        for it in range(1, AUTHORITIES + 1)), counted(12)]),
    ("no trust anchor", removed(0, "ca0.cer"), {}, anchor("RFC 8630 3: no trust anchor was fetched")),
    ("another key", another_key, {}, anchor("invalid: RFC 8630 3: key is not that of the locator")),
    ("another certificate", another_anchor, {},
     anchor("invalid: RFC 6487 4.8.6: CRL distribution points of a trust anchor")),
]


def reasons(program, maker):
    """Each reason, line by line: what is rejected in any order, and the count at the end."""
    for name, change, variant, wanted in REASONS:
        _, _, faults = program.run(maker.changed(change, **variant))
        lines = faults.split("\n")
        same(f"{name} is told", (sorted(lines[:-2]), lines[-2:]), (sorted(wanted[:-1]), [wanted[-1], ""]))
    folder = maker.changed(as_folder(2, "r0.roa"))
    _, _, faults = program.run(folder)
    same("a folder is told", faults.split("\n"), [
        f"rpkivalid: {folder}/rpki.example/repo/d2/r0.roa: not read: a folder",
        point(2, f"RFC 9286 6.4: no file at {BASE}/d2/r0.roa"), counted(9), ""])
