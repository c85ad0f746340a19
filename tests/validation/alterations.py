"""Changes of a repository, and repositories that are made otherwise, with what is valid of each."""
import os
import shutil

from programs import octets_of
from repositories import AUTHORITIES, STALE_LIST, STALE_MANIFEST, below, edit, file_of, parent


def removed(authority, name):
    return lambda folder: os.remove(file_of(folder, authority, name))


def other_octet(authority, name):
    def change(folder):
        octets = bytearray(octets_of(file_of(folder, authority, name)))
        octets[len(octets) // 2] ^= 1
        edit(file_of(folder, authority, name), bytes(octets))
    return change


def cut(authority, name, size):
    return lambda folder: edit(file_of(folder, authority, name), octets_of(file_of(folder, authority, name))[:size])


def longer(authority, name):
    return lambda folder: edit(file_of(folder, authority, name), octets_of(file_of(folder, authority, name)) + b"\0")


def swapped(authority, other, name):
    def change(folder):
        shutil.copyfile(file_of(folder, other, name), file_of(folder, authority, name))
    return change


def as_folder(authority, name):
    def change(folder):
        os.remove(file_of(folder, authority, name))
        os.mkdir(file_of(folder, authority, name))
    return change


def added(authority, name):
    return lambda folder: shutil.copyfile(file_of(folder, authority, "r0.roa"), file_of(folder, authority, name))


def another_anchor(folder):
    shutil.copyfile(file_of(folder, 0, "ca1.cer"), file_of(folder, 0, "ca0.cer"))


def another_key(folder):
    """The locator's key is no longer that of the trust anchor."""
    path = os.path.join(folder, "example.tal")
    with open(path, encoding="ascii") as file:
        head, _, digits = file.read().partition("\n\n")
    lines = digits.split("\n")
    lines[2] = lines[2].swapcase()
    edit(path, f"{head}\n\n{chr(10).join(lines)}".encode())


# A name, a change, the authorities whose payloads are left, and the status.
def changes():
    everyone = below(0)
    for it in range(1, AUTHORITIES + 1):
        left = [other for other in everyone if other not in below(it)]
        sister = it % AUTHORITIES + 1
        yield f"{it}: a route origin is missing", removed(it, "r0.roa"), left, 0
        yield f"{it}: the last route origin is missing", removed(it, "r2.roa"), left, 0
        yield f"{it}: a route origin has another octet", other_octet(it, "r1.roa"), left, 0
        yield f"{it}: a route origin is cut short", cut(it, "r0.roa", 300), left, 0
        yield f"{it}: a route origin is empty", cut(it, "r0.roa", 0), left, 0
        yield f"{it}: a route origin is longer", longer(it, "r0.roa"), left, 0
        yield f"{it}: a folder in place of a route origin", as_folder(it, "r0.roa"), left, 0
        yield f"{it}: the manifest is missing", removed(it, "m.mft"), left, 0
        yield f"{it}: the manifest has another octet", other_octet(it, "m.mft"), left, 0
        yield f"{it}: the manifest of another authority", swapped(it, sister, "m.mft"), left, 0
        yield f"{it}: the revocation list is missing", removed(it, "l.crl"), left, 0
        yield f"{it}: the revocation list has another octet", other_octet(it, "l.crl"), left, 0
        yield f"{it}: the revocation list of another authority", swapped(it, sister, "l.crl"), left, 0
        yield f"{it}: the certificate is missing", removed(parent(it), f"ca{it}.cer"), \
            [other for other in everyone if other not in below(parent(it))], 0
        yield f"{it}: a file that no manifest lists", added(it, "extra.roa"), everyone, 0
    yield "the trust anchor is missing", removed(0, "ca0.cer"), [], 2
    yield "another certificate in place of the trust anchor", another_anchor, [], 2
    yield "another key in the locator", another_key, [], 2
    yield "nothing is changed", None, everyone, 0


# A name, what is made, and the authorities whose payloads are valid.
def variants():
    everyone = below(0)
    for name in ("UNKNOWN", "BADROA", "BADCER", "BADGBR", "ASPA", "ROUTER"):
        yield f"with {name}", {name: "1"}, everyone
    yield "two revocation lists", {"TWOCRL": "1"}, []
    yield "stale revocation lists", STALE_LIST, []
    yield "stale manifests", STALE_MANIFEST, []
    for count in (4, 6):
        yield f"{count} authorities certify each other", {"CROSS": str(count)}, everyone
