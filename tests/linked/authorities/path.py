#!/usr/bin/env python3
"""Makes the files that authorities.c reads: those of tests/linked/deciding/files.py, by keys of their own, and beside
them what a path needs:

    ta.key       the anchor's public key, as a locator has it; router.key: another one, which is by no RSA
    ta.crl       the anchor's revocation list, which has the serial number of ca-gone.cer
    again.crl    another list of the authority, which its manifests don't list
    self.cer     the authority's own certificate, by itself; up.cer: one of the anchor's key, by the authority
    twice.mft    a manifest that names two files alike; own.mft: one whose certificate has resources of its own
    unlisted.mft one without a list; other.mft: with another; second.mft: with the list by two names
    homed, away  the authority with two folders behind one by https, in capitals; with its folder elsewhere
    none         no octets

and manifests whose certificates have these URIs of the list, as LISTS says.

usage: tests/linked/authorities/path.py FOLDER      Needs openssl."""
import os
import sys
import tempfile

sys.dont_write_bytecode = True
HERE = os.path.dirname(os.path.abspath(__file__))
sys.path[:0] = [os.path.join(HERE, "..", "deciding"), os.path.join(HERE, "..", "..", "python")]

import files
from files import BASE, FROM, HAS, UNTIL, Maker, bits, entry, lists, name, openssl, payloads, sequence, x509

GONE = 75
HOME = BASE + b"/ca/"
# By the name of the manifest: the name of the list that it lists, and what its certificate says of it.
LISTS = {
    "capitals": ("ca.crl", b"RSYNC://RPKI.Example/repo/ca/ca.crl"),
    "several": ("ca.crl", b"https://rpki.example/repo/ca/cb.crl", HOME + b"ca.crl", HOME + b"cb.crl"),
    "renamed": ("cb.crl", HOME + b"cb.crl"),
    "elsewhere": ("ca.crl", BASE + b"/cb/ca.crl"),
    "none": ("ca.crl",),
    "named": ("ca.crl", HOME + b"cb.crl"),
    "listed": ("cb.crl", HOME + b"ca.crl"),
    "behind": ("ca.crl", HOME + b"cb.crl", HOME + b"ca.crl"),
    "below": ("ca.crl", HOME + b"in/ca.crl"),
    "above": ("ca.crl", BASE + b"/ca.crl"),
    "folder": ("ca.crl", HOME + b"ca.crl/"),
    "cased": ("ca.crl", BASE + b"/CA/ca.crl"),
    "module": ("ca.crl", b"rsync://rpki.example/Repo/ca/ca.crl"),
    "host": ("ca.crl", b"rsync://rpki.example.org/repo/ca/ca.crl"),
    "port": ("ca.crl", b"rsync://rpki.example:873/repo/ca/ca.crl"),
}


def public(key):
    return openssl("pkey", "-in", key.path, "-pubout", "-outform", "DER")


def of_the_path(make):
    make.write("none", b"")
    make.write("ta.key", public(make.top))
    make.write("router.key", make.point)
    for file, key, issuer in ("ta.crl", make.top, "ta"), ("again.crl", make.own, "ca"):
        own = lists.extensions([files.authority(key.identifier), lists.number()])
        data = lists.fields(issuer=name(issuer), this=x509.time(FROM), next=x509.time(UNTIL),
                            entries=sequence(entry(GONE)), extensions=own)
        make.write(file, x509.signed(data, signature=bits(key.sign(data))))
    make.issue("ca-gone.cer", "ca", serial=GONE, **HAS)
    make.write("self.cer", make.certificate("ca", make.own, name("ca"), name("ca"), **HAS))
    make.write("up.cer", make.certificate("ca", make.own, name("ca"), name("ta"), key=make.top, **HAS))
    twice = payloads.manifest([payloads.file("a.roa", b"a"), payloads.file("a.roa", b"b")], until="20360101000000Z")
    make.object("twice.mft", twice, ip=None, numbers=None)
    make.object("own.mft", payloads.manifest([payloads.file("a.roa", b"a")], until="20360101000000Z"), **HAS)
    with open(os.path.join(make.folder, "ca.crl"), "rb") as file:
        octets = file.read()
    for word, listed in [("unlisted", []), ("other", [("ca.crl", octets + b"a")]),
                         ("second", [("ca.crl", octets), ("cb.crl", octets)])]:
        named = [payloads.file(*each) for each in [*listed, ("a.roa", b"a")]]
        make.object(f"{word}.mft", payloads.manifest(named, until="20360101000000Z"), ip=None, numbers=None)
    for word, (listed, *places) in LISTS.items():
        content = payloads.manifest([payloads.file(listed, octets), payloads.file("a.roa", b"a")],
                                    until="20360101000000Z")
        make.object(f"list-{word}.mft", content, ip=None, numbers=None, above=(tuple(places), BASE + b"/ca.cer"))
    host = b"RSYNC://RPKI.Example/repo/"
    folders = [b"https://rpki.example/repo/cb/", host + b"ca/", host + b"cb/"]
    access = [*((x509.REPOSITORY, it) for it in folders), (x509.MANIFEST, host + b"ca/ca.mft")]
    make.issue("ca-homed.cer", "ca", access=access, **HAS)
    make.issue("ca-away.cer", "ca", home=b"rpki.example/repo/cb/ca.mft", **HAS)
    make.object("both.roa", payloads.roa(64496, payloads.family(4, [("10.1.0.0/16",)])), **HAS)
    make.object("both.asa", payloads.aspa(64496, [64499]), **HAS)


def main():
    if len(sys.argv) != 2 or sys.argv[1].startswith("-"):
        sys.exit(__doc__)
    os.makedirs(sys.argv[1], exist_ok=True)
    with tempfile.TemporaryDirectory() as room:
        make = Maker(sys.argv[1], room)
        files.certificates(make)
        files.revocation_lists(make)
        files.signed_objects(make)
        of_the_path(make)


main()
