#!/usr/bin/env python3
"""Makes the files of bindings/rust/tests/deciding, for what the Cargo package decides by itself: a trust anchor that
has not everything, an authority, end entities, a router, and objects of each type, by X.690 alone, of keys that openssl
makes, with one thing changed in each. Each name says what is changed:

    old      valid in January 2026 alone; the manifest `late` is issued in 2030, and `stale` was due in 2026
    name     a subject without a common name, which is against the profile of names (RFC 6487 4.5, RFC 8209 3.1.1)
    gone     on the authority's revocation list
    untimed  without a signing time; binary: with a binary one beside it (RFC 9589 4)
    trim     of the policy of RFC 8360, with more than the issuer has; beyond: whose content is in what is cut off
    17, 65   so many blocks of addresses and of AS numbers
    key      a subject key identifier that is not the key's; other: an authority key identifier that is not the issuer's
    type     with another type signed; digest: another digest; signer: another signer's identifier; authority: by one

usage: tests/linked/deciding/files.py FOLDER      Needs openssl."""
import hashlib
import os
import sys
import tempfile

sys.dont_write_bytecode = True
sys.path.append(os.path.join(os.path.dirname(os.path.abspath(__file__)), "..", "..", "python"))

from der import TRUE, bits, sequence, set_of, tlv, unsigned
from makers import lists, objects, payloads, resources, x509
from makers.certificate import CA_USAGE, END_ENTITY_USAGE, IS_CA
from makers.lists import authority, entry
from makers.objects import ASPA, MANIFEST, ROA
from makers.rsa import Key
from makers.x509 import extension, name, uri
from openssl import openssl
from programs import write

BASE = b"rsync://rpki.example/repo"
FROM, UNTIL, OLD = "260101000000Z", "360101000000Z", "260201000000Z"
NAMELESS = x509.of_names((x509.ORGANIZATION, x509.PRINTABLE, b"nameless"))
# What the anchor and the authority have: each family another block, and not all.
HAS = {"ip": ["10.0.0.0/8", "2001:db8::/32"], "numbers": [(64496, 64511)]}
MORE = {"ip": ["9.0.0.0/8", "10.1.0.0/16", "2001:db8::/31"], "numbers": [(5, 9), (64490, 64498)]}
REVOKED = {"roa": 71, "asa": 72, "mft": 73, "router": 74}
KINDS = {"roa": ROA, "asa": ASPA, "mft": MANIFEST}


class Maker:
    def __init__(self, folder, room):
        self.folder = folder
        self.top, self.own, self.end = (Key(os.path.join(room, f"{it}.key")) for it in ("ta", "ca", "ee"))
        path = os.path.join(room, "router.key")
        openssl("genpkey", "-algorithm", "EC", "-pkeyopt", "ec_paramgen_curve:P-256", "-out", path)
        self.point = openssl("pkey", "-in", path, "-pubout", "-outform", "DER")

    def certificate(self, kind, by, issuer, subject, ip=(), numbers=(), trims=False, until=UNTIL, serial=9,
                    identifier=None, authority_key=None, place=b"ca/object.roa", key=None,
                    home=b"rpki.example/repo/ca/ca.mft", access=None, above=(BASE + b"/ca/ca.crl", BASE + b"/ca.cer")):
        """A certificate of one of the five kinds, by this key; `ip` and `numbers` of None are the issuer's, `home` is
        where an authority's manifest is, `access` each method and URI in place of that, and `above` the URIs of the
        issuer's list, of which there may be several or none, and of its certificate."""
        is_authority, key = kind in ("ta", "ca"), key or {"ta": self.top, "ca": self.own}.get(kind, self.end)
        public = self.point if kind == "router" else x509.rsa_key(key.bits)
        own = hashlib.sha1(self.point[-65:]).digest() if kind == "router" else key.identifier
        listed = [extension(x509.SUBJECT_KEY, tlv(4, identifier or own))]
        if kind != "ta":
            listed.append(authority(authority_key or by.identifier))
            names = above[0] if isinstance(above[0], tuple) else (above[0],)
            if names:
                listed.append(extension(x509.REVOCATION, sequence(x509.point(*map(uri, names)))))
            listed.append(extension(x509.AUTHORITY_ACCESS, x509.accesses((x509.CA_ISSUERS, uri(above[1])))))
        if is_authority:
            listed.append(extension(x509.CONSTRAINTS, IS_CA, TRUE))
            home = b"rsync://" + home
            access = access or [(x509.REPOSITORY, home.rpartition(b"/")[0] + b"/"), (x509.MANIFEST, home)]
            named = [(method, uri(text)) for method, text in access]
            listed.append(extension(x509.SUBJECT_ACCESS, x509.accesses(*named)))
        if kind == "ee":
            listed.append(extension(x509.SUBJECT_ACCESS, x509.accesses((x509.OBJECT, uri(BASE + b"/" + place)))))
        if kind == "router":
            listed.append(extension(x509.PURPOSES, x509.names(x509.ROUTER)))
        listed.append(extension(x509.USAGE, CA_USAGE if is_authority else END_ENTITY_USAGE, TRUE))
        policy = x509.POLICY_V2 if trims else x509.POLICY
        listed.append(extension(x509.POLICIES, sequence(x509.policy(policy)), TRUE))
        if ip is None or ip:
            value = resources.INHERITED_ADDRESSES if ip is None else resources.addresses(*ip)
            listed.append(extension(x509.ADDRESSES_V2 if trims else x509.ADDRESSES, value, TRUE))
        if numbers is None or numbers:
            value = resources.numbers(*numbers or [])
            listed.append(extension(x509.NUMBERS_V2 if trims else x509.NUMBERS, value, TRUE))
        data = x509.certificate(public, subject, issuer, unsigned(serial), x509.validity(FROM, until), listed)
        return x509.signed(data, signature=bits(by.sign(data)))

    def write(self, file, octets):
        write(self.folder, file, octets)

    def issue(self, file, kind, subject=None, **more):
        """A certificate by the anchor or, of an end entity or a router, by the authority."""
        by, issuer = (self.top, name("ta")) if kind in ("ta", "ca") else (self.own, name("ca"))
        subject = name("ROUTER-0000FBF0" if kind == "router" else kind) if subject is None else subject
        self.write(file, self.certificate(kind, by, subject if kind == "ta" else issuer, subject, **more))

    def object(self, file, content, signed_kind=None, digest=None, identifier=None, members=None, subject=name("ee"),
               signer=None, **more):
        """An object of the end entity's, of the type that the name of the file has; or of another certificate's, which
        has the same key."""
        kind = KINDS[file[-3:]]
        cert = signer or self.certificate("ee", self.own, name("ca"), subject, place=b"ca/" + file.encode(), **more)
        times = [objects.of_time()] if members is None else members
        digest = objects.of_digest(hashlib.sha256(content).digest() if digest is None else digest)
        attributes = [objects.of_type(signed_kind or kind), *times, digest]
        self.write(file, objects.signed_object(kind, content, cert, identifier or self.end.identifier, attributes,
                                               self.end.sign(set_of(*attributes))))


def certificates(make):
    """Certificates of authorities, of a router, and of a key that signs what is in no repository."""
    for kind in "ta", "ca":
        make.issue(f"{kind}.cer", kind, **HAS)
        make.issue(f"{kind}-old.cer", kind, until=OLD, **HAS)
        make.issue(f"{kind}-name.cer", kind, NAMELESS, **HAS)
        make.issue(f"{kind}-key.cer", kind, identifier=bytes(20), **HAS)
    make.issue("ca-other.cer", "ca", authority_key=make.own.identifier, **HAS)
    make.issue("ca-trim.cer", "ca", trims=True, **MORE)
    make.issue("ca-wide.cer", "ca", **MORE)
    make.issue("ca-v4.cer", "ca", ip=["10.0.0.0/8"])
    make.issue("ca-v6.cer", "ca", ip=["2001:db8::/32"])
    for count in 17, 65:
        make.issue(f"ca-{count}.cer", "ca", ip=[f"10.0.{2 * each}.0/24" for each in range(count)])
    make.issue("ca-numbers.cer", "ca", numbers=[64496 + 2 * each for each in range(8)])
    make.issue("ta-numbers.cer", "ta", ip=[f"10.0.{2 * each}.0/24" for each in range(65)],
               numbers=[64496 + 2 * each for each in range(65)])
    make.issue("ca-both.cer", "ca", ip=None, numbers=None)
    make.issue("router.cer", "router", numbers=[64496])
    make.issue("router-old.cer", "router", numbers=[64496], until=OLD)
    make.issue("router-name.cer", "router", NAMELESS, numbers=[64496])
    make.issue("router-gone.cer", "router", numbers=[64496], serial=REVOKED["router"])
    make.issue("router-trim.cer", "router", numbers=MORE["numbers"], trims=True)
    make.issue("router-wide.cer", "router", numbers=MORE["numbers"])
    make.issue("detached.cer", "detached", numbers=[64496])
    make.issue("detached-old.cer", "detached", numbers=[64496], until=OLD)
    make.issue("detached-name.cer", "detached", NAMELESS, numbers=[64496])


def revocation_lists(make):
    for file, until in ("ca.crl", UNTIL), ("ca-old.crl", OLD):
        listed = sequence(*(entry(number) for number in REVOKED.values()))
        own = lists.extensions([authority(make.own.identifier), lists.number()])
        data = lists.fields(issuer=name("ca"), this=x509.time(FROM), next=x509.time(until), entries=listed,
                            extensions=own)
        make.write(file, x509.signed(data, signature=bits(make.own.sign(data))))


def signed_objects(make):
    """Of each type, what is changed alike."""
    prefixes = payloads.family(4, [("10.1.0.0/16", 24)]), payloads.family(6, [("2001:db8::/48",)])
    with open(os.path.join(make.folder, "ca.crl"), "rb") as listed:
        files = [payloads.file("ca.crl", listed.read()), payloads.file("a.roa", b"a")]
    contents = {"roa": payloads.roa(64496, *prefixes), "asa": payloads.aspa(64496, [64499, 64501]),
                "mft": payloads.manifest(files, until="20360101000000Z")}
    own = {"roa": {"ip": HAS["ip"]}, "asa": {"numbers": [64496]}, "mft": {"ip": None, "numbers": None}}
    for kind, content in contents.items():
        def made(word, octets=content, **more):
            make.object(f"{word}.{kind}", octets, **{**own[kind], **more})

        made("ee")
        made("old", until=OLD)
        made("name", subject=NAMELESS)
        made("gone", serial=REVOKED[kind])
        made("untimed", members=[])
        made("binary", members=[objects.of_time(), objects.of_seconds()])
        made("type", signed_kind=objects.CHECKLIST)
        made("digest", digest=bytes(32))
        made("signer", identifier=bytes(20))
    make.object("authority.roa", contents["roa"],
                signer=make.certificate("ca", make.own, name("ca"), name("ee"), key=make.end, **HAS))
    make.object("order.roa", payloads.roa(64496, *prefixes[::-1]), **own["roa"])
    make.object("trim.roa", contents["roa"], ip=MORE["ip"], trims=True)
    make.object("beyond.roa", payloads.roa(64496, payloads.family(4, [("9.1.0.0/16",)])), ip=MORE["ip"], trims=True)
    make.object("beyond6.roa", payloads.roa(64496, payloads.family(6, [("2001:db9::/48",)])), ip=MORE["ip"], trims=True)
    make.object("trim.asa", contents["asa"], numbers=MORE["numbers"], trims=True)
    make.object("beyond.asa", payloads.aspa(5, [6]), numbers=MORE["numbers"], trims=True)
    make.object("stale.mft", payloads.manifest(files), **own["mft"])
    make.object("late.mft", payloads.manifest(files, this="20300101000000Z", until="20360101000000Z"), **own["mft"])


def main():
    if len(sys.argv) != 2 or sys.argv[1].startswith("-"):
        sys.exit(__doc__)
    os.makedirs(sys.argv[1], exist_ok=True)
    with tempfile.TemporaryDirectory() as room:
        make = Maker(sys.argv[1], room)
        certificates(make)
        revocation_lists(make)
        signed_objects(make)


if __name__ == "__main__":
    main()
