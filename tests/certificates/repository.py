"""The objects of a repository that openssl makes, beside certificates, as rpkicert prints them: beside what openssl
says of them and what they were made of, and that a name of a file tells nothing."""
import json
import os
import subprocess

import forms
from fields import UNASKED
from openssl import key_identifier, moment, openssl, said_of, signing_time, text_of
from programs import TOP, octets_of, ran, write

BASE = "rsync://rpki.example/repo"
NAMED = ["-nameopt", "sep_comma_plus_space,sname"]
# What the repository is made of: of each object its folder, its issuer, the name of its certificate, and its type.
SIGNED = {"ca.mft": ("rpki.example/repo/ca", "ca", "camft", "manifest"),
          "ta.mft": ("rpki.example/repo/ta", "ta", "tamft", "manifest"),
          "roa.roa": ("rpki.example/repo/ca", "ca", "roa", "roa"),
          "one.roa": ("rpki.example/repo/ca", "ca", "one", "roa"),
          "aspa.asa": ("work", "ca", "aspa", "aspa"), "gone.roa": ("rpki.example/repo/ca", "ca", "gone", "roa")}
ORIGINS = {"roa.roa": (64496, [("10.0.0.0/8", 24), ("10.64.0.0/13", 13), ("192.0.2.0/25", 25), ("2001:db8::/32", 48)]),
           "one.roa": (0, [("203.0.113.64/26", 26)]), "gone.roa": (64496, [("10.1.0.0/16", 16)])}
CUSTOMER, PROVIDERS = 64496, [64499, 64501]
PERIOD = ("2026-01-01 00:00:00Z", "2036-01-01 00:00:00Z")


def iso(moment):
    """A time in the form of ISO 8601."""
    return moment.strftime("%Y-%m-%d %H:%M:%SZ")


def digest(path):
    """The digest of the file."""
    return forms.hash_id(octets_of(path))


def of_list(repository, name):
    """A revocation list: its fields and what it lists."""
    path = os.path.join(repository, "rpki.example/repo", name, name + ".crl")
    fields = [("File", path), digest(path), ("Signature", "not checked"), ("Type", "crl"),
              ("CRL Issuer", said_of(path, "-issuer", *NAMED, kind="crl")),
              ("CRL Serial", said_of(path, "-crlnumber", kind="crl").replace("0x", "")),
              ("Valid Since", PERIOD[0]), ("Valid Until", PERIOD[1]),
              ("AKI", key_identifier(os.path.join(repository, "rpki.example/repo/ta", name + ".cer")))]
    text = text_of(path, "crl")
    items = []
    for entry in text.split("Serial Number: ")[1:]:
        items.append([("Serial", entry.split()[0]),
                      ("Revocation Date", iso(moment(entry.split("Revocation Date: ", 1)[1].splitlines()[0].strip())))])
    return path, fields, ("Revoked Certs", items)


def of_signed(repository, name):
    """A signed object: its fields and what it lists."""
    folder, issuer, entity, kind = SIGNED[name]
    path = os.path.join(repository, folder, name)
    cert = os.path.join(repository, "work", entity + ".cer")
    of_cert = "Cert " if kind == "manifest" else ""
    fields = [("File", path), digest(path), ("Signature", "good, issuer not checked"), ("Type", kind),
              ("SKI", key_identifier(cert)),
              ("AKI", key_identifier(os.path.join(repository, "rpki.example/repo/ta", issuer + ".cer"))),
              ("Cert Issuer", said_of(cert, "-issuer", *NAMED)), ("Cert Serial", said_of(cert, "-serial")),
              ("AIA", f"{BASE}/ta/{issuer}.cer"), ("SIA", f"{BASE}/{issuer}/{name}"),
              ("Signing Time", iso(signing_time(path))),
              (of_cert + "Valid Since", said_of(cert, "-startdate", "-dateopt", "iso_8601")),
              (of_cert + "Valid Until", said_of(cert, "-enddate", "-dateopt", "iso_8601"))]
    if kind == "manifest":
        fields += [("Manifest Number", "07"), ("Valid Since", PERIOD[0]), ("Valid Until", PERIOD[1])]
        return path, fields, ("FilesAndHashes", files_beside(path))
    if kind == "roa":
        number, prefixes = ORIGINS[name]
        items = [[("Prefix", prefix), ("ASID", number), ("MaxLen", most)] for prefix, most in prefixes]
        return path, fields + [("ASID", number)], ("VRPs", items)
    return path, fields + [("Customer ASID", CUSTOMER)], ("Provider Set", [[("ASID", one)] for one in PROVIDERS])


def files_beside(path):
    """What a manifest lists: all that is beside it, but the anchor's certificate."""
    folder, items = os.path.dirname(path), []
    for name in sorted(os.listdir(folder)):
        if not name.endswith(".mft") and name != "ta.cer":
            _, text = digest(os.path.join(folder, name))
            items.append([("Filename", name), ("Hash", text)])
    return items


def as_text(fields, listing):
    """The lines, and an empty one at the end."""
    label, items = listing
    lines = [f"{name}: {value}" for name, value in fields]
    lines += [f"{label}: " + ", ".join(f"{name} {value}" for name, value in item) for item in items]
    return "".join(line + "\n" for line in [*lines, ""]).encode()


def as_pairs(fields, listing):
    """The members, in order."""
    label, items = listing
    return forms.pairs(fields) + [(forms.member(label), [forms.pairs(item) for item in items])]


def made(folder):
    """The repository."""
    repository = os.path.join(folder, "repository")
    maker = os.path.join(TOP, "tests/linked/repository/make")
    subprocess.run(["sh", maker, repository], check=True, capture_output=True)
    return repository


def repository(program, folder):
    """Each object as a text and as JSON, and under names that say something else."""
    place = made(folder)
    rows = [of_list(place, name) for name in ("ta", "ca")] + [of_signed(place, name) for name in SIGNED]
    for path, fields, listing in rows:
        name = os.path.basename(path)
        access = forms.listed(os.path.join(place, "work", SIGNED[name][2] + ".cer")) if name in SIGNED else []
        yield name, ran(program, path), (0, as_text(fields, listing), b"")
        status, output, faults = ran(program, "--json", path)
        pairs = json.loads(output, object_pairs_hook=list)
        yield f"{name} as JSON", (status, pairs, faults), (0, as_pairs(fields, listing) + access, b"")
        octets = octets_of(path)
        fields[0] = ("File", "-")
        yield f"{name} as input", ran(program, "-", octets=octets), (0, as_text(fields, listing), b"")
        if name.endswith(".crl"):
            text = b"a list\n" + openssl("crl", "-inform", "DER", "-in", path)
            yield f"{name} as PEM", ran(program, "-", octets=text), (0, as_text(fields, listing), b"")
        for ending in ("cer", "crl", "mft", "roa", "asa", "txt"):
            other = write(folder, "object." + ending, octets)
            fields[0] = ("File", other)
            yield f"{name} named .{ending}", ran(program, other), (0, as_text(fields, listing), b"")
    paths = [path for path, _, _ in rows]
    yield "all are well", ran(program, "--check", *paths), (
        0, "".join(f"{path}: {UNASKED}\n" for path in paths).encode(), b"")
    for profile, good in (("ee", True), ("ca", False), ("detached", False)):
        status, output, _ = ran(program, "--check", "--profile", profile, *paths)
        seen = [f"{path}: {UNASKED}\n" in output.decode() for path in paths]
        wanted = [good and not path.endswith(".crl") for path in paths]
        yield f"the signers as {profile}", (status, seen), (1, wanted)
    path = rows[0][0]
    for profile in ("ta", "ca", "ee", "detached", "router"):
        seen = ran(program, "--check", "--profile", profile, path)
        yield f"a list as {profile}", seen, (1, f"{path}: not a certificate\n".encode(), b"")


TABLES = [repository]
