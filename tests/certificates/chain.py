"""The certificates of authority.py: as texts and as JSON, one by one and together, by their profiles, and verified as a
chain by the library and by openssl."""
import json
import subprocess
from datetime import datetime, timedelta, timezone

import forms
from fields import PROFILES, UNASKED, expected_fields, lines_of, signature, verdict
from makers import authority
from makers.certificate import Certificate
from programs import octets_of, ran

ISSUERS = {name: issuer for name, _, issuer, *_ in authority.CERTIFICATES}


def texts(program, folder):
    """Each certificate as a text and as JSON, of DER, of PEM and of standard input."""
    paths = authority.paths(folder)
    for name in PROFILES:
        fields = [forms.hash_id(octets_of(paths[name] + ".der")), signature(name)] + expected_fields(name, paths)
        for ending in (".der", ".pem"):
            path = paths[name] + ending
            status, output, faults = ran(program, path)
            yield f"{name}{ending}", (status, lines_of(output), faults), (0, [("File", path)] + fields, b"")
            status, output, faults = ran(program, "-", octets=octets_of(path))
            yield f"{name}{ending} as input", (status, lines_of(output), faults), (0, [("File", "-")] + fields, b"")
            status, output, faults = ran(program, "--json", path)
            pairs = json.loads(output, object_pairs_hook=list)
            named = forms.pairs([("File", path)] + fields) + [forms.resources(fields)]
            named += forms.listed(paths[name] + ".der")
            yield f"{name}{ending} as JSON", (status, pairs, faults), (0, named, b"")
            yield f"{name}{ending} on a line", output.count(b"\n"), 1


def several(program, folder):
    """Many files, in order, and the greatest status."""
    paths = authority.paths(folder)
    files = [paths[name] + ".der" for name in PROFILES]
    status, output, faults = ran(program, "--check", *files)
    yield "all are well", (status, output.decode(), faults), (
        0, "".join(f"{path}: {verdict(path)}\n" for path in files), b"")
    status, output, faults = ran(program, "--json", *files)
    names = [json.loads(line)["file"] for line in output.splitlines()]
    yield "an object a line", (status, names, faults), (0, files, b"")
    status, output, faults = ran(program, *files)
    names = [value for label, value in lines_of(output) if label == "File"]
    yield "one text after another", (status, names, faults), (0, files, b"")
    status, output, faults = ran(program, "--check", "--profile", "ca", *files)
    good = [f"{path}: {UNASKED}\n" in output.decode() for path in files]
    yield "of one profile", (status, good, faults), (1, [name == "ca" for name in PROFILES], b"")
    lost = paths["ta"] + ".none"
    said = f"{lost}: cannot be read: No such file or directory\n"
    for order in ([files[0], lost, files[1]], [lost, files[0]], [files[0], lost]):
        status, output, faults = ran(program, "--check", *order)
        lines = "".join(said if path == lost else f"{path}: {verdict(path)}\n" for path in order)
        yield f"one of {len(order)} is lost", (status, output.decode(), faults), (2, lines, b"")
    status, output, faults = ran(program, lost, files[0])
    first = lines_of(output)[0]
    yield "a text after a fault", (status, first, faults), (2, ("File", files[0]), f"rpkicert: {said}".encode())
    for order in ["--json", "--check"], ["--check", "--json"]:
        status, output, faults = ran(program, *order, "--profile", "ca", lost, *files)
        told = [json.loads(line, object_pairs_hook=list) for line in output.splitlines()]
        lines = ran(program, "--check", "--profile", "ca", lost, *files)[1].decode().splitlines()
        said = {path: [line[len(path) + 2:] for line in lines if line.startswith(f"{path}: ")]
                for path in [lost, *files]}
        front = "violates the profile: "
        wanted = [[("file", path), ("signature", "not checked"), ("verdict", told_of[0])]
                  + [("violations", [[("rule", rule[len(front):])] for rule in told_of])
                     for _ in told_of[:1] if told_of[0].startswith(front)]
                  for path, told_of in said.items()]
        yield f"verdicts as JSON {order}", (status, told, faults), (2, wanted, b"")
    many = files * 100
    status, output, faults = ran(program, "--check", *many)
    yield "four hundred", (status, output.decode(), faults), (
        0, "".join(f"{path}: {verdict(path)}\n" for path in many), b"")


def profiles(program, folder):
    """Each certificate has its own profile alone; the text is printed whether it has the profile or not."""
    paths = authority.paths(folder)
    for name in PROFILES:
        for profile in PROFILES:
            path = paths[name] + ".der"
            status, output, faults = ran(program, "--profile", profile, path)
            seen = (status, output.startswith(b"File: "), faults.startswith(f"rpkicert: {path}: violates".encode()))
            yield f"{name} as {profile}", seen, (0, True, False) if name == profile else (1, True, True)


def chains(calls, folder):
    """A chain is verified where openssl verifies it. The signature that `hostile_calls` finds good is the digest by
    SHA-256 of what is signed and of the key's bits; it takes the place of openssl's."""
    paths = authority.paths(folder)

    def read(name):
        return Certificate(octets_of(paths[name] + ".der"))

    def stamped(name):
        it = read(name)
        it.signer = read(ISSUERS[name])
        return it.stamp()

    moment = (datetime.now(timezone.utc) + timedelta(days=1)).strftime("%Y-%m-%dT%H:%M:%SZ")
    rows = [(["ta"], True), (["ta", "ca"], True), (["ta", "ca", "ee"], True), (["ta", "ca", "router"], True),
            (["ta", "ee"], False), (["ta", "router"], False), (["ca"], False)]
    for names, good in rows:
        seen = ran(calls, "certificate", "chain", moment, octets=b"".join(map(stamped, names)))
        lines = seen[1].decode().splitlines()
        whole = len(lines) == 1 + 2 * len(names[1:])
        yield f"chain {names}", all(line.endswith(" ok") for line in lines) and whole, good
        between = [word for name in names[1:-1] for word in ("-untrusted", paths[name] + ".pem")]
        checked = subprocess.run(["openssl", "verify", "-x509_strict", "-ignore_critical", "-trusted",
                                  paths[names[0]] + ".pem", *between, paths[names[-1]] + ".pem"], capture_output=True)
        yield f"chain {names} by openssl", checked.returncode == 0, good


TABLES = [texts, several, profiles]
