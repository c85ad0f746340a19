"""Words that rpkicert is given: options in any order, and what is wrong with them."""
import os
import re
import signal
import subprocess
from functools import partial

from makers import authority
from programs import TOP, ran

with open(os.path.join(TOP, "include", "rpki.h"), encoding="utf-8") as header:
    VERSION = ".".join(re.findall(r"^#define RPKI_VERSION_[A-Z]+ (\d+)$", header.read(), re.M))
SYNOPSIS = b"usage: rpkicert [--json] [--check] [--profile NAME] [--lax] [--issuer FILE]"
USAGE = SYNOPSIS + b" [--crl FILE] [--at MOMENT] [-r] FILE..\n"
# Words that ask for nothing, and what is wrong with them first, from the left; worked by hand.
FILE, NO_FILE = object(), "no file"
UNKNOWN, NO_VALUE, VALUE = "unknown option: {}", "{} takes a value", "{} takes no value"
TWICE, LAX = "{} is given twice", "--lax is for --check and --profile"
LISTED = "--crl is for --issuer"
# What becomes of a run whose standard output can't be written.
UNWRITTEN = (2, b"rpkicert: standard output: cannot be written\n")
PROFILE = "--profile takes auto, ta, ca, ee, detached or router, not {}"
WRONG = [
    ([], NO_FILE), (["--json"], NO_FILE), (["--check"], NO_FILE), (["--profile", "ca"], NO_FILE), (["--"], NO_FILE),
    (["--issuer", "a", "--at=b"], NO_FILE), (["--profile", "ca", "--lax", "--"], NO_FILE),
    (["--profile"], NO_VALUE.format("--profile")), ([FILE, "--issuer"], NO_VALUE.format("--issuer")),
    (["--at", "--json", FILE], NO_VALUE.format("--at")), (["--issuer", "--", FILE], NO_VALUE.format("--issuer")),
    (["--issuer", "-", "--at"], NO_VALUE.format("--at")), (["--profile", "-x", FILE], NO_VALUE.format("--profile")),
    (["--profile", "root", FILE], PROFILE.format("root")), (["--check", "--profile", "CA", FILE], PROFILE.format("CA")),
    (["--check", "--profile=", FILE], PROFILE.format("")), (["--profile=a=b", FILE], PROFILE.format("a=b")),
    (["--profile", "-", FILE], PROFILE.format("-")), (["--profile", "Auto", FILE], PROFILE.format("Auto")),
    (["--profile=automatic", FILE], PROFILE.format("automatic")),
    (["--profile", "root", "--other"], PROFILE.format("root")),
    (["--other", FILE], UNKNOWN.format("--other")), ([FILE, "--other"], UNKNOWN.format("--other")),
    (["-x"], UNKNOWN.format("-x")), (["-rx", FILE], UNKNOWN.format("-rx")), (["-r=x", FILE], UNKNOWN.format("-r=x")),
    (["--recursively", FILE], UNKNOWN.format("--recursively")), (["--recursive=a", FILE], VALUE.format("--recursive")),
    (["-r"], NO_FILE), (["--recursive", "--json"], NO_FILE), (["-r", "--at", "-r", FILE], NO_VALUE.format("--at")),
    (["-r", FILE, "--recursive"], TWICE.format("--recursive")), (["-r", "-r", FILE], TWICE.format("--recursive")),
    (["-hx"], UNKNOWN.format("-hx")), (["-h=x"], UNKNOWN.format("-h=x")),
    (["--hel"], UNKNOWN.format("--hel")), (["--jsonl", FILE], UNKNOWN.format("--jsonl")),
    (["---", FILE], UNKNOWN.format("---")), (["--=", FILE], UNKNOWN.format("--=")),
    (["--other=1", FILE], UNKNOWN.format("--other=1")), (["--help", "--other"], UNKNOWN.format("--other")),
    (["--a\nb\\\x7f", FILE], UNKNOWN.format("--a\\0Ab\\5C\\7F")), (["--ü", FILE], UNKNOWN.format("--ü")),
    (["--other", "--profile", "root"], UNKNOWN.format("--other")),
    (["--json=true", FILE], VALUE.format("--json")), (["--help=yes"], VALUE.format("--help")),
    (["--profile", "ta", "--lax=yes", FILE], VALUE.format("--lax")), (["--check=", FILE], VALUE.format("--check")),
    (["--check", "--check", FILE], TWICE.format("--check")), (["--json", "--json", FILE], TWICE.format("--json")),
    (["--profile", "ta", FILE, "--profile", "ta"], TWICE.format("--profile")),
    (["--at=a", "--at", "b", FILE], TWICE.format("--at")),
    (["--profile", "ta", "--profile=root"], TWICE.format("--profile")),
    (["--profile", "ta", "--lax", "--lax", FILE], TWICE.format("--lax")), (["-h", "--help"], TWICE.format("--help")),
    (["--version", "--json", "--version"], TWICE.format("--version")),
    (["--lax", FILE], LAX), (["--json", "--lax", FILE], LAX), (["--lax"], LAX), (["--lax", "--", "--profile"], LAX),
    (["--lax", "--", "--check"], LAX), (["--check", "--lax"], NO_FILE), (["--lax", "--check", "--"], NO_FILE),
    (["--crl", "a", FILE], LISTED), (["--check", FILE, "--crl=a"], LISTED), (["--crl", "a"], LISTED),
    (["--crl", "a", "--", "--issuer", "b"], LISTED), (["--crl", "a", "--lax", FILE], LAX),
    (["--crl", "--issuer", "a", FILE], NO_VALUE.format("--crl")), ([FILE, "--crl"], NO_VALUE.format("--crl")),
    (["--crl=a", "--crl", "b", FILE], TWICE.format("--crl")), (["--crl", "a", "--issuer", "b"], NO_FILE),
    (["--crls", "a", FILE], UNKNOWN.format("--crls")),
]


def words(program, folder):
    """Words that ask for no file, and options in any order."""
    paths = authority.paths(folder)
    path = paths["ta"] + ".der"
    for asked in ["-h"], ["-h", path], ["--help"], ["--json", "--help"], ["--help", "--version", path]:
        status, output, faults = ran(program, *asked)
        yield f"help {asked}", (status, SYNOPSIS in output, b"Exit status:" in output, faults), (0, True, True, b"")
    for asked in ["--version"], [path, "--version"]:
        yield f"version {asked}", ran(program, *asked), (0, f"rpkicert {VERSION}\n".encode(), b"")
    for asked in ([path, "--check"], ["--check", "--", path], [path, "--profile=ta", "--check"],
                  ["--profile", "ta", path, "--check"], ["--check", path, "--profile", "ta"]):
        yield f"order {asked}", ran(program, *asked), (0, f"{path}: OK\n".encode(), b"")
    yield "a file after --", ran(program, "--", "--check"), (
        2, b"", b"rpkicert: --check: cannot be read: No such file or directory\n")
    yield "JSON last", ran(program, path, "--json"), ran(program, "--json", path)
    for asked, said in WRONG:
        asked = [path if word is FILE else word for word in asked]
        yield f"usage {asked}", ran(program, *asked), (2, b"", f"rpkicert: {said}\n".encode() + USAGE)
    for asked in ([b"bad\xff.cer"], [b"--json", path.encode(), b"--\xc0"], [b"--profile=\xed\xa0\x80"]):
        yield f"not UTF-8 {asked}", ran(program, *asked), (2, b"", b"rpkicert: an argument is not UTF-8\n")
    behind = [path] * 20000 + ["--other"]
    yield "an option behind many files", ran(program, *behind), (2, b"", b"rpkicert: unknown option: --other\n" + USAGE)


def unwritten(program, folder):
    """Standard output that is full, or has no reader, is told; where standard error is full nothing more is written."""
    path, lost = authority.paths(folder)["ta"] + ".der", os.path.join(folder, "lost")
    ignore = partial(signal.signal, signal.SIGPIPE, signal.SIG_IGN)
    with open("/dev/full", "wb") as full:
        for asked in [path], ["--check", path, path], ["-r", path], ["--version"], ["--help"]:
            done = subprocess.run([program, *asked], stdout=full, stderr=subprocess.PIPE, timeout=60)
            yield f"a full disk {asked}", (done.returncode, done.stderr), UNWRITTEN
            reader, stream = os.pipe()
            os.close(reader)
            done = subprocess.run([program, *asked], stdout=stream, stderr=subprocess.PIPE, preexec_fn=ignore,
                                  timeout=60)
            os.close(stream)
            yield f"a pipe without a reader {asked}", (done.returncode, done.stderr), UNWRITTEN
            done = subprocess.run([program, *asked], stdout=full, stderr=full, timeout=60)
            yield f"both full {asked}", done.returncode, 2
        verdict = ran(program, "--json", path).output
        for asked, output in (["--json", path, lost, path], verdict), (["--json", lost, path], b""), (["--other"], b""):
            done = subprocess.run([program, *asked], stdout=subprocess.PIPE, stderr=full, timeout=60)
            yield f"faults that are full {asked}", (done.returncode, done.stdout), (2, output)


TABLES = [words, unwritten]
