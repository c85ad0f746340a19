#!/usr/bin/env python3
"""Times the calls of the C library in one process (bench/linked.c; bench/resources.c those on resources, bench/texts.c
serial numbers and base 64 as texts) beside plain C with the same checks (bench/plain.c, bench/plain_certificate.c) and,
where their headers are there, libcrypto and mbedtls (Debian's libssl-dev, libmbedtls-dev); what is decoded and verified
beside the former (bench/verified.c); and walks and signed data from Rust (bench/peers) beside the crates bcder and
asn1, where Debian's packages of them (librust-bcder-dev, librust-asn1-dev) are there. Before it times anything it asks
whether plain C answers as the library does (bench/agree.py). Needs a C compiler.

usage: bench/linked.py            (after bindings/archive)"""
import base64
import os
import re
import shutil
import subprocess
import sys
import tempfile
import time

sys.dont_write_bytecode = True
sys.path.append(os.path.join(os.path.dirname(os.path.abspath(__file__)), "..", "tests", "python"))

from agree import agree
from certificates import write
from der import bits, sequence
from makers.x509 import SHA256_WITH_RSA
from programs import TOP

ARCHIVE = os.path.join(TOP, "bindings", "out", "librpki.a")
COMPILER = [os.environ.get("CC", "cc"), "-std=c99", "-O2", "-Wall", "-Wextra", f"-I{TOP}/include"]
CERTIFICATE = os.path.join(TOP, "examples", "certificate.der")
SOURCES = [os.path.join(TOP, "bench", name) for name in ("linked.c", "plain.c", "plain_certificate.c")]
REPOSITORY = os.path.join(TOP, "examples", "repository", "rpki.example", "repo")
BATCH = 4000
ROOTS = "/etc/ssl/certs/ca-certificates.crt"
REGISTRY = "/usr/share/cargo/registry"
FROM_REGISTRY = ["--offline", "--config", 'source.crates-io.replace-with="debian"']
FROM_REGISTRY += ["--config", f'source.debian.directory="{REGISTRY}"']


# Libraries that are timed too: the macro that asks for each, a program that needs it, and the words that link it.
BESIDE = {
    "libcrypto": (
        "WITH_LIBCRYPTO",
        "#include <openssl/x509.h>\nint main(void) { return X509_new() == 0; }\n",
        ["-lcrypto"],
    ),
    "mbedtls": (
        "WITH_MBEDTLS",
        "#include <mbedtls/x509_crt.h>\nint main(void) { mbedtls_x509_crt a; mbedtls_x509_crt_init(&a); return 0; }\n",
        ["-lmbedx509", "-lmbedcrypto"],
    ),
}


def links(folder, text, words):
    """Whether this program compiles and links here."""
    path = os.path.join(folder, "program.c")
    with open(path, "w") as source:
        source.write(text)
    return subprocess.run([*COMPILER, path, *words, "-o", path + ".out"], capture_output=True).returncode == 0


def cargo(words, folder, **options):
    """Runs cargo in bench/peers, over the same archive and with the packages of Debian alone."""
    variables = {"CARGO_TARGET_DIR": os.path.join(folder, "target"), "RPKI_ARCHIVE_DIR": os.path.dirname(ARCHIVE)}
    place = os.path.join(TOP, "bench", "peers")
    return subprocess.run(["cargo", *words, *FROM_REGISTRY], cwd=place, env={**os.environ, **variables}, **options)


def has_peers(folder):
    """Whether cargo finds bcder and asn1 here."""
    if shutil.which("cargo") is None or not os.path.isdir(REGISTRY):
        return False
    return cargo(["generate-lockfile"], folder, capture_output=True).returncode == 0


def roots(folder):
    """A file of signed data: the root certificates that this machine trusts, where it has them, are what is signed."""
    if not os.path.exists(ROOTS):
        return []
    with open(ROOTS) as text:
        bodies = re.findall(r"-----BEGIN CERTIFICATE-----(.*?)-----END", text.read(), re.S)
    path = os.path.join(folder, "roots")
    with open(path, "wb") as octets:
        octets.write(sequence(sequence(*map(base64.b64decode, bodies)), SHA256_WITH_RSA, bits(b"\xAA")))
    return [path]


def built(folder, libraries):
    """bench/linked.c, with these of the libraries."""
    program = os.path.join(folder, "linked")
    words = [f"-D{BESIDE[name][0]}" for name in libraries] + [*SOURCES, ARCHIVE]
    words += [word for name in libraries for word in BESIDE[name][2]]
    subprocess.run([*COMPILER, *words, "-o", program], check=True)
    return program


def built_verified(folder):
    """bench/verified.c, which needs libcrypto."""
    program = os.path.join(folder, "verified")
    source = os.path.join(TOP, "bench", "verified.c")
    subprocess.run([*COMPILER, source, ARCHIVE, "-lcrypto", "-o", program], check=True)
    return program


def found_beside(folder):
    """The libraries that are there."""
    return [name for name, (_, text, words) in BESIDE.items() if links(folder, text, words)]


def main():
    if not os.path.exists(ARCHIVE):
        sys.exit("make the archive first: bindings/archive")
    if not agree(ARCHIVE, 200_000):
        sys.exit("plain C has other checks than the library")
    with tempfile.TemporaryDirectory() as folder:
        found = found_beside(folder)
        program = built(folder, found)
        peers = has_peers(folder)
        if peers:
            cargo(["build", "--release", "--quiet"], folder, check=True)
        found += ["bcder and asn1"] if peers else []
        print(f"{os.cpu_count()} cores, {time.strftime('%Y-%m-%d')}, beside {', '.join(found) or 'plain C alone'}")
        sys.stdout.flush()
        batch = os.path.join(folder, "certificates")
        write(BATCH, batch)
        subprocess.run([program, CERTIFICATE, batch, *roots(folder)], check=True)
        for name in ("resources", "texts"):
            program = os.path.join(folder, name)
            subprocess.run([*COMPILER, os.path.join(TOP, "bench", f"{name}.c"), ARCHIVE, "-o", program], check=True)
            subprocess.run([program], check=True)
        if "libcrypto" in found:
            subprocess.run([built_verified(folder), REPOSITORY], check=True)
        if peers:
            subprocess.run([os.path.join(folder, "target", "release", "peers"), CERTIFICATE], check=True)


if __name__ == "__main__":
    main()
