#!/usr/bin/env python3
"""Counts the instructions of one call of the C library, and of plain C with the same checks, and the branches that
would be mispredicted, by callgrind and its predictor: the same on a busy machine as on an idle one. The calls are those
that bench/linked.c makes on a certificate and its parts, and on certificates that differ; and, beside libcrypto in
place of plain C, those of bench/verified.c. Each line has instructions, how many times those of plain C they are,
mispredicted branches, and how many times those of plain C they are.

usage: bench/instructions.py            (after bindings/archive; needs valgrind)"""
import os
import re
import subprocess
import sys
import tempfile

sys.dont_write_bytecode = True
sys.path.append(os.path.join(os.path.dirname(os.path.abspath(__file__)), "..", "tests", "python"))

from certificates import write
from linked import CERTIFICATE, REPOSITORY, built, built_verified, found_beside

CALLS = [
    ("walk: plain C", ["rpki_walk", "rpki_index, capacity 0", "rpki_signed_data"]),
    ("index: plain C", ["rpki_index"]),
    ("serial number: plain C", ["rpki_serial"]),
    ("time: plain C", ["rpki_time"]),
    ("name, strict: plain C", ["rpki_name_inspect"]),
    ("public key: plain C", ["rpki_public_key"]),
    ("extension: plain C", ["rpki_extension"]),
    ("rsync URI: plain C", ["rpki_rsync_parse"]),
    ("each certificate: plain C", ["each: rpki_certificate_of_profile", "each: three calls"]),
    ("each: mbedtls_x509_crt_parse_der", ["each: rpki_certificate", "each: rpki_certificate_of_profile"]),
    ("mbedtls_x509_crt_parse_der", ["rpki_certificate", "rpki_certificate_extensions", "both, and rpki_walk"]),
]
VERIFIED = [(f"{name} by libcrypto{how}", [name + how]) for name in ("certificate", "list", "manifest", "route origin")
            for how in ("", ", verified")]
FEW, MANY = 10, 110
BATCH = 100


def counted(command, name, count):
    """The instructions and the mispredicted branches of a run that makes so many of these calls."""
    words = ["valgrind", "--tool=callgrind", "--callgrind-out-file=/dev/null", "--branch-sim=yes", *command]
    ran = subprocess.run([*words, name, str(count)], capture_output=True, text=True)
    # instructions; conditional branches, and those mispredicted; indirect ones, and those mispredicted
    found = re.search(r"Collected : (\d+) \d+ (\d+) \d+ (\d+)", ran.stderr)
    if ran.returncode != 0 or not found:
        return None
    instructions, conditional, indirect = map(int, found.groups())
    return instructions, conditional + indirect


def a_call(command, name):
    """The instructions and the mispredicted branches of one call, where it can be made here."""
    few, many = (counted(command, name, count) for count in (FEW, MANY))
    if few is None or many is None:
        return None
    return [(more - less) / (MANY - FEW) for less, more in zip(few, many)]


def shown(name, took, least):
    """A line: what a call takes, and how many times what plain C takes."""
    times = [one / other if other else float("nan") for one, other in zip(took, least)]
    return f"{name:<34}{took[0]:>12.0f}{times[0]:>10.2f}{took[1]:>12.1f}{times[1]:>10.2f}"


def show(command, calls):
    """A line of each call, under one of what it is compared with."""
    for plain, beside in calls:
        least = a_call(command, plain)
        if least is None:
            continue
        print(shown(plain, least, least))
        for name in beside:
            print(shown(name, a_call(command, name), least), flush=True)


def main():
    with tempfile.TemporaryDirectory() as folder:
        libraries, batch = found_beside(folder), os.path.join(folder, "certificates")
        write(BATCH, batch)
        show([built(folder, libraries), CERTIFICATE, batch, "--calls"], CALLS)
        if "libcrypto" in libraries:
            show([built_verified(folder), REPOSITORY], VERIFIED)


if __name__ == "__main__":
    main()
