"""Long paths of authorities, circles of them, and what a terminal is told meanwhile."""
import contextlib
import os
import pty
import resource
import shutil
import subprocess

from counting import holds
from exceptions import TWICE_AS_LONG, instructions
from repositories import AT, payloads


def deep(program, maker):
    """A path of authorities, each below the one before: as many count as are asked for, and 32 by default."""
    folder = maker.repository(40, 1, 1)
    for words, most in (((), 32), (("--depth", "0"), 0), (("--depth", "1"), 1), (("--depth", "39"), 39),
                        (("--depth", "40"), 40), (("--depth", "4294967295"), 40)):
        left = payloads(range(1, most + 1), 1)
        program.holds(f"a path of 40 authorities, {' '.join(words)}", folder, left, 0, *words)


def circles(program, maker):
    """Authorities that all certify each other."""
    for count in (16, 64):
        folder = maker.repository(count, count, 1, CROSS=str(count))
        program.holds(f"{count} authorities certify each other", folder, payloads(range(1, count + 1), 1), 0)


def again(program, maker):
    """An authority that certifies itself many times, each time without another block (RFC 8360), costs what its files
    do: named by its manifest or not, and however its host is spelled, its point is looked at once."""
    for name, variant in ("", {}), (", whose manifest names another", {"STRAY": "1"}), \
            (", its host in other capitals", {"CAPITALS": "1"}):
        counts = []
        for count in (12, 24):
            folder = maker.repository(2, 2, 1, AGAIN=str(count), **variant)
            program.holds(f"an authority certifies itself {count} times{name}", folder, payloads([1, 2], 1), 0)
            faults = program.run(folder)[2]
            holds(f"an authority certifies itself {count} times{name}: all are valid", "again" not in faults, faults)
            if shutil.which("valgrind"):
                counts.append(instructions(*program.words(folder)))
        if counts:
            holds(f"twice as many certificates of itself{name}", counts[1] <= TWICE_AS_LONG * counts[0], counts)


# Octets of memory, all that a run maps.
ROOM = 64 << 20


def inherited(program, maker):
    """Authorities that inherit many blocks share them, and so do those of RFC 8360 that list all addresses: copies
    would take more than the room."""
    for name, variant in ("", {}), (", by RFC 8360", {"TRIMMED": "1"}):
        folder = maker.repository(2, 2, 1, HEIRS="400", HELD="6000", **variant)

        def narrow():
            resource.setrlimit(resource.RLIMIT_AS, (ROOM, ROOM))

        ended = subprocess.run(program.words(folder), stdout=subprocess.PIPE, stderr=subprocess.PIPE, check=False,
                               preexec_fn=narrow)
        faults = ended.stderr.decode()
        holds(f"400 authorities inherit 6,000 blocks{name}", ended.returncode == 0, faults[-300:])
        told = faults.count("RFC 9286 6.2: no manifest")
        holds(f"400 authorities inherit 6,000 blocks{name}: each is looked at", told == 400, told)


def stolen(program, maker):
    """An authority that certifies another's key, fewer steps down and without its resources, takes nothing of one whose
    manifest names its certificate; of one whose manifest doesn't, it is the first that is met."""
    for count in (2, 3):
        folder = maker.repository(count, 1, 1, STOLEN="1")
        program.holds(f"a key is certified by another, {count} steps down", folder, payloads(range(1, count + 1), 1), 0)
        faults = program.run(folder)[2]
        holds(f"a key is certified by another, {count} steps down: all is valid", "d1/stolen" not in faults, faults)
    folder = maker.repository(3, 1, 1, STOLEN="1", STRAY="3")
    program.holds("a key is certified by another, whose manifest names another", folder, payloads([1, 2], 1), 0)
    folder = maker.repository(3, 1, 1, STRAY="2")
    program.holds("a manifest names another certificate", folder, payloads(range(1, 4), 1), 0)


def progress(program, maker):
    """A terminal is told how many files were read, in a line that is written over; another standard error isn't."""
    folder = maker.repository(64, 64, 1, CROSS="64")
    words = [program.path, "--tal", os.path.join(folder, "example.tal"), "--cache", folder, "--at", AT]
    terminal, end = pty.openpty()
    with subprocess.Popen(words, stdout=subprocess.DEVNULL, stderr=end) as run:
        os.close(end)
        seen = b""
        with contextlib.suppress(OSError):
            while part := os.read(terminal, 65536):
                seen += part
    os.close(terminal)
    lines = seen.split(b"\r")
    holds("progress on a terminal", run.returncode == 0 and b"rpkivalid: 1000 files" in lines, seen[:200])
    counts = [lines.count(f"rpkivalid: {count} files".encode()) for count in (999, 1001, 2000)]
    holds("progress at each thousand", counts == [0, 0, 1], counts)
    _, _, faults = program.run(folder)
    holds("no progress elsewhere", " files" not in faults and "\r" not in faults, faults[:200])
