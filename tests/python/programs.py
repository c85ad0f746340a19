"""The programs, as they were built, and runs of them."""
import os
import re
import subprocess
from typing import Any, Dict, List, NamedTuple, Sequence, Union

TOP = os.path.dirname(os.path.dirname(os.path.dirname(os.path.abspath(__file__))))
Word = Union[str, bytes]


class Seen(NamedTuple):
    """What is seen of a run."""

    status: int
    output: bytes
    faults: bytes

    def after(self, refused: int) -> "Seen":
        """What is seen, where so many allocations were refused. Where none was, nothing may say that memory ran out: a
        call that does has given up, and no row expects this."""
        if refused == 0 and re.search(rb"^out of memory$", self.output + b"\n" + self.faults, re.MULTILINE):
            return self._replace(output=b"gave up, and no allocation was refused: " + self.output)
        return self


def build(name: str, path: str) -> None:
    """Builds a program without proof."""
    subprocess.run([os.path.join(TOP, "tests", "gate", "unproved.py"), name, path], check=True)


def built(folder: str, *names: str) -> List[str]:
    """The paths of these programs of a folder; what isn't there yet is built first, without proof."""
    paths = [os.path.join(folder, name) for name in names]
    for name, path in zip(names, paths):
        if not os.path.exists(path):
            build(name, path)
    return paths


def by_each_compiler(folder: str, name: str) -> Dict[str, str]:
    """The paths of a program of a folder, by the compilers that built it; at least by one."""
    path, = built(folder, name)
    return {compiler: it for compiler, it in (("LLVM", path), ("Rattle", path + ".by-rattle")) if os.path.exists(it)}


def run(program: str, words: Sequence[Word], octets: bytes = b"", **options: Any) -> Seen:
    """A run of a program with these words over this input, for ten minutes at most. No allocation is refused."""
    return run_refused(program, words, octets, **options).after(0)


def ran(program: str, *words: Word, octets: bytes = b"") -> Seen:
    """The same, with its words one by one."""
    return run(program, words, octets)


def run_refused(program: str, words: Sequence[Word], octets: bytes = b"", **options: Any) -> Seen:
    """The same where allocations may be refused."""
    done = subprocess.run([program, *words], input=octets, capture_output=True, timeout=600, close_fds=False, **options)
    return Seen(done.returncode, done.stdout, done.stderr)


def octets_of(*path: str) -> bytes:
    with open(os.path.join(*path), "rb") as file:
        return file.read()


def write(folder: str, name: str, octets: bytes) -> str:
    """Writes a file of a folder, and returns its path."""
    path = os.path.join(folder, name)
    with open(path, "wb") as file:
        file.write(octets)
    return path
