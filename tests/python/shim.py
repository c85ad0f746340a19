"""Runs under `tests/hostile/refuse.c`, which counts allocations, and refuses some."""
import os
import subprocess
import tempfile
from typing import Iterator, NamedTuple, Sequence, Tuple

from programs import TOP, Seen, Word, octets_of, run_refused


def compiled(source: str, folder: str) -> str:
    """A library of this source of tests/hostile, to be put before the C library."""
    library = os.path.join(folder, source[:-2] + ".so")
    source = os.path.join(TOP, "tests", "hostile", source)
    subprocess.run([os.environ.get("CC", "cc"), "-O2", "-shared", "-fPIC", "-o", library, source], check=True)
    return library


class Allocations(NamedTuple):
    """How many allocations a run met, and how many of them were refused."""

    met: int
    refused: int


class Shim:
    """`refuse.c`, built, and runs under it. It is used in a `with`."""

    def __enter__(self) -> "Shim":
        self.folder = tempfile.TemporaryDirectory()
        self.library = compiled("refuse.c", self.folder.name)
        self.count = os.path.join(self.folder.name, "count")
        return self

    def __exit__(self, *_: object) -> None:
        self.folder.cleanup()

    def run(self, program: str, words: Sequence[Word], octets: bytes, **refused: str) -> Tuple[Seen, Allocations]:
        """A run that refuses what REFUSE or REFUSE_FROM says, and its allocations. A run that does not come to its end,
        or is not under the shim, met none."""
        if os.path.exists(self.count):
            os.remove(self.count)
        environment = {**os.environ, "LD_PRELOAD": self.library, "COUNT_FILE": self.count, **refused}
        seen = run_refused(program, words, octets, env=environment)
        allocations = Allocations(0, 0)
        if os.path.exists(self.count):
            allocations = Allocations(*map(int, octets_of(self.count).split()))
        return seen.after(allocations.refused), allocations

    def runs(self, program: str, words: Sequence[Word], octets: bytes, alone: bool) -> Iterator[Tuple[int, bool, Seen]]:
        """Runs with each allocation refused in turn, alone or with all later ones, until a run meets none: the number
        of the allocation, whether one was refused, and what is seen."""
        allocation, refused = 0, True
        while refused:
            allocation += 1
            refusing = {"REFUSE" if alone else "REFUSE_FROM": str(allocation)}
            seen, allocations = self.run(program, words, octets, **refusing)
            refused = allocations.refused > 0
            yield allocation, refused, seen


def refused_in_turn(program: str, words: Sequence[Word], octets: bytes) -> Iterator[Tuple[str, bool, int]]:
    """Runs with each allocation refused in turn, alone and with all later ones: of each a name, whether it says what it
    says with memory, or that memory ran out, and how many were refused."""
    full = run_refused(program, words, octets).output
    with Shim() as shim:
        for alone in (True, False):
            for allocation, met, seen in shim.runs(program, words, octets, alone):
                nothing = (seen.status, seen.output) in [(0, b"out of memory\n"), (1, b"")]
                yield f"allocation {allocation}, {alone}", seen.output == full or (met and nothing), int(met)
