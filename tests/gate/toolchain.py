"""The crates of the repository, and the words by which the toolchain's programs are called over them, as `rt` does."""
import functools
import os
import re
import shutil
import subprocess
from typing import NamedTuple

TOP = os.path.dirname(os.path.dirname(os.path.dirname(os.path.abspath(__file__))))
# A fresh machine has the kit here, and its commands not among those of the shell.
USUAL = "/opt/rattle/bin"
if not shutil.which("rt") and os.path.isfile(os.path.join(USUAL, "rt")):
    os.environ["PATH"] = os.pathsep.join([*filter(None, [os.environ.get("PATH")]), USUAL])


class Crate(NamedTuple):
    """A line of crates.txt: the crate's name, whether it is a static library, and the libraries that it names."""

    name: str
    is_static: bool
    uses: tuple

    @property
    def folder(self):
        return os.path.join("crates", self.name)


@functools.lru_cache(maxsize=None)
def kit():
    """The toolchain's folder."""
    return os.path.dirname(os.path.dirname(os.path.realpath(shutil.which("rt"))))


def ci(anew):
    """The words of `rt ci`, which proves all again where it is asked to: some kits keep what a run has proved."""
    told = subprocess.run(["rt", "help"], stdout=subprocess.PIPE, stderr=subprocess.STDOUT, check=False).stdout
    return ("rt", "ci", *(["--anew"] if anew and b"--anew" in told else []))


@functools.lru_cache(maxsize=None)
def crates(top=TOP):
    """The crates of a tree, by name, in the order of its crates.txt."""
    found = {}
    with open(os.path.join(top, "crates.txt"), encoding="utf-8") as lines:
        for line in lines:
            head, _, uses = line.partition("#")[0].partition(":")
            if head.strip():
                name, *kind = head.split()
                found[name] = Crate(name, "staticlib" in kind, tuple(uses.split()))
    return found


def below(name, top=TOP):
    """The crates of the tree that a crate rests on, lowest first."""
    found = []
    for use in crates(top)[name].uses:
        if use in crates(top):
            found += [it for it in [*below(use, top), use] if it not in found]
    return found


def root_of(name, top=TOP):
    """The file that a crate begins with, below its folder."""
    return next(it for it in ("src/main.rt", "src/lib.rt") if os.path.isfile(os.path.join(top, "crates", name, it)))


def of_logic(name):
    """The words that name the logic to the compiler, and that the crate is linked with nothing."""
    logic = ["--antt-project", f"{kit()}/rattle/logic/antt-project.json", "--logic-built", f"{kit()}/logic_built"]
    return [*logic, "--links", f"{name}="]


def over_libraries(name, libraries, top=TOP):
    """The words that name a crate to the compiler, over the libraries that were built in another tree."""
    crate, rlibs = crates(top)[name], os.path.join(kit(), "rlibs")
    words = ["--crate-name", name, root_of(name, top), "--extern", f"std={rlibs}/std.rlib"]
    for use in crate.uses:
        own = os.path.join(libraries, "crates", use, "out", "rlib", f"{use}.rlib")
        words += ["--extern", f"{use}={own if use in crates(top) else f'{rlibs}/{use}.rlib'}"]
    words += ["-L", f"dependency={rlibs}"]
    for use in below(name, top):
        words += ["-L", f"dependency={os.path.join(libraries, 'crates', use, 'out', 'rlib')}"]
    return [*words, *of_logic(name), *(["--crate-type", "staticlib"] if crate.is_static else [])]


def of_kit(names):
    """The words that pass libraries of the kit, and those that they use, as sources."""
    words, names = [], list(names)
    for name in names:
        with open(f"{kit()}/rlibs/{name}.rlib/format", encoding="utf-8") as lines:
            uses = re.findall(r"^dep (\w+)$", lines.read(), re.M)
        names += [it for it in uses if it not in names]
        words += ["--lib", f"{name}:{','.join(uses)}={kit()}/rattle/{name}/src/lib.rt"]
    return words


def as_sources(name, top=TOP):
    """The words that name a crate and all below it to the compiler, as sources."""
    words, others = ["--crate-name", name, root_of(name, top)], ["std"]
    for it in [*below(name, top), name]:
        uses = crates(top)[it].uses
        others += [use for use in uses if use not in crates(top) and use not in others]
        if it != name:
            words += ["--lib", f"{it}:{','.join(['core', 'std', *uses])}={top}/crates/{it}/src/lib.rt"]
    return words + of_kit(others)
