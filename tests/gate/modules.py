"""Crates as the modules of one crate, in a tree of its own, so that the libraries below them are read once."""
import os
import re

from toolchain import TOP, crates, root_of

MACRO = re.compile(r"#\[macro_export\]\s*macro_rules! (\w+)")
TACTIC = "#![tactic(auto)]\n"


def sources(name):
    """The files of a crate, by their paths below its folder of sources, and the text of each."""
    folder = os.path.join(TOP, "crates", name, "src")
    for at, _, files in os.walk(folder):
        for file in files:
            with open(os.path.join(at, file), encoding="utf-8") as text:
                yield os.path.relpath(os.path.join(at, file), folder), text.read()


def as_module(text, own, names, macros):
    """A text of the crate `own` where each of the crates `names` is a module. A macro that a crate exports is at the
    root of the whole. What the prover alone reads, a crate's `specs` and `proofs`, keeps its path."""
    def path(found):
        crate, item = found.groups()
        if item in ("specs", "proofs"):
            return found[0]
        return f"crate::{item}" if item in macros else f"crate::{own if crate == 'crate' else crate}::{item}"
    return re.sub(rf"\b(crate|{'|'.join(names)})::(\w+|(?={{))", path, text.replace(TACTIC, ""))


def as_root(text):
    """The text of the first file of a crate, whose `main` the crate above may name."""
    return re.sub(r"^fn main\(", "pub fn main(", text, flags=re.M)


def write(file, text):
    os.makedirs(os.path.dirname(file), exist_ok=True)
    with open(file, "w", encoding="utf-8") as out:
        out.write(text)


def lay(top, crate, root, names, text=""):
    """Lays out a tree with a crate in which each of these crates is a module, and whose first file has this text."""
    own = os.path.join(top, "crates", crate, "src")
    macros = {macro for name in names for _, it in sources(name) for macro in MACRO.findall(it)}
    for name in names:
        first = os.path.basename(root_of(name))
        for file, it in sources(name):
            it = as_module(it, name, names, macros)
            write(os.path.join(own, f"{name}.rt" if file == first else os.path.join(name, file)),
                  as_root(it) if file == first else it)
    write(os.path.join(own, root), TACTIC + "\n" + "".join(f"pub mod {it};\n" for it in names) + text)
    for name in crates():
        os.symlink(os.path.join(TOP, "crates", name), os.path.join(top, "crates", name))
    uses = dict.fromkeys(use for name in names for use in crates()[name].uses if use not in names)
    with open(os.path.join(TOP, "crates.txt"), encoding="utf-8") as lines:
        write(os.path.join(top, "crates.txt"), f"{lines.read()}{crate}: {' '.join(uses)}\n")
