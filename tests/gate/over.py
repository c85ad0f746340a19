#!/usr/bin/env python3
"""Checks a crate before all of those below it are proved. A library that was built of the same files, in this tree or
in another that is named, is taken as it is; the sources of each other one are read, and of its functions those are
proved that the crate's call. What is checked is kept in crates/CRATE/out/over, so that a later check is quick. Its last
line is no verdict of the crate: that is of `rt check`. Needs the toolchain.

usage: tests/gate/over.py [--libraries TREE].. CRATE [WORD..]   the words are those of `rattle check`, as --only NAME"""
import os
import sys

sys.dont_write_bytecode = True

from toolchain import TOP, below, crates, kit, of_logic, root_of


def files_of(top, name):
    """The files of a crate that its proof reads, by their paths in it."""
    folder, found = os.path.join(top, "crates", name), {}
    for part in ("src", "specs", "proofs"):
        for at, _, names in os.walk(os.path.join(folder, part)):
            for file in names:
                with open(os.path.join(at, file), "rb") as octets:
                    found[os.path.relpath(os.path.join(at, file), folder)] = octets.read()
    return found


def library_in(tree, name):
    return os.path.join(tree, "crates", name, "out", "rlib", f"{name}.rlib")


def built(name, trees, top=TOP):
    """The libraries below a crate that are taken as they are, by name: those built of the same files as here, over such
    libraries alone."""
    found = {}
    for it in below(name, top):
        low = below(it, top)
        for tree in trees if all(use in found for use in low) else ():
            if os.path.isdir(library_in(tree, it)) and all(files_of(tree, use) == files_of(top, use)
                                                           for use in [*low, it]):
                found[it] = library_in(tree, it)
                break
    return found


def words_of(name, trees, top=TOP):
    """The words that name a crate to the prover, over libraries and sources."""
    crate, taken, rlibs = crates(top)[name], built(name, trees, top), os.path.join(kit(), "rlibs")
    sources = [it for it in below(name, top) if it not in taken]
    uses = {use for it in [*sources, name] for use in crates(top)[it].uses}
    words = ["--crate-name", name, root_of(name, top), "--extern", f"std={rlibs}/std.rlib"]
    for use in sorted(uses - set(sources)):
        words += ["--extern", f"{use}={taken.get(use, os.path.join(rlibs, use + '.rlib'))}"]
    words += [word for folder in [rlibs, *sorted(map(os.path.dirname, taken.values()))]
              for word in ("-L", f"dependency={folder}")]
    for it in sources:
        used = ",".join(["std", *crates(top)[it].uses])
        words += ["--lib", f"{it}:{used}={os.path.join(top, 'crates', it, root_of(it, top))}"]
    return [*words, *of_logic(name), *(["--crate-type", "staticlib"] if crate.is_static else [])]


def main(words):
    trees = [TOP]
    while words[:1] == ["--libraries"] and len(words) > 1:
        trees, words = [*trees, os.path.abspath(words[1])], words[2:]
    if not words or words[0] not in crates():
        sys.exit(__doc__ if not words else f"{words[0]} is no crate of crates.txt")
    name, *others = words
    os.chdir(os.path.join(TOP, "crates", name))
    kept = os.path.join("out", "over")
    os.makedirs(kept, exist_ok=True)
    prover = os.path.join(kit(), "bin", "rattle")
    os.execv(prover, [prover, "check", *words_of(name, trees), "--incremental", kept, *others])


if __name__ == "__main__":
    main(sys.argv[1:])
