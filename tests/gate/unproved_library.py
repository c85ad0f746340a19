#!/usr/bin/env python3
"""Builds the C library without proof, as librpki.a in a folder, with a check of each index and sum, at which it stops:
for tests of its calls before it is proved. The toolchain builds no static library without its proof. But it builds a
program; so one is made of the crate's sources, whose `main` names each call, and of its object file each call is kept
under the name that it has in C. An allocator is no parameter of it, and a slice is two, as in the library. A minute.
Needs the toolchain.

usage: tests/gate/unproved_library.py FOLDER"""
import os
import re
import shutil
import subprocess
import sys
import tempfile

sys.dont_write_bytecode = True

import unproved
from toolchain import TOP, kit

CRATE = "rpki_c"
CALL = re.compile(r'#\[unsafe\(no_mangle\)\]\s*pub extern "C" fn (\w+)(?:<[^>]*>)?\(([^)]*)\)')
# Before the module is optimized, each call gets the name that it has in C, by which it is seen from outside, so that no
# call loses what `main` has no use for.
COMPILER = r"""#!/bin/bash
words=()
for word in "$@"; do
    case $word in
        -fsanitize=address) ;;
        -O0) words+=({level}) ;;
        module.bc) words+=(named.ll) ;;
        *) words+=("$word") ;;
    esac
done
as_text=(-Wno-unused-command-line-argument -Xclang -disable-llvm-passes -S -emit-llvm -o module.ll)
(exec -a "$0" "{theirs}" "$@" "${{as_text[@]}}") || exit
sed -E 's/^define internal (.* @"rpki_c::\w+::rpki_)/define \1/; s/@"rpki_c::\w+::(rpki_\w+)"/@\1/g' \
    module.ll > named.ll
exec -a "$0" "{theirs}" "${{words[@]}}"
"""
# A value of any type, which no run has.
ANY = "\nfn any<T>() -> T {\n    any()\n}\n"


def calls(sources):
    """The calls of the crate: the path of each, and how many parameters it has."""
    for file in sorted(os.listdir(sources)):
        with open(os.path.join(sources, file), encoding="utf-8") as text:
            for name, parameters in CALL.findall(text.read()):
                yield f"{file.removesuffix('.rt')}::{name}", len(re.findall(r"\b\w+: ", parameters))


def lay(top):
    """Lays out a tree in which the crate is a program; returns its calls."""
    own = os.path.join(top, "crates", CRATE)
    os.makedirs(own)
    for name in os.listdir(os.path.join(TOP, "crates")):
        if name != CRATE:
            os.symlink(os.path.join(TOP, "crates", name), os.path.join(top, "crates", name))
    with open(os.path.join(TOP, "crates.txt"), encoding="utf-8") as lines:
        text = lines.read().replace(f"{CRATE} staticlib:", f"{CRATE}:")
    with open(os.path.join(top, "crates.txt"), "w", encoding="utf-8") as file:
        file.write(text)
    sources = os.path.join(own, "src")
    shutil.copytree(os.path.join(TOP, "crates", CRATE, "src"), sources)
    for name in "specs", "proofs":
        os.symlink(os.path.join(TOP, "crates", CRATE, name), os.path.join(own, name))
    os.rename(os.path.join(sources, "lib.rt"), os.path.join(sources, "main.rt"))
    found = dict(calls(sources))
    with open(os.path.join(sources, "main.rt"), "a", encoding="utf-8") as file:
        named = (f"    let _ = {call}({', '.join(['any()'] * count)});\n" for call, count in found.items())
        file.write(f"{ANY}\nfn main() {{\n{''.join(named)}}}\n")
    return list(found)


def llvm(tool, *words):
    """Runs a tool of LLVM, which the toolchain's compiler is under its name."""
    subprocess.run([f"llvm-{tool}", *words], executable=f"{kit()}/toolchain/bin/clang", check=True)


def build(folder):
    """Builds the archive."""
    archive = os.path.join(os.path.abspath(folder), "librpki.a")
    os.makedirs(os.path.dirname(archive), exist_ok=True)
    unproved.forget(archive)
    with tempfile.TemporaryDirectory() as room:
        found = lay(os.path.join(room, "tree"))
        built, whole = (os.path.join(room, name) for name in ("built.o", "rpki.o"))
        scripts = {"clang": COMPILER, "ld.lld": unproved.OBJECT_LINKER}
        unproved.build(CRATE, built, unproved.OPTIMIZED, os.path.join(room, "tree"), scripts)
        names = [call.rpartition("::")[2] for call in found]
        llvm("objcopy", *(f"--keep-global-symbol={name}" for name in names), built, whole)
        llvm("ar", "rcs", archive, whole)


def main():
    if len(sys.argv) != 2 or sys.argv[1].startswith("-"):
        sys.exit(__doc__)
    print("building the C library without proof", file=sys.stderr, flush=True)
    build(sys.argv[1])


if __name__ == "__main__":
    main()
