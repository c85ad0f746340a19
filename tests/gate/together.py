#!/usr/bin/env python3
"""Builds programs without proof, as unproved.py builds each alone, but as one program, for which the libraries below
are read once: its crate has a module for each of theirs, and its `main` is that of the program by whose name it is
called. Needs the toolchain.

usage: tests/gate/together.py FOLDER PROGRAM.."""
import os
import re
import shutil
import sys
import tempfile

sys.dont_write_bytecode = True

import unproved
from modules import lay, sources
from toolchain import crates, root_of

# The crate of the program.
CRATE = "together"
# No allocation is made before a program begins, since tests refuse allocations by their number. A path is at most so
# long.
MAIN = """use std::env::Env;
use std::process::ExitCode;

fn main(rt: HostRuntime) -> ExitCode {{
    let mut word = [0u8; 4096];
    let Ok(len) = rt.arg(0, &mut word) else {{
        return ExitCode::from(255);
    }};
    let word = &word[..len];
{programs}    ExitCode::from(254)
}}
"""
BEGINS = """    if word.ends_with(b"/{0}") {{
        return {0}::main(rt);
    }}
"""
# So of a program whose `main` has a result.
BEGINS_BY_RESULT = """    if word.ends_with(b"/{0}") {{
        return if {0}::main(rt).is_ok() {{ ExitCode::SUCCESS }} else {{ ExitCode::FAILURE }};
    }}
"""
RESULT = re.compile(r"^fn main\([^)]*\) -> io::Result", re.M)


def text_of(names):
    """The text of the crate's first file, beside the names of its modules."""
    by_result = {name for name in names for _, text in sources(name) if RESULT.search(text)}
    return MAIN.format(programs="".join((BEGINS_BY_RESULT if it in by_result else BEGINS).format(it) for it in names))


def build(folder, names):
    """Builds them into the folder."""
    with tempfile.TemporaryDirectory() as room:
        top, program = (os.path.join(room, name) for name in ("tree", "program"))
        lay(top, CRATE, "main.rt", names, text_of(names))
        unproved.build(CRATE, program, unproved.APART if unproved.CALLED in names else None, top)
        for name in names:
            unproved.forget(os.path.join(folder, name))
            shutil.copy2(program, os.path.join(folder, name))


def main():
    folder, names = sys.argv[1:2], sys.argv[2:]
    if not names or not all(name in crates() and root_of(name).endswith("main.rt") for name in names):
        sys.exit(__doc__)
    build(*folder, names)


if __name__ == "__main__":
    main()
