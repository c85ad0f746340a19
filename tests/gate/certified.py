#!/usr/bin/env python3
"""Runs the tables of tests/certificates/run, as that script does, but side by side in as many processes as there are
processors. The tables of a module use each other's files, so they run in their order, in a folder of their own with a
copy of the certificates that all of them need. The last line counts. Needs what that script needs.

usage: tests/gate/certified.py --programs FOLDER"""
import contextlib
import importlib.machinery
import importlib.util
import io
import multiprocessing
import os
import shutil
import sys
import tempfile

sys.dont_write_bytecode = True

from toolchain import TOP


def script(*path):
    """A script of the repository, as a module."""
    loader = importlib.machinery.SourceFileLoader("the_" + path[-1], os.path.join(TOP, *path))
    made = importlib.util.module_from_spec(importlib.util.spec_from_loader(loader.name, loader))
    loader.exec_module(made)
    return made


def jobs(tables, programs):
    """Each module over rpkicert by each compiler, and the chains over hostile_calls: the compiler, the program, and the
    number of the module, or none for the chains. Those of the last modules take longest, and begin first."""
    calls, = tables.built(programs, "hostile_calls")
    for compiler, program in tables.by_each_compiler(programs, "rpkicert").items():
        for at in reversed(range(len(tables.MODULES))):
            yield compiler, program, at
        if compiler == "LLVM":
            yield compiler, calls, None


# The script and the folder of the certificates, for each process.
shared = []


def judge(job):
    """The rows of one: how many passed, how many failed, and a line for each of these."""
    compiler, program, at = job
    (tables, made), told, counts = shared, io.StringIO(), sys.modules["counting"].counts
    counts.update({True: 0, False: 0})
    with contextlib.redirect_stdout(told), tempfile.TemporaryDirectory() as folder:
        shutil.copytree(made, folder, dirs_exist_ok=True)
        for table in tables.MODULES[at].TABLES if at is not None else [tables.chain.chains]:
            try:
                for name, seen, expected in table(program, folder):
                    tables.same(f"{name} by {compiler}", seen, expected)
            except Exception as error:
                tables.holds(f"broke off by {compiler}", False, repr(error))
    return counts[True], counts[False], told.getvalue()


def main():
    if len(sys.argv) != 3 or sys.argv[1] != "--programs":
        sys.exit(__doc__)
    sys.path.append(os.path.join(TOP, "tests", "certificates"))
    tables = script("tests", "certificates", "run")
    passed = failed = 0
    with tempfile.TemporaryDirectory() as made:
        tables.authority.make(made)
        shared.extend((tables, made))
        with multiprocessing.get_context("fork").Pool(len(os.sched_getaffinity(0))) as pool:
            for well, badly, told in pool.imap_unordered(judge, jobs(tables, sys.argv[2])):
                passed, failed = passed + well, failed + badly
                print(told, end="", flush=True)
    print(f"{passed} passed, {failed} failed")
    sys.exit(bool(failed or not passed))


if __name__ == "__main__":
    main()
