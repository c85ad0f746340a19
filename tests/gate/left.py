"""What a run of the gate proved, left for a release of its commit: the programs, their object files and verdicts, and
the archives, in out/proved/COMMIT, which git ignores and bindings/package takes. What is there is of one commit.

A run that takes an earlier run's proof of a program has that program, octet for octet, and no object file or verdict.
So out/objects has those that a run of this clone proved last, each with the program that was linked of it."""
import filecmp
import os
import shutil
import subprocess

from toolchain import TOP

TOOLS = ["rpkicert", "rpkivalid"]
TARGETS = ["x86_64", "x86_64-v2", "aarch64"]


def commit(top=TOP):
    """The commit that the files of a clone are of, or None where something is changed or new."""
    def git(*words):
        return subprocess.run(["git", *words], cwd=top, stdout=subprocess.PIPE, text=True, check=True).stdout.strip()
    return git("rev-parse", "HEAD") if not git("status", "--porcelain") else None


def are_there(folder, *names):
    return all(os.path.isfile(os.path.join(folder, name)) for name in names)


def copy(folder, to, *names):
    """Copies files of a folder that are there."""
    for name in names:
        if are_there(folder, name):
            os.makedirs(os.path.dirname(os.path.join(to, name)), exist_ok=True)
            shutil.copy2(os.path.join(folder, name), os.path.join(to, name))


def note(programs, top=TOP):
    """Keeps the programs that were proved in this run, with their object files and verdicts."""
    for tool in TOOLS:
        files = [tool, f"{tool}.o", f"{tool}.proof"]
        if are_there(programs, *files):
            copy(programs, os.path.join(top, "out", "objects"), *files)


def proofs(tool, programs, top=TOP):
    """The folder that has a program's object file and verdict: the run's, or that of the run which linked this program;
    the run's own where neither has."""
    kept = os.path.join(top, "out", "objects")
    is_kept = not are_there(programs, f"{tool}.o") and are_there(kept, tool, f"{tool}.o", f"{tool}.proof")
    if is_kept and filecmp.cmp(os.path.join(kept, tool), os.path.join(programs, tool), shallow=False):
        return kept
    return programs


def leave(name, programs, archives, top=TOP):
    """Leaves for a commit what these folders have of a release, and returns the folder; None, and nothing is changed,
    where a program or an archive is missing."""
    libraries = [os.path.join(target, f"librpki.{ending}") for target in TARGETS for ending in ("a", "proof")]
    if not are_there(programs, *TOOLS) or not are_there(archives, *libraries):
        return None
    proved, made = os.path.join(top, "out", "proved"), os.path.join(top, "out", f"proved.{os.getpid()}")
    copy(archives, os.path.join(made, name, "archives"), *libraries)
    for tool in TOOLS:
        to = os.path.join(made, name, "programs")
        copy(programs, to, tool)
        copy(proofs(tool, programs, top), to, f"{tool}.o", f"{tool}.proof")
    shutil.rmtree(proved, ignore_errors=True)
    os.rename(made, proved)
    return os.path.join(proved, name)
