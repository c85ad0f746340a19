"""Rows of a script that hold or don't, and its last line, by which the gate counts them."""
import sys
from typing import NoReturn

counts = {True: 0, False: 0}


def holds(name: str, is_so: object, seen: object = "") -> None:
    """Counts a row, and says which failed."""
    counts[bool(is_so)] += 1
    if not is_so:
        print(f"failed: {name}: {seen}")


def same(name: str, seen: object, wanted: object) -> None:
    """The same of what has to be seen."""
    holds(name, seen == wanted, f"{str(seen)[:900]} is not {str(wanted)[:900]}")


def end() -> NoReturn:
    """Ends the script: with 1 where a row failed, or where there is none."""
    print(f"{counts[True]} passed, {counts[False]} failed")
    sys.exit(1 if counts[False] or not counts[True] else 0)
