#!/usr/bin/env python3
"""Counts the lines of the crates that are proved, without blank ones and comments: code; and contracts, definitions and
proofs, whose ratio README.md says. Crates and modules of tests aren't counted.

usage: tests/documents/ratio.py"""
import pathlib
import re

TOP = pathlib.Path(__file__).resolve().parent.parent.parent
CONTRACT = re.compile(r"^[ \t]*(?:ensures|requires)\b[^{\n]*\{", re.M)


def contracts(text):
    """The text of each contract of a source."""
    for begun in CONTRACT.finditer(text):
        end, depth = begun.end(), 1
        while depth and end < len(text):
            depth += {"{": 1, "}": -1}.get(text[end], 0)
            end += 1
        yield text[begun.start():end]


def lines(text, mark):
    """How many lines of a text are neither blank nor a comment."""
    return sum(bool(line.strip()) and not line.strip().startswith(mark) for line in text.split("\n"))


def counted():
    """Lines of code, of contracts, of definitions and of proofs."""
    code = clauses = definitions = proofs = 0
    for crate in sorted((TOP / "crates").iterdir()):
        if crate.name.endswith(("_tests", "_calls")):
            continue
        for path in crate.glob("src/**/*.rt"):
            name = path.relative_to(crate / "src").parts
            if name[0] not in ("tests", "tests.rt"):
                text = path.read_text()
                own = sum(lines(it, "//") for it in contracts(text))
                code, clauses = code + lines(text, "//") - own, clauses + own
        definitions += sum(lines(path.read_text(), "--") for path in crate.glob("specs/**/*.antt"))
        proofs += sum(lines(path.read_text(), "--") for path in crate.glob("proofs/**/*.antt"))
    return code, clauses, definitions, proofs


def main():
    code, *others = counted()
    print(f"{code} lines of code; {', '.join(map(str, others))} of contracts, definitions, proofs; "
          f"{sum(others) / code:.1f} a line of code")


if __name__ == "__main__":
    main()
