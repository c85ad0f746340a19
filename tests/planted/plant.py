"""Bugs, as bugs.txt lists them, in a copy of the Cargo package: all of them at once, each behind a switch that the
variable PLANTED of the environment turns on by its number. So one build serves all.

A line `= FILE` names a file of bindings/rust/src, and each line after it what is wrong in a function of that file:

    FUNCTION: TEXT ---> OTHER ---> ANOTHER     the text is the other; and one bug more, where it is another
    FUNCTION: BEFORE [[TEXT]] AFTER ---> OTHER     the same of a text that is told by what is around it
    FUNCTION: TEXT --->                        the statement is left out
    FUNCTION: each arm                         the value of an arm of its match is that of the next; of each arm that
                                               has no parts

A text is there once in the function, whatever the spaces in it. TYPE::FUNCTION is one of an `impl` whose first line
names the type. A line `neutral: REASON` after a bug says that no caller can notice it."""
import os
import re
from typing import NamedTuple

HERE = os.path.dirname(os.path.abspath(__file__))
SWITCH = """
/// Whether the bug of this number is turned on.
pub(crate) fn planted(number: u32) -> bool {
    use std::sync::atomic::{AtomicU32, Ordering};
    static PLANTED: AtomicU32 = AtomicU32::new(u32::MAX);
    if PLANTED.load(Ordering::Relaxed) == u32::MAX {
        let number = std::env::var("PLANTED").ok().and_then(|number| number.parse().ok());
        PLANTED.store(number.unwrap_or(0), Ordering::Relaxed);
    }
    PLANTED.load(Ordering::Relaxed) == number
}
"""


class Bug(NamedTuple):
    """What is wrong: in a file, from the one character to the other, this text; and why nobody notices, if so."""

    number: int
    file: str
    function: str
    start: int
    end: int
    other: str
    neutral: str


def closing(text, start):
    """Where the braces end that are open here. Braces in literals of characters are not counted, and of strings they
    are in pairs."""
    depth = 0
    for found in re.finditer(r"'[{}]'|[{}]", text[start:]):
        depth += {"{": 1, "}": -1}.get(found[0], 0)
        if depth == 0:
            return start + found.end()
    raise ValueError("braces that never end")


def impls(text, name):
    """The places of what is implemented of a type, or for one; and of traits."""
    for found in re.finditer(r"^[ ]*(?:pub trait|impl)\b[^{]*\{", text, re.M):
        if re.search(rf"(?<!\w){re.escape(name)}(?!\w)", found[0]):
            yield found.start(), closing(text, found.end() - 1)


def place(text, function):
    """Where a function is, of which there has to be one."""
    owner, _, name = function.rpartition("::")
    found = []
    for head in re.finditer(rf"\bfn {name}\b(?:\[[^\]]*\]|[^;{{\[])*\{{", text):
        if not owner or any(start < head.start() < end for start, end in impls(text, owner)):
            found.append((head.start(), closing(text, head.end() - 1)))
    if len(found) != 1:
        raise ValueError(f"{function} is there {len(found)} times")
    return found[0]


def spaced(text):
    """A pattern of a text, whatever the spaces in it."""
    return r"\s*".join(re.escape(letter) for letter in "".join(text.split()))


def within(text, start, end, wanted):
    """Where a text is between these places, or the part of it that is marked."""
    before, marked, rest = wanted.partition("[[")
    if marked:
        wanted, _, after = rest.rpartition("]]")
        pattern = rf"{spaced(before)}\s*({spaced(wanted)})\s*{spaced(after)}"
    else:
        pattern = f"({spaced(wanted)})"
    found = list(re.finditer(pattern, text[start:end]))
    if len(found) != 1:
        raise ValueError(f"`{wanted}` is there {len(found)} times")
    return start + found[0].start(1), start + found[0].end(1)


def arms(text, start, end):
    """The places of the values of the arms without parts, each with the next value."""
    found = list(re.finditer(r"^ *(?:\w+::\w+|\d+) => ([^{\n]+),$", text[start:end], re.M))
    for at, arm in enumerate(found):
        yield start + arm.start(1), start + arm.end(1), found[(at + 1) % len(found)][1]


def bugs(sources):
    """All that the list has."""
    found, text, file = [], "", ""
    with open(os.path.join(HERE, "bugs.txt"), encoding="utf-8") as lines:
        for number, line in enumerate(lines, 1):
            line = line.rstrip("\n")
            try:
                if line.startswith("= "):
                    file = line[2:]
                    with open(os.path.join(sources, file), encoding="utf-8") as source:
                        text = source.read()
                elif line.startswith("neutral: "):
                    found[-1] = found[-1]._replace(neutral=line.removeprefix("neutral: "))
                elif line and not line.startswith("#"):
                    for start, end, other in of_line(text, line):
                        name = line.split(": ")[0]
                        found.append(Bug(len(found) + 1, file, name, start, end, other, ""))
            except (ValueError, IndexError) as error:
                raise SystemExit(f"bugs.txt, line {number}: {error}") from error
    return found


def of_line(text, line):
    """The places of a line's bugs, each with what is there in place of the text."""
    function, _, rest = line.partition(": ")
    start, end = place(text, function)
    if rest == "each arm":
        return list(arms(text, start, end))
    wanted, *others = (part.strip() for part in rest.split(" --->"))
    if not others:
        raise ValueError("no other text")
    return [(*within(text, start, end, wanted), other) for other in others]


def switched(text, start, end, all_of):
    """The text between these places, with the bugs in it, each behind its switch."""
    made, at = [], start
    while all_of:
        first = min(all_of, key=lambda bug: (bug.start, -bug.end))
        same = [bug for bug in all_of if (bug.start, bug.end) == (first.start, first.end)]
        inner = [bug for bug in all_of if bug not in same and bug.end <= first.end]
        all_of = [bug for bug in all_of if bug not in same and bug not in inner]
        if any(bug.start < first.end for bug in all_of):
            raise SystemExit(f"bug {first.number} overlaps another")
        own = switched(text, first.start, first.end, inner)
        is_statement = text[first.start:first.end].endswith(";")
        choice = "".join(f"if crate::planted({bug.number}) {{ {bug.other} }} else " for bug in same) + f"{{ {own} }}"
        made += [text[at:first.start], choice if is_statement else f"({choice})"]
        at = first.end
    return "".join(made) + text[at:end]


def plant(sources, all_of):
    """Plants these bugs in the sources."""
    for file in sorted({bug.file for bug in all_of}):
        path = os.path.join(sources, file)
        with open(path, encoding="utf-8") as source:
            text = source.read()
        with open(path, "w", encoding="utf-8") as source:
            source.write(switched(text, 0, len(text), [bug for bug in all_of if bug.file == file]))
    with open(os.path.join(sources, "lib.rs"), "a", encoding="utf-8") as root:
        root.write(SWITCH)
