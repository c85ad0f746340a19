"""How often headers are read, by callgrind's count of calls, and how the instructions grow that name members, that read
certificates of many extensions, or that look for serial numbers on lists.

The members of a SEQUENCE have the tag number 31 here, and the function `tag_number` reads such numbers, once for each
header that is read from octets. Without valgrind nothing is counted, and the last line of the table says so; so for a
program without the names of its functions, and for that by Rattle's own compiler, whose functions have no sizes by
which valgrind would know them."""
import os
import re
import shutil
import tempfile

from der import digits_of, nested, sequence
from makers.certificate import Certificate
from makers.lists import entry, listed
from makers.x509 import UNKNOWN
from programs import run

MEMBERS = 1_000
VALUE = sequence(bytes.fromhex("1F1F00") * MEMBERS)
FUNCTION = "rpki_der::header::tag_number"

# A call, what is told first, and how many numbers of tags are read from octets. What is captured is read on from the
# index alone.
CALLS = [
    (["cursor", "walk"], b"done", MEMBERS),
    (["cursor", "skip_one"], b"done", MEMBERS),
    (["cursor", "skip_nested"], b"done", 2 * MEMBERS),
    (["cursor", "walk_octets"], b"size %d" % len(VALUE), MEMBERS),
    (["cursor", "index_octets"], b"size %d" % len(VALUE), MEMBERS),
    (["cursor", "capture_one"], b"made " + digits_of(VALUE), MEMBERS),
    (["captured", "clone"], b"made " + digits_of(VALUE), MEMBERS),
    (["captured", "read_on"], b"done", MEMBERS),
]


# Values of so many members whose members are named, each value's in turn: many in one, one in another, and pairs.
SHAPES = [
    ("many in one", lambda number: sequence(bytes.fromhex("0500") * number)),
    ("one in another", nested),
    ("pairs", lambda number: sequence(sequence(bytes.fromhex("05000500")) * (number // 3))),
]


def calls_in(path):
    """How often callgrind saw the function called; None where it saw no such function."""
    with open(path, encoding="utf-8") as file:
        text = file.read()
    number = re.search(r"fn=\((\d+)\) " + re.escape(FUNCTION) + "$", text, re.MULTILINE)
    if not number:
        return None
    called = rf"^cfn=\({number[1]}\).*\ncalls=(\d+)"
    return sum(int(times) for times in re.findall(called, text, re.MULTILINE))


def instructions_in(path):
    """How many instructions callgrind saw."""
    with open(path, encoding="utf-8") as file:
        return int(re.search(r"^totals: (\d+)$", file.read(), re.MULTILINE)[1])


def counted(programs, counts, words, value):
    """Runs the program under callgrind: its status and the first line that it tells."""
    options = ["--tool=callgrind", f"--callgrind-out-file={counts}", f"--log-file={counts}.log"]
    seen = run(shutil.which("valgrind"), [*options, programs.calls, *words], value)
    return seen.status, seen.output.split(b"\n")[0]


def headers_read(programs):
    """Each call reads each header from octets once, and what has an index reads none."""
    if not shutil.which("valgrind"):
        return "nothing counted: there is no valgrind"
    if programs.compiler != "LLVM":
        return "nothing counted: the functions have no sizes"
    with open(programs.calls, "rb") as file:
        if FUNCTION.encode() not in file.read():
            return f"nothing counted: there is no {FUNCTION}"
    with tempfile.TemporaryDirectory() as folder:
        counts = os.path.join(folder, "counts")
        for words, told, times in CALLS:
            yield f"{words} is answered", counted(programs, counts, words, VALUE), (0, told)
            yield f"{words}, headers read", calls_in(counts), times


def entries_looked_at(programs):
    """Where there are ten times as many members, naming those of each value takes less than twenty times the
    instructions: not every entry is looked at for each of them."""
    if not shutil.which("valgrind"):
        return "nothing counted: there is no valgrind"
    with tempfile.TemporaryDirectory() as folder:
        counts = os.path.join(folder, "counts")
        for name, shape in SHAPES:
            instructions = []
            for number in (999, 9_990):
                seen = counted(programs, counts, ["captured", "members"], shape(number))
                yield f"{number} members, {name}", seen, (0, b"size %d" % number)
                instructions.append(instructions_in(counts))
            yield f"{name}, twenty times the instructions", instructions[1] < 20 * instructions[0], True


def many_extensions(count, twice=False):
    """A certificate of more extensions, so many, of which no two have the same identifier, or the last two."""
    it = Certificate()
    for number in range(count):
        it.add(f"{UNKNOWN}.{number}", b"")
    if twice:
        it.add(f"{UNKNOWN}.{count - 1}", b"")
    return it.octets()


def identifiers_compared(programs):
    """Where there are ten times as many extensions, reading a certificate takes less than twenty times the
    instructions: not every identifier is compared with every other. So where the last two are the same."""
    if not shutil.which("valgrind"):
        return "nothing counted: there is no valgrind"
    with tempfile.TemporaryDirectory() as folder:
        counts = os.path.join(folder, "counts")
        for twice in (False, True):
            name, instructions = "the last two equal" if twice else "all different", []
            for number in (500, 5_000):
                status, first = counted(programs, counts, ["certificate", "read"], many_extensions(number, twice))
                rejected = first == b"rejected duplicate extension"
                yield f"{number} extensions, {name}", (status, rejected), (0, twice)
                instructions.append(instructions_in(counts))
            yield f"extensions, {name}, twenty times the instructions", instructions[1] < 20 * instructions[0], True


def of_even_numbers(count):
    """A list of so many entries, of the even numbers from 0 on."""
    return listed(entries=sequence(*(entry(2 * number) for number in range(count))))


def serial_numbers_looked_for(programs):
    """Where ten times as many serial numbers are looked for among ten times as many that are kept as a set, it takes
    less than twenty times the instructions: not every entry is looked at for each of them."""
    count = 100_000
    told = run(programs.calls, ["list", "kept", str(count)], of_even_numbers(count))
    yield f"{count} looked for among {count}", (told.status, told.output), (0, b"size %d\n" % (count // 2))
    if not shutil.which("valgrind"):
        return "nothing counted: there is no valgrind"
    with tempfile.TemporaryDirectory() as folder:
        counts, instructions = os.path.join(folder, "counts"), []
        for number in (50, 500):
            seen = counted(programs, counts, ["list", "kept", str(number)], of_even_numbers(number))
            yield f"{number} looked for among {number}", seen, (0, b"size %d" % (number // 2))
            instructions.append(instructions_in(counts))
        yield "serial numbers, twenty times the instructions", instructions[1] < 20 * instructions[0], True
    return f"{instructions[1] / instructions[0]:.1f} times"


TABLES = [headers_read, entries_looked_at, identifiers_compared, serial_numbers_looked_for]
