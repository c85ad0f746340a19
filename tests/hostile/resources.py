"""Sets of addresses beside Python's: random pairs of lists of blocks, what one has of the other, and what is made of
both. Python's sets have each address, and its `ipaddress` makes the texts.

`PAIRS=1000000 tests/hostile/run random_pairs` makes so many pairs in place of 2,000, in some minutes."""
import os
import random

from makers.blocks import STARTS, blocks_of, ip_contents, random_set, text
from programs import run

PAIRS = int(os.environ.get("PAIRS", "2000"))
BATCH = 5_000
SEED = 3779


def resources(sets):
    """The extension's contents: the families that list something."""
    return ip_contents({family: blocks_of(numbers) for family, numbers in sets.items() if numbers})


def told(family, one, other):
    """The lines of a pair, by Python's sets."""
    lines = [f"encompasses {int(one >= other)}", f"encompassed {int(one <= other)}", f"equal {int(one == other)}"]
    for word, numbers in (("intersection", one & other), ("union", one | other), ("difference", one - other)):
        lines.append(word)
        lines += [f"block {text(family, low, high)}" for low, high in blocks_of(numbers)]
    return lines


def random_pair(random):
    """Addresses of both families, twice: one family at least lists some."""
    while True:
        starts = {family: random.choice(places) for family, places in STARTS.items()}
        one, other = ({family: random_set(random, start) for family, start in starts.items()} for _ in range(2))
        if any(one.values()) and any(other.values()):
            return one, other


def random_pairs(programs):
    """What is made of two sets is what Python's sets say. A row is a batch of pairs, each of both families."""
    source = random.Random(SEED)
    for first in range(0, PAIRS // 2, BATCH):
        pairs = [random_pair(source) for _ in range(min(BATCH, PAIRS // 2 - first))]
        octets = b"".join(resources(one) + resources(other) for one, other in pairs)
        expected = [line for one, other in pairs for family in one for line in told(family, one[family], other[family])]
        seen = run(programs.calls, ["resources", "pairs"], octets)
        lines = seen.output.decode().split("\n")[:-1]
        wrong = next((at for at, (line, other) in enumerate(zip(lines, expected)) if line != other), None)
        yield f"pairs from {first}", (seen.status, len(lines), wrong), (0, len(expected), None)


TABLES = [random_pairs]
