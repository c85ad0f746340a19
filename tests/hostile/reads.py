"""Inputs that give one octet at each read, as often as the program reads."""
import os
import tempfile

from programs import run
from shim import compiled

# How often the program reads its input at most.
READS = 16_777_216

# How many octets the input has, how often it is read, the status and the fault. The octets are no value: `11` is a SET
# in primitive form, with 0x31 as its length too, where `again` wants a SEQUENCE.
INPUTS = [
    (READS - 1, READS, 1, b"refused 4\n"),
    (READS, READS, 1, b"input could not be read\n"),
    (READS + 1, READS, 1, b"input could not be read\n"),
    (0, 1, 1, b"refused 1\n"),
]


def most_reads(programs):
    """The last read may find the end, and no read is made after it."""
    with tempfile.TemporaryDirectory() as folder:
        library = compiled("reads.c", folder)
        count = os.path.join(folder, "count")
        for octets, reads, status, fault in INPUTS:
            environment = {**os.environ, "LD_PRELOAD": library, "OCTETS": str(octets), "COUNT_FILE": count}
            yield f"{octets} octets", run(programs.basic, ["again"], env=environment), (status, b"", fault)
            with open(count, encoding="ascii") as file:
                yield f"{octets} octets, reads", int(file.read()), reads


TABLES = [most_reads]
