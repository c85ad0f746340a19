"""Whether small names are those of certificates of the RPKI and of routers."""
from programs import run
from variants.names import ATTRIBUTES, names


def strict_names(programs):
    """What the program says of each eighth."""
    for number, (octets, due) in enumerate(names()):
        if number % 8 == 1 or number <= len(ATTRIBUTES):
            words = ["yes" if status == 0 else "no" for status in due]
            answer = f"rpki {words[0]}\nrouter {words[1]}\n".encode()
            yield octets.hex(), run(programs.basic, ["name"], octets), (0, answer, b"")


TABLES = [strict_names]
