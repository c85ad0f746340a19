"""Signatures by RSA that openssl makes at each run, of keys of several sizes and exponents, and with octets changed."""
import os
import random
import tempfile

from judges.signatures import answer
from makers.rsa import Key, bits_of
from programs import built, run

KEYS = [(2048, 65537), (2048, 3), (2056, 65537), (3072, 65537), (4096, 65537), (2048, 2**63 + 29)]
MESSAGES = 10


def rows(folder, chance):
    """Good signatures of messages of any length, each with a message that differs, and with an octet that does."""
    for bits, exponent in KEYS:
        key = Key(os.path.join(folder, f"{bits}-{exponent}.pem"), bits, exponent)
        for _ in range(MESSAGES):
            message = chance.randbytes(chance.randrange(200))
            signature = key.signed_by_openssl(message)
            changed = bytearray(signature)
            changed[chance.randrange(len(changed))] ^= 1 << chance.randrange(8)
            for name, octets, value in (("good", message, signature), ("another message", message + b"a", signature),
                                        ("changed", message, bytes(changed))):
                yield f"{bits} bits, exponent {exponent}, {name}", key, octets, value


def new_signatures(programs):
    """What is printed of each row, beside what the definition says by Python's numbers."""
    program, seed = *built(os.path.dirname(programs.calls), "rsa_rows"), random.randrange(2**32)
    with tempfile.TemporaryDirectory() as folder:
        made = list(rows(folder, random.Random(seed)))
        lines = [f"{bits_of(key.octets, key.exponent).hex()} {message.hex()} {value.hex()}\n"
                 for _, key, message, value in made]
        seen = run(program, [], "".join(lines).encode()).output.decode().split("\n")
        for (name, key, message, value), said in zip(made, seen):
            yield f"{name}, seed {seed}", said, answer(key.octets, key.exponent, message, value)
    return f"seed {seed}"


TABLES = [new_signatures]
