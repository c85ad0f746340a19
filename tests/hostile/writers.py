"""Each named encoder over writers that fail: at the first call, at the second, and so on until none fails.

`hostile_calls write` does that in twelve ways, and tells of each writer in a line: its number, the call that fails
(from 0), how often it was called, how the encoder ended, and the octets that it holds. The first six take an octet at a
call, the other six what they are given; of each six the first three fail once, the others from that call on."""
from der import NULL, bits, sequence, tlv
from programs import run
from vectors import (
    CONSTRAINTS, CONSTRAINTS_NOT_CRITICAL, COMMON_NAME, ECDSA_SIGNATURE, KEY, KEY_IDENTIFIER, NAME, P256_KEY, RSA_KEY, RSA_SIGNATURE, SHA256,
    SHA256_IDENTIFIER, SIGNED, SUBJECT, VALIDITY,
)

RSYNC = b"rSync://hOst/module/"
HTTPS = b"hTtps://h"
BITS = bits(b"\xAA", 1)

# An encoder, what it is given, and what it writes.
ENCODERS = [
    ("null", b"", NULL),
    ("boolean", b"", bytes.fromhex("0101FF")),
    ("identifier", b"", COMMON_NAME),
    ("octets", b"ab", tlv(0x04, b"ab")),
    ("uri", b"ab", tlv(0x86, b"ab")),
    ("unsigned", b"\x00\x80", bytes.fromhex("02020080")),
    ("bits", BITS, BITS),
    ("borrowed_bits", BITS, BITS),
    ("captured", NAME, NAME),
    ("sequence", NAME, sequence(NAME)),
    ("set", NAME, tlv(0x31, NAME)),
    ("wrapped", NAME, tlv(0x04, NAME)),
    ("pair", NAME, NAME + NULL),
    ("triple", NAME, NAME + NULL + NAME),
    ("some", NAME, NAME),
    ("none", NAME, b""),
    ("each", NAME, NAME + NAME + NAME),
    ("digest", b"", SHA256),
    ("digest_set", b"", tlv(0x31, SHA256)),
    ("digest_identifier", b"", SHA256_IDENTIFIER),
    ("rsa", b"", RSA_KEY),
    ("p256", b"", P256_KEY),
    ("rpki", b"", RSA_SIGNATURE),
    ("cms", b"", RSA_KEY),
    ("bgpsec", b"", ECDSA_SIGNATURE),
    ("key", KEY, KEY),
    ("borrowed_key", KEY, KEY),
    ("subject", KEY, SUBJECT),
    ("key_identifier", KEY, tlv(0x04, KEY_IDENTIFIER)),
    ("name", NAME, NAME),
    ("name_octets", NAME, NAME),
    ("signed", SIGNED, SIGNED),
    ("extension", bytes.fromhex("3000"), CONSTRAINTS),
    ("extension_read", CONSTRAINTS, CONSTRAINTS),
    ("extension_read", CONSTRAINTS_NOT_CRITICAL, CONSTRAINTS_NOT_CRITICAL),
    ("rsync_string", RSYNC, tlv(0x16, RSYNC)),
    ("rsync_name", RSYNC, tlv(0x86, RSYNC)),
    ("https_string", HTTPS, tlv(0x16, HTTPS)),
    ("https_name", HTTPS, tlv(0x86, HTTPS)),
    ("serial", bytes.fromhex("00810203"), bytes.fromhex("020400810203")),
    ("utc_time", b"", tlv(0x17, b"200101000000Z")),
    ("generalized_time", b"", tlv(0x18, b"20200101000000Z")),
    ("varied_time", b"", tlv(0x18, b"20500101000000Z")),
    ("validity", b"", VALIDITY),
]
KINDS = ["BrokenPipe", "Interrupted", "WriteZero"]


def octet_by_octet(number, octets):
    """The lines of a writer that takes an octet at a call: it holds what the calls before the failed one took, and is
    not called again."""
    for at in range(len(octets)):
        yield f"{number} {at} {at + 1} {KINDS[number % 3]} {octets[:at].hex().upper()}"
    yield f"{number} {len(octets)} {len(octets)} done {octets.hex().upper()}"


def is_piece_by_piece(number, told, octets):
    """Whether these are lines of a writer that takes what it is given: each time it holds a longer beginning, not the
    whole, and is not called again after the call that fails; and at last it holds all."""
    before = -1
    for at, line in enumerate(told[:-1]):
        fields = line.split(" ")
        held = bytes.fromhex(fields[-1])
        if fields[:-1] != [str(number), str(at), str(at + 1), KINDS[number % 3]]:
            return False
        if not octets.startswith(held) or not before < len(held) < len(octets):
            return False
        before = len(held)
    pieces = len(told) - 1
    return told[-1:] == [f"{number} {pieces} {pieces} done {octets.hex().upper()}"] and (pieces > 0 or octets == b"")


def failing_writers(programs):
    """Each encoder leaves a beginning of its octets in a writer that fails, and ends with its first error."""
    failures = 0
    for encoder, given, octets in ENCODERS:
        seen = run(programs.calls, ["write", encoder], given)
        lines = seen.output.decode().splitlines()
        by_number = {number: [] for number in range(12)}
        for line in lines:
            by_number.setdefault(int(line.split(" ")[0]), []).append(line)
            failures += " done " not in line
        whole = seen.status == 0 and seen.faults == b"" and len(by_number) == 12
        for number in range(6):
            expected = list(octet_by_octet(number, octets)) if whole else None
            yield f"{encoder}, writer {number}", by_number[number], expected
        for number in range(6, 12):
            as_it_must = whole and is_piece_by_piece(number, by_number[number], octets)
            yield f"{encoder}, writer {number}: {by_number[number]}", as_it_must, True
    return f"{failures} failing calls of writers under {len(ENCODERS)} encoders"


TABLES = [failing_writers]
