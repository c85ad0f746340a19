"""Writes the rows of signed objects that the tests in C and in Rust read: the variants of
tests/python/variants/objects.py, an object with each octet changed, objects with several octets changed, and objects
of openssl, each with the status of rpki_signed_object: the malformed part by RFC 5652 and RFC 6488, which
tests/python/judges/objects.py finds. Where that is 0 there is what the object says, and where its parts are.
Needs openssl.

usage: rows.py > FILE

A row is the octets in hexadecimal digits or `-`, whether RFC 9589 is asked for, and the status of what precedes
the certificate, 0 if that is well; then the place of the certificate, as START LENGTH, and the status of what
follows it, which is that of the object where rpki_certificate accepts the certificate. After a status that is not 0
there is the number of the error, which is leftmost in that part by X.690. Where both are 0: the places of the content's
type, the content, the signed attributes and the signature; the digest and the key identifier; the
seconds of the signing time and of the binary one, each `-` where it isn't there; whether the type is the one that is
signed, and whether there are parameters."""
import os
import random
import sys
import tempfile

sys.dont_write_bytecode = True
sys.path.append(os.path.join(os.path.dirname(os.path.abspath(__file__)), "..", "..", "python"))

from changes import changed
from judges.objects import front, signer
from makers import cms
from makers.objects import made
from strict import Wrong
from variants.objects import ACCEPTED, OTHERS, REFUSED


def words_after(before, strict):
    """The words of what follows the certificate."""
    found = signer(before.following, strict)
    said = found.said
    words = [0, *before.kind.span(), *before.content.span(), *found.place, *found.signature.span(), said.digest.hex(),
             found.identifier.hex()]
    words += ["-" if number is None else number for number in (said.moment, said.binary)]
    return words + [int(said.kind == before.kind.octets), int(found.has_parameters)]


def words_of(octets, strict):
    """The words of a row, from the status of what precedes the certificate on."""
    words = []
    try:
        before = front(octets)
        words = [0, *before.certificates.span()]
        return words + words_after(before, strict)
    except Wrong as wrong:
        return [*words, wrong.status, wrong.error]


def row(octets, strict):
    return " ".join(map(str, [octets.hex() or "-", int(strict), *words_of(octets, strict)]))


def of_openssl():
    """Objects that openssl signs, with attributes as it writes them: in the order of DER."""
    with tempfile.TemporaryDirectory() as folder:
        cms.signer(folder)
        for size in (0, 100, 70_000):
            yield cms.signed(folder, bytes(number % 251 for number in range(size)), "1.2.840.113549.1.9.16.1.24")


def every():
    """The octets of the rows."""
    source = random.Random(6488)
    usual = made()
    yield usual
    yield from (octets for _, octets, *_ in ACCEPTED + REFUSED)
    yield from of_openssl()
    for at, octet in enumerate(usual):
        for turned in (1, 0x80, source.randrange(1, 256)):
            yield usual[:at] + bytes([octet ^ turned]) + usual[at + 1:]
    yield from (changed(usual, source) for _ in range(2000))


def main():
    for title, octets, _, strictly in ACCEPTED:
        assert words_of(octets, False)[3] == 0, title
        assert (words_of(octets, True)[3] == 0) == (strictly != OTHERS), title
    for title, octets, _ in REFUSED:
        words = words_of(octets, False)
        assert words[0] or words[3] or "certificate" in title, title
    for octets in every():
        for strict in (False, True):
            print(row(octets, strict))


if __name__ == "__main__":
    main()
