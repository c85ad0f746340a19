"""Certificates and signed objects that are held to the revocation list of their issuer (RFC 6487 7.2, RFC 5280 6.3.3):
those of a repository that openssl makes, beside the serial numbers that openssl says the list has; and lists that are
none, of another issuer, or not in force."""
import json
import os

import repository
from fields import OK, UNREVOKED
from files import FOLDER
from issuers import BAD, NAME, OF_CERTIFICATE, OF_LIST, line
from openssl import openssl, said_of, text_of
from programs import octets_of, ran, write

REVOKED = OF_CERTIFICATE + "revoked certificate"


def serials(path):
    """The serial numbers that openssl says the list has."""
    return [part.split()[0] for part in text_of(path, "crl").split("Serial Number: ")[1:]]


def files(place, issuer):
    """The files of what an authority has issued but its list, each with the certificate in it."""
    found = [(os.path.join(place, folder, name), os.path.join(place, "work", entity + ".cer"))
             for name, (folder, by, entity, _) in repository.SIGNED.items() if by == issuer]
    folder = os.path.join(place, "rpki.example/repo", issuer)
    certificates = [os.path.join(folder, name) for name in sorted(os.listdir(folder)) if name.endswith(".cer")]
    return found + [(path, path) for path in certificates if not path.endswith("ta.cer")]


def revoked(program, folder):
    """What each of two authorities has issued, beside its list."""
    place = repository.made(os.path.join(folder, "revoked"))
    told = []
    for name in ("ta", "ca"):
        issuer, crl = (os.path.join(place, "rpki.example/repo", it) for it in (f"ta/{name}.cer", f"{name}/{name}.crl"))
        pem = write(folder, name + ".list.pem", openssl("crl", "-inform", "DER", "-in", crl))
        numbers, lines = serials(crl), b""
        for path, cert in files(place, name):
            is_revoked = said_of(cert, "-serial") in numbers
            said = REVOKED if is_revoked else OK
            lines, told = lines + line(path, said), [*told, is_revoked]
            for words in (["--crl", crl], [f"--crl={pem}"], ["--crl", crl, "--at", "2026-01-01T00:00:00Z"],
                          ["--crl", pem, "--at", "2036-01-01T00:00:00Z"]):
                seen = ran(program, "--check", "--issuer", issuer, *words, path)
                yield f"{os.path.basename(path)} {words[1:]}", seen, (int(is_revoked), line(path, said), b"")
            yield f"{os.path.basename(path)} without a list", ran(program, "--check", "--issuer", issuer, path), (
                0, line(path, UNREVOKED), b"")
            plain = ran(program, "--issuer", issuer, path)
            fault = b"rpkicert: " + line(path, said) if is_revoked else b""
            yield f"{os.path.basename(path)}, shown", ran(program, "--crl", crl, "--issuer", issuer, path), (
                int(is_revoked), plain.output, fault)
            status, output, faults = ran(program, "--json", "--check", "--crl", crl, "--issuer", issuer, path)
            yield f"{os.path.basename(path)} as JSON", (status, json.loads(output), faults), (
                int(is_revoked), {"file": path, "signature": "good", "verdict": said}, b"")
        every = [path for path, _ in files(place, name)] + [crl]
        seen = ran(program, "--check", "--issuer", issuer, "--crl", "-", *every, octets=octets_of(crl))
        yield f"all of {name}", seen, (int(REVOKED.encode() in lines), lines + line(crl, OK), b"")
    yield "some are revoked, and some aren't", (any(told), all(told)), (True, False)


def none(program, folder):
    """Lists that are none of the issuer: nothing is shown; and objects of another issuer beside its list."""
    place = repository.made(os.path.join(folder, "lists"))
    of_ta, of_ca = (os.path.join(place, "rpki.example/repo/ta", name) for name in ("ta.cer", "ca.cer"))
    ta_list, ca_list = (os.path.join(place, "rpki.example/repo", name) for name in ("ta/ta.crl", "ca/ca.crl"))
    roa, manifest = (os.path.join(place, "rpki.example/repo/ca", name) for name in ("roa.roa", "ca.mft"))
    lost, empty = os.path.join(folder, "lost.crl"), write(folder, "empty.crl", b"")
    cut = write(folder, "cut.crl", octets_of(ca_list)[:-1])
    text = write(folder, "text.crl", b"not a list\n")
    turned = write(folder, "turned.crl", octets_of(ca_list)[:-1] + bytes([octets_of(ca_list)[-1] ^ 1]))
    renamed = os.path.join(folder, "renamed.cer")
    openssl("req", "-x509", "-new", "-key", os.path.join(place, "work/ca.key"), "-subj", "/CN=Ca", "-outform", "DER",
            "-out", renamed)
    rows = [("another's list", of_ca, ta_list, [], OF_LIST + BAD),
            ("another issuer", of_ta, ca_list, [], OF_LIST + BAD),
            ("an octet of the signature", of_ca, turned, [], OF_LIST + BAD),
            ("another name", renamed, ca_list, [], OF_LIST + NAME),
            ("before it", of_ca, ca_list, ["--at", "2025-12-31T23:59:59Z"], OF_LIST + "issued later"),
            ("after it", of_ca, ca_list, ["--at", "2036-01-01T00:00:01Z"], OF_LIST + "stale"),
            ("a certificate", of_ta, of_ca, [], "not a revocation list"),
            ("a manifest", of_ca, manifest, [], "not a revocation list"),
            ("no file", of_ca, lost, [], "cannot be read: No such file or directory"),
            ("a folder", of_ca, folder, [], "cannot be read: " + FOLDER), ("no octets", of_ca, empty, [], "empty"),
            ("a text", of_ca, text, [], "neither DER nor PEM of an object"),
            ("without its last octet", of_ca, cut, [], "not a revocation list: truncated value")]
    for name, issuer, path, words, said in rows:
        for form in [], ["--check"], ["--json", "--check", "-r"]:
            seen = ran(program, *form, "--issuer", issuer, "--crl", path, *words, roa, roa)
            yield f"{name} {form}", seen, (2, b"", b"rpkicert: " + line(path, said))
    issuer = ran(program, "--issuer", lost, "--crl", lost + "2", roa)
    absent = b"rpkicert: " + line(lost, "cannot be read: No such file or directory")
    yield "the issuer is first", issuer, (2, b"", absent)
    of_anchor = os.path.join(place, "rpki.example/repo/ta/ta.mft")
    seen = ran(program, "--check", "--issuer", of_ca, "--crl", ca_list, roa, of_anchor, ta_list, manifest)
    yield "of another issuer", seen, (1, line(roa, OK) + line(of_anchor, OF_CERTIFICATE + BAD)
                                      + line(ta_list, OF_LIST + BAD) + line(manifest, OK), b"")


def long_lists(program, folder):
    """Lists of many serial numbers in no order, with and without that of an object; openssl counts them."""
    place = repository.made(os.path.join(folder, "long"))
    work, published = os.path.join(place, "work"), os.path.join(place, "rpki.example/repo")
    objects = [os.path.join(published, "ca", name) for name in ("roa.roa", "one.roa", "ca.mft")]
    numbers = [said_of(os.path.join(work, entity + ".cer"), "-serial") for entity in ("roa", "one", "camft")]
    with open(os.path.join(work, "ca.cnf"), encoding="ascii") as file:
        write(work, "long.cnf", file.read().replace("ca.index", "long.index").encode())
    others = [f"{number * 7919 % 10007 + 2 ** 70:020X}" for number in range(5000)]
    for name, has in ("no object", []), ("the first", [0]), ("the last", [2]), ("each", [0, 1, 2]):
        listed = [*others[:2500], *(numbers[at] for at in has), *others[2500:]]
        lines = "".join(f"R\t360101000000Z\t260101000000Z\t{number}\tunknown\t/CN=gone\n" for number in listed)
        write(work, "long.index", lines.encode())
        openssl("ca", "-gencrl", "-config", "long.cnf", "-keyfile", "ca.key", "-cert", "ca.pem", "-out", "long.pem",
                cwd=work)
        crl = os.path.join(work, "long.crl")
        openssl("crl", "-in", "long.pem", "-outform", "DER", "-out", crl, cwd=work)
        yield f"a long list of {name}, by openssl", len(serials(crl)), len(listed)
        seen = ran(program, "--check", "--issuer", os.path.join(published, "ta/ca.cer"), "--crl", crl, *objects)
        wanted = b"".join(line(path, REVOKED if at in has else OK) for at, path in enumerate(objects))
        yield f"a long list of {name}", seen, (int(bool(has)), wanted, b"")


TABLES = [revoked, none, long_lists]
