"""Files that are no certificate, that can't be read, or that are texts of one or of several (RFC 7468), and their
names."""
import json
import os

from fields import PROFILES, UNASKED, lines_of, verdict
from makers import authority
from openssl import openssl, said_of
from programs import octets_of, ran, write

MOST = 4000000
# What is said of octets, and of a text, that begin as no object, and have none in PEM: why they are no locator either.
NO_PEM, NO_LOCATOR = "not one certificate or list in PEM", "not a trust anchor locator: "
OTHER = "neither DER nor PEM of an object, nor a trust anchor locator"
FOLDER = "Is a directory (-r prints the files in it)"
# What a text of RFC 7468 has, and what is said of it.
KEY, PUBLIC, REQUEST, DATA, KIND = (NO_PEM + it for it in (
    ": a private key", ": a public key", ": a certificate request", ": signed data, which is read as DER",
    ": of another kind"))


# Labels of RFC 7468, OpenSSL and RFC 5915, and what is said of them.
LABELS = [(f"the label {label}", label.encode(), said) for label, said in (
    ("PRIVATE KEY", KEY), ("ENCRYPTED PRIVATE KEY", KEY), ("RSA PRIVATE KEY", KEY), ("EC PRIVATE KEY", KEY),
    ("PUBLIC KEY", PUBLIC), ("CERTIFICATE REQUEST", REQUEST), ("NEW CERTIFICATE REQUEST", REQUEST), ("CMS", DATA),
    ("PKCS7", DATA), ("ATTRIBUTE CERTIFICATE", KIND), ("DSA PRIVATE KEY", KIND), ("PRIVATE KEYS", KIND), ("", KIND))]


def of_openssl(paths):
    """What openssl writes in PEM that is no certificate."""
    key, elliptic = paths["ca"] + ".key", paths["router"] + ".key"
    return [("a key by openssl", octets_of(key), 1, KEY),
            ("a key of RSA", openssl("rsa", "-in", key, "-traditional"), 1, KEY),
            ("an elliptic key", openssl("ec", "-in", elliptic), 1, KEY),
            ("an encrypted key", openssl("pkey", "-in", key, "-aes128", "-passout", "pass:word"), 1, KEY),
            ("a public key of RSA", openssl("rsa", "-in", key, "-RSAPublicKey_out"), 1, KIND),
            ("a request", octets_of(paths["ca"] + ".csr"), 1, REQUEST),
            ("certificates of PKCS #7", openssl("crl2pkcs7", "-nocrl", "-certfile", paths["ca"] + ".pem"), 1, DATA)]


def others(program, folder):
    """Files that are no certificate, or that can't be read, and names."""
    paths = authority.paths(folder)
    der, pem = (octets_of(paths["ca"] + ending) for ending in (".der", ".pem"))
    key = openssl("x509", "-inform", "DER", "-in", paths["ca"] + ".der", "-noout", "-pubkey")
    malformed, none = NO_PEM, "not a certificate: "
    end = b"-----END CERTIFICATE-----\n"
    rows = [
        ("empty", b"", 1, "empty"),
        ("cut", der[:-1], 1, none + "truncated value"),
        ("with an octet after it", der + b"\0", 1, none + "trailing data"),
        ("one octet", b"0", 1, none + "truncated value"),
        ("another type", b"\x02\x01\x01", 1, OTHER),
        ("a text", b"hello\n", 1, OTHER),
        ("a line feed", b"\n", 1, OTHER),
        ("DER behind a line feed", b"\n" + der, 1, OTHER),
        ("base 64 alone", b"".join(pem.split(b"\n")[1:-2]), 1, OTHER),
        ("a last line alone", end, 1, OTHER),
        ("four hyphens", pem[1:], 1, OTHER),
        ("the beginning of PEM", b"-----BEGIN", 1, KIND),
        ("PEM without its end", pem[:-len(end)], 1, malformed),
        ("PEM cut in its end", pem[:-3], 1, malformed),
        ("PEM and a text after it", pem + b"x", 0, None),
        ("a text before PEM", b"subject: an authority\n" + pem, 0, None),
        ("PEM behind what openssl prints", openssl("x509", "-inform", "DER", "-in", paths["ca"] + ".der", "-text"), 0,
         None),
        ("PEM behind a key", key + pem, 0, None),
        ("a text before PEM cut in its end", b"subject\n" + pem[:-3], 1, malformed),
        ("a key", key, 1, PUBLIC),
        ("a text that begins as DER", b"0 certificates\n" + pem, 1, None),
        ("another label", pem.replace(b"CERTIFICATE", b"PUBLIC KEY"), 1, PUBLIC),
        ("the label of a list", pem.replace(b"CERTIFICATE", b"X509 CRL"), 0, None),
        *((text, pem.replace(b"CERTIFICATE", label), 1, said) for text, label, said in LABELS),
        *of_openssl(paths),
        ("two labels", pem.replace(b"END CERTIFICATE", b"END X509 CRL"), 1, malformed),
        ("an octet out of base 64", pem.replace(b"\nMII", b"\n*II", 1), 1, malformed),
        ("PEM of octets that are none", b"-----BEGIN CERTIFICATE-----\nBQA=\n" + end, 1, none + "unexpected value"),
        ("PEM with CRLF", pem.replace(b"\n", b"\r\n"), 0, None),
        ("PEM without line feeds in it", b"\n".join(
            [pem.split(b"\n")[0], b"".join(pem.split(b"\n")[1:-2]), pem.split(b"\n")[-2]]), 0, None),
        ("PEM and empty lines", pem + b"\n \t\r\n", 0, None),
        ("as large as may be", der + bytes(MOST - len(der)), 1, none + "trailing data"),
        ("an octet more", der + bytes(MOST + 1 - len(der)), 2, "larger than 4000000 octets"),
        ("as many as may be, of no form", bytes(MOST), 1, OTHER),
        ("much larger", bytes(20 * MOST), 2, "larger than 4000000 octets"),
    ]
    for number, (name, octets, wanted, text) in enumerate(rows):
        path = write(folder, f"other{number}", octets)
        for words, octets_in, shown in ([path], b"", path), (["-"], octets, "-"):
            status, output, faults = ran(program, *words, octets=octets_in)
            good = output.startswith(b"File: ") and faults == b""
            seen = good if wanted == 0 else (faults.decode() == f"rpkicert: {shown}: {text}\n" and output == b"")
            if text is None and wanted:
                seen = faults.startswith(f"rpkicert: {shown}: {none}".encode())
            yield f"{name}, {words[0][:1]}", (status, seen), (wanted, True)
            status, output, faults = ran(program, "--check", *words, octets=octets_in)
            said = UNASKED if wanted == 0 else text
            same = output.decode() == f"{shown}: {said}\n" if said else output.startswith(f"{shown}: {none}".encode())
            yield f"{name}, {words[0][:1]}, checked", (status, same, faults), (wanted, True, b"")
    absent = "No such file or directory"
    for name, path, cause in [("a folder", folder, FOLDER), ("no file", os.path.join(folder, "lost"), absent),
                              ("an empty name", "", absent)]:
        seen = ran(program, path)
        yield name, seen, (2, b"", f"rpkicert: {path}: cannot be read: {cause}\n".encode())
        good = paths["ta"] + ".der"
        seen = ran(program, "--check", path, good)
        yield f"{name}, and a file behind it", seen, (
            2, f"{path}: cannot be read: {cause}\n{good}: {verdict(good)}\n".encode(), b"")
    odd = write(folder, 'a "b" \\ \n\x7f', der)
    status, output, faults = ran(program, "--json", odd)
    yield "an odd name as JSON", (status, json.loads(output)["file"], faults), (0, odd, b"")
    status, output, faults = ran(program, "--json", "--check", odd)
    yield "a verdict on an odd name as JSON", (status, json.loads(output), faults), (
        0, {"file": odd, "signature": "not checked", "verdict": UNASKED}, b"")
    shown = odd.replace("\\", "\\5C").replace("\n", "\\0A").replace("\x7f", "\\7F")
    seen = ran(program, "--check", odd)
    yield "an odd name in a line", seen, (0, f"{shown}: {UNASKED}\n".encode(), b"")
    wild = write(folder, "wild", der)
    os.rename(wild, os.path.join(folder, "ü.cer"))
    seen = ran(program, "--check", os.path.join(folder, "ü.cer"))
    yield "a name beyond ASCII", seen, (0, f"{folder}/ü.cer: {UNASKED}\n".encode(), b"")


def bundles(program, folder):
    """Several certificates in a text (RFC 7468 2): each is shown as `openssl x509` writes it into a file of its own,
    but for its name, which has its number. What openssl reads of the text, by `storeutl`, is these, in order."""
    paths = authority.paths(folder)
    octets = {name: octets_of(paths[name] + ".pem") for name in PROFILES}
    texts = {name: ran(program, "--json", paths[name] + ".pem")[1] for name in PROFILES}
    whole = [b"".join(octets.values()), b"".join(b"# %s\n\n" % name.encode() + octets[name] for name in PROFILES),
             b"\n".join(octets[name].replace(b"\n", b"\r\n") for name in PROFILES) + b"the end",
             openssl("x509", "-in", paths["ta"] + ".pem", "-text") + b"".join(octets[name] for name in PROFILES[1:])]
    for number, text in enumerate(whole):
        path = write(folder, f"bundle{number}.pem", text)
        read = openssl("storeutl", "-certs", path)
        yield f"bundle {number} by openssl", read.count(b"-----BEGIN CERTIFICATE-----"), len(PROFILES)
        names = [f"{path} ({place + 1})" for place in range(len(PROFILES))]
        as_files = {json.dumps(paths[name] + ".pem"): json.dumps(as_file) for name, as_file in zip(PROFILES, names)}
        wanted = b"".join(texts[name].replace(own.encode(), as_file.encode(), 1)
                          for name, (own, as_file) in zip(PROFILES, as_files.items()))
        yield f"bundle {number} as JSON", ran(program, "--json", path), (0, wanted, b"")
        lines = "".join(f"{file}: {verdict(name + '.der')}\n" for file, name in zip(names, PROFILES))
        yield f"bundle {number}, checked", ran(program, "--check", path), (0, lines.encode(), b"")
        verdicts = ran(program, "--check", "--profile", "ca", path)[1].decode().splitlines()
        good = [any(said.startswith(f"{file}: OK") for said in verdicts) for file in names]
        yield f"bundle {number}, of one profile", good, [name == "ca" for name in PROFILES]
    path = write(folder, "bundle.pem", whole[0])
    status, output, faults = ran(program, "-", octets=whole[0])
    files = [value for label, value in lines_of(output) if label == "File"]
    yield "a bundle as input", (status, files, faults), (0, [f"- ({place + 1})" for place in range(len(PROFILES))], b"")
    first = dict(lines_of(output))
    fingerprint = said_of(paths[PROFILES[-1]] + ".der", "-fingerprint", "-sha256")
    yield "a bundle's fields", first["SHA-256 Fingerprint"], fingerprint
    seen = ran(program, "--check", path, paths["ta"] + ".der")
    lines = "".join(f"{path} ({place + 1}): {verdict(name + '.der')}\n" for place, name in enumerate(PROFILES))
    lines += f"{paths['ta']}.der: OK\n"
    yield "a bundle and a file", seen, (0, lines.encode(), b"")
    seen = ran(program, "--check", "--issuer", path, paths["ca"] + ".der")
    yield "a bundle as issuer", seen, (2, b"", f"rpkicert: {path}: {NO_PEM}\n".encode())
    good, none = octets["ta"], b"-----BEGIN CERTIFICATE-----\nBQA=\n-----END CERTIFICATE-----\n"
    cut = good[: good.index(b"-----END")]
    rows = [("two", good + good, ["OK", "OK"]), ("behind a text", b"two\n" + good + b"and\n" + good, ["OK", "OK"]),
            ("malformed first", good.replace(b"\nMII", b"\n*II", 1) + good, [NO_PEM, "OK"]),
            ("none in the middle", good + none + good, ["OK", "not a certificate: unexpected value", "OK"]),
            ("without an end", cut + good + cut, [NO_PEM, "OK", NO_PEM]),
            ("a key between", good + b"-----BEGIN X-----\nAA==\n-----END X-----\n" + good, ["OK", "OK"]),
            ("a first line in a line", good + b"x-----BEGIN CERTIFICATE-----", ["OK", NO_PEM])]
    for name, text, said in rows:
        path = write(folder, "bundle.pem", text)
        lines = "".join(f"{path} ({place + 1}): {what}\n" for place, what in enumerate(said))
        status = int(said != ["OK"] * len(said))
        yield f"bundle: {name}", ran(program, "--check", path), (status, lines.encode(), b"")
        status, output, faults = ran(program, path)
        wrong = "".join(f"rpkicert: {path} ({place + 1}): {what}\n" for place, what in enumerate(said) if what != "OK")
        yield f"bundle: {name}, shown", (output.count(b"File: "), faults), (said.count("OK"), wrong.encode())
    path = write(folder, "bundle.pem", octets["ta"] * (MOST // len(octets["ta"]) + 1))
    yield "a bundle that is too large", ran(program, "--check", path), (
        2, f"{path}: larger than {MOST} octets\n".encode(), b"")
    path = write(folder, "bundle.pem", octets["ta"] * 100)
    yield "a hundred", ran(program, "--check", path)[1].count(b": OK\n"), 100
    path = write(folder, "bundle.pem", b"0" + octets["ta"] * 2)
    yield "a bundle that begins as DER", ran(program, "--check", path)[1].count(b"\n"), 1


TABLES = [others, bundles]
