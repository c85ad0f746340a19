"""Objects that are checked against an issuer and a moment: those of authority.py and of a repository
that openssl makes, beside what openssl says of names, key identifiers and periods; certificates that break one rule
each (RFC 6487 7.2, RFC 5280 6.3.3); manifests within and without their updates (RFC 9286 6.3); and issuers and moments
that are none."""
import json
import os
import subprocess
from datetime import datetime, timedelta, timezone

import repository
from arguments import USAGE
from fields import OK, UNASKED, UNREVOKED
from files import FOLDER
from makers import authority, objects, payloads, signing
from openssl import certify, openssl, said_of, text_of
from programs import ran

NAMED = repository.NAMED
BAD, NAME, KEY = "bad signature", "issuer name mismatch", "authority key identifier mismatch"
OF_CERTIFICATE, OF_LIST, OF_MANIFEST = "RFC 6487 7.2: ", "RFC 5280 6.3.3: ", "RFC 9286 6.3: "


def extension(path, name, kind="x509"):
    """The hexadecimal digits that openssl prints of an extension; nothing where it isn't there."""
    lines = text_of(path, kind).splitlines()
    places = [at for at, line in enumerate(lines) if name in line]
    return lines[places[0] + 1].strip().replace("keyid:", "") if places else ""


def fault(path, issuer, kind="x509", clause=OF_CERTIFICATE):
    """What is said of a certificate or a list and its issuer, by the key identifiers and names that openssl prints:
    another key has signed it, or the same one under another name."""
    if extension(path, "Authority Key Identifier", kind) != extension(issuer, "Subject Key Identifier"):
        return clause + BAD
    if said_of(path, "-issuer", kind=kind) != said_of(issuer, "-subject"):
        return valued(clause + NAME, said_of(path, "-issuer", *NAMED, kind=kind), said_of(issuer, "-subject", *NAMED))
    return OK if kind == "crl" else UNREVOKED


def valued(said, found, expected):
    """What is said of two values that disagree."""
    return f"{said}; found {found}; expected {expected}"


def line(path, said):
    return f"{path}: {said}\n".encode()


def twin(folder):
    """An authority of the key of `ca`, under another name, with characters that are escaped (RFC 4514 2.4)."""
    path = os.path.join(folder, "renamed.der")
    openssl("req", "-x509", "-new", "-config", os.path.join(folder, "ca.cnf"), "-extensions", "extensions", "-outform",
            "DER", "-key", os.path.join(folder, "ca.key"), "-subj", "/CN=a,b\\+c/serialNumber=01", "-out", path)
    return path


def issued(program, folder):
    """Each certificate beside each as its issuer, as DER and as PEM."""
    paths = authority.paths(folder)
    for issuer, of_issuer in paths.items():
        for name, path in paths.items():
            said = fault(path + ".der", of_issuer + ".der")
            if name == issuer == "ta":
                said = OF_CERTIFICATE + KEY  # RFC 6487 4.8.3: an anchor may leave it out, what is issued may not
            elif issuer == "router":
                said = OF_CERTIFICATE + BAD  # RFC 7935 3: issuers have keys of RSA
            for ending in (".der", ".pem"):
                seen = ran(program, "--check", "--issuer", of_issuer + ending, path + ".der")
                status = 0 if said == UNREVOKED else 1
                yield f"{name} by {issuer}{ending}", seen, (status, line(path + ".der", said), b"")
    with open(paths["ta"] + ".pem", "rb") as file:
        octets = file.read()
    seen = ran(program, "--check", "--issuer", "-", paths["ca"] + ".der", octets=octets)
    yield "an issuer as input", seen, (0, line(paths["ca"] + ".der", UNREVOKED), b"")
    path = paths["ca"] + ".der"
    plain, marked = ran(program, path)[1].splitlines(), ran(program, "--issuer", paths["ta"] + ".der", path)
    yield "a field", (marked[0], marked[1].splitlines(), marked[2]), (
        0, plain[:2] + [b"Signature: good"] + plain[3:], b"")
    yield "without an issuer", plain[2], b"Signature: not checked"
    status, output, faults = ran(program, "--json", "--issuer", paths["ta"] + ".der", path)
    yield "a member", (status, json.loads(output)["signature"], faults), (0, "good", b"")
    verdicts = {"ta": {"signature": "good", "verdict": UNREVOKED},
                "ca": {"signature": BAD, "verdict": OF_CERTIFICATE + BAD}}
    for issuer, told in verdicts.items():
        status, output, faults = ran(program, "--json", "--check", "--issuer", paths[issuer] + ".der", path)
        yield f"a verdict as JSON, {issuer}", (status, json.loads(output), faults), (
            0 if issuer == "ta" else 1, {"file": path, **told}, b"")
    ee, renamed = paths["ee"] + ".der", twin(folder)
    escaped = ["-nameopt", "esc_2253,sep_comma_plus_space,sname"]
    names = [said_of(one, "-subject", *escaped) for one in (paths["ca"] + ".der", renamed)]
    status, output, faults = ran(program, "--json", "--check", "--issuer", renamed, ee)
    yield "names as JSON", (status, json.loads(output, object_pairs_hook=list), faults), (1, [
        ("file", ee), ("signature", "good"), ("verdict", OF_CERTIFICATE + NAME), ("found", names[0]),
        ("expected", names[1])], b"")
    status, output, faults = ran(program, "--json", "--at", at(period(path)[0]), path)
    yield "a member without an issuer", (status, json.loads(output)["signature"], faults), (0, "not checked", b"")
    seen = ran(program, "--issuer", paths["ca"] + ".der", path)
    wrong = b"\n".join(plain[:2] + [b"Signature: bad signature"] + plain[3:]) + b"\n"
    yield "a fault", seen, (1, wrong, b"rpkicert: " + line(path, OF_CERTIFICATE + BAD))
    seen = ran(program, "--check", "--profile", "ee", "--issuer", paths["ca"] + ".der", path)
    yield "the profile is first", (seen[0], seen[1].startswith(f"{path}: violates".encode())), (1, True)
    seen = ran(program, "--check", "--issuer", paths["ca"] + ".der", "--at", "1999-12-31T00:00:00Z", path)
    early = valued(EARLY, "1999-12-31 00:00:00Z", iso(period(path)[0]))
    yield "the moment is before the issuer", seen, (1, line(path, early), b"")
    seen = ran(program, "--at", "1999-12-31T00:00:00Z", path)
    yield "a moment, shown", seen, (1, ran(program, path).output, b"rpkicert: " + line(path, early))
    status, output, faults = ran(program, "--json", "--check", "--at", "1999-12-31T00:00:00Z", path)
    yield "a moment as JSON", (status, json.loads(output, object_pairs_hook=list), faults), (1, [
        ("file", path), ("signature", "not checked"), ("verdict", EARLY), ("found", "1999-12-31 00:00:00Z"),
        ("expected", iso(period(path)[0]))], b"")
    many = [paths[name] + ".der" for name in ("ee", "ca", "router")]
    wanted = line(many[0], UNREVOKED) + line(many[1], OF_CERTIFICATE + BAD) + line(many[2], UNREVOKED)
    yield "several", ran(program, "--check", "--issuer", paths["ca"] + ".der", *many), (1, wanted, b"")


def made(folder, name, lines, issuer="ta", subject="ca"):
    """A certificate of the request of [subject], by [issuer], with these lines for extensions."""
    config, path = os.path.join(folder, name + ".cnf"), os.path.join(folder, name + ".der")
    with open(config, "w", encoding="ascii") as file:
        file.write("[extensions]\n" + "\n".join(lines) + "\n")
    signer = os.path.join(folder, issuer)
    openssl("x509", "-req", "-in", os.path.join(folder, subject + ".csr"), "-CA", signer + ".pem", "-CAkey",
            signer + ".key", "-set_serial", "7", "-days", "365", "-sha256", "-extfile", config, "-extensions",
            "extensions", "-outform", "DER", "-out", path)
    return path


def broken(program, folder):
    """Certificates that break one rule each, and issuers of the same name or of the same key."""
    whole = [line for line in (authority.COMMON + authority.AUTHORITY + authority.ISSUED)
             .format(name="ca", issuer="ta").splitlines()]
    rest = [line for line in whole if not line.startswith(("subjectKeyIdentifier", "authorityKeyIdentifier"))]
    subject, key = "subjectKeyIdentifier = hash", "authorityKeyIdentifier = keyid"
    other = ":".join(["AB"] * 20)
    rows = [
        ("whole", [*rest, subject, key], OK),
        ("an unknown extension", [*rest, subject, key, "1.2.3.4 = DER:0500"], OK),
        ("an unknown extension that is critical", [*rest, subject, key, "1.2.3.4 = critical, DER:0500"],
         OF_CERTIFICATE + "unknown critical extension"),
        ("another subject key identifier", [*rest, "subjectKeyIdentifier = " + other, key],
         OF_CERTIFICATE + "subject key identifier mismatch"),
        ("no authority key identifier", [*rest, subject, "authorityKeyIdentifier = none"], OF_CERTIFICATE + KEY),
        ("no subject key identifier", [*rest, "subjectKeyIdentifier = none", key],
         OF_CERTIFICATE + "subject key identifier mismatch"),
    ]
    issuer = os.path.join(folder, "ta.der")
    for number, (name, lines, said) in enumerate(rows):
        # Without --check, which would hold it to its profile first.
        path = made(folder, f"broken{number}", lines)
        status, _, faults = ran(program, "--issuer", issuer, path)
        yield f"broken: {name}", (status, faults), (0, b"") if said == OK else (1, b"rpkicert: " + line(path, said))
    # an anchor of the same name and another key, and one of the same key and another name
    new_key = ["-newkey", "rsa:2048", "-nodes", "-keyout", os.path.join(folder, "new.key"), "-subj", "/CN=anchor"]
    new_name = ["-key", os.path.join(folder, "ta.key"), "-subj", "/CN=Anchor"]
    for name, words, said in ("another key", new_key, BAD), ("another name", new_name, NAME):
        path, config = os.path.join(folder, "twin.der"), os.path.join(folder, "ta.cnf")
        openssl("req", "-x509", "-new", "-config", config, "-extensions", "extensions", "-outform", "DER", *words,
                "-out", path)
        certificate = os.path.join(folder, "ca.der")
        told = OF_CERTIFICATE + said if said == BAD else valued(OF_CERTIFICATE + said, "CN=anchor", "CN=Anchor")
        yield f"an issuer of {name}", ran(program, "--check", "--issuer", path, certificate), (
            1, line(certificate, told), b"")


def published(program, folder):
    """Lists and signed objects of a repository, beside both of its authorities."""
    place = repository.made(os.path.join(folder, "issuers"))
    issuers = {name: os.path.join(place, "rpki.example/repo/ta", name + ".cer") for name in ("ta", "ca")}
    rows = [(os.path.join(place, "rpki.example/repo", name, name + ".crl"), None) for name in ("ta", "ca")]
    rows += [(os.path.join(place, where, name), os.path.join(place, "work", entity + ".cer"))
             for name, (where, _, entity, _) in repository.SIGNED.items()]
    for path, cert in rows:
        for issuer, certificate in issuers.items():
            said = fault(cert, certificate) if cert else fault(path, certificate, "crl", OF_LIST)
            seen = ran(program, "--check", "--issuer", certificate, path)
            yield f"{os.path.basename(path)} by {issuer}", seen, (int(not said.startswith(OK)), line(path, said), b"")
    first, last = "2026-01-01T00:00:00Z", "2036-01-01T00:00:00Z"
    before, after = "2025-12-31T23:59:59Z", "2036-01-01T00:00:01Z"
    for path, cert in rows:
        early = valued(EARLY if cert else OF_LIST + "issued later", "2025-12-31 23:59:59Z", repository.PERIOD[0])
        late = valued(LATE if cert else OF_LIST + "stale", "2036-01-01 00:00:01Z", repository.PERIOD[1])
        for moment, said in [(before, early), (first, UNASKED), (last, UNASKED), (after, late)]:
            seen = ran(program, "--check", "--at", moment, path)
            yield f"{os.path.basename(path)} at {moment}", seen, (0 if said == UNASKED else 1, line(path, said), b"")
    # an authority of the same name and of another key
    other = os.path.join(folder, "other.cer")
    config = os.path.join(folder, "other.cnf")
    with open(config, "w", encoding="ascii") as file:
        file.write("[req]\ndistinguished_name = name\nstring_mask = nombstr\n[name]\n[extensions]\n")
        file.write((authority.COMMON + authority.AUTHORITY).format(name="ca"))
    openssl("req", "-x509", "-new", "-newkey", "rsa:2048", "-nodes", "-keyout", os.path.join(folder, "other.key"),
            "-config", config, "-extensions", "extensions", "-subj", "/CN=ca", "-outform", "DER", "-out", other)
    renamed = os.path.join(folder, "renamed.cer")
    openssl("req", "-x509", "-new", "-key", os.path.join(place, "work/ca.key"), "-config", config, "-extensions",
            "extensions", "-subj", "/CN=Ca", "-outform", "DER", "-out", renamed)
    path = rows[1][0]
    yield "a list of another name", ran(program, "--check", "--issuer", renamed, path), (
        1, line(path, valued(OF_LIST + NAME, said_of(path, "-issuer", *NAMED, kind="crl"), "CN=Ca")), b"")
    yield "a list of another key", ran(program, "--check", "--issuer", other, path), (
        1, line(path, fault(path, other, "crl", OF_LIST)), b"")
    yield "the key is another", fault(path, other, "crl", OF_LIST), OF_LIST + BAD


def period(path):
    """The period of a certificate, by openssl."""
    texts = [said_of(path, word, "-dateopt", "iso_8601") for word in ("-startdate", "-enddate")]
    return [datetime.strptime(text, "%Y-%m-%d %H:%M:%SZ").replace(tzinfo=timezone.utc) for text in texts]


def iso(moment):
    """A moment as fields have it."""
    return moment.strftime("%Y-%m-%d %H:%M:%SZ")


def at(moment, zone="Z"):
    """A moment in RFC 3339."""
    return moment.strftime("%Y-%m-%dT%H:%M:%S") + zone


SECOND = timedelta(seconds=1)
EARLY, LATE = OF_CERTIFICATE + "certificate is not yet valid", OF_CERTIFICATE + "certificate has expired"


def moments(program, folder):
    """Both ends of the period of a certificate, a second before and after, and other spellings of a moment."""
    path = os.path.join(folder, "ca.der")
    first, last = period(path)
    hours = timedelta(hours=1)
    rows = [(at(first - SECOND), EARLY, iso(first - SECOND)), (at(first), "OK"), (at(last), "OK"),
            (at(last + SECOND), LATE, iso(last + SECOND)), (at(first + 2 * hours, "+02:00"), "OK"),
            (at(first + 2 * hours - SECOND, "+02:00"), EARLY, iso(first - SECOND)),
            (at(last - 5 * hours, "-05:00"), "OK"),
            (at(last - 5 * hours + SECOND, "-05:00"), LATE, iso(last + SECOND)),
            (at(first - SECOND, ".999999999Z"), EARLY, iso(first - SECOND)),
            (at(last, ".000000001Z"), LATE, iso(last)), (at(last, ".0Z"), "OK"),
            ("0000-01-01T00:00:00Z", EARLY, "0000-01-01 00:00:00Z"),
            ("0000-01-01T00:00:00.000000001Z", EARLY, "0000-01-01 00:00:00Z"),
            ("-000001-12-31T23:59:59-00:01", EARLY, "0000-01-01 00:00:59Z"),
            ("9999-12-30T21:59:59Z", LATE, "9999-12-30 21:59:59Z"),
            ("9999-12-30T22:00:00Z", LATE, "9999-12-30 22:00:00Z"),
            ("9999-12-30T22:00:00.999999999Z", LATE, "9999-12-30 22:00:00Z"),
            ("9999-12-30T23:00:00+01:00", LATE, "9999-12-30 22:00:00Z"),
            ("9999-12-31T23:59:59Z", LATE, "9999-12-31 23:59:59Z")]
    for moment, said, *found in rows:
        if found:
            said = valued(said, found[0], iso(first if said == EARLY else last))
        # A word that begins with a hyphen is no value of its own.
        apart = [] if moment[0] == "-" else [("--at", moment)]
        for words in *apart, (f"--at={moment}",):
            seen = ran(program, "--check", *words, path)
            yield f"{words}", seen, (0 if said == "OK" else 1, line(path, UNASKED if said == "OK" else said), b"")
        issuer = os.path.join(folder, "ta.der")
        seen = ran(program, "--check", f"--at={moment}", "--issuer", issuer, path)
        yield f"{moment} and an issuer", seen, (
            0 if said == "OK" else 1, line(path, UNREVOKED if said == "OK" else said), b"")
    seconds = str(int(first.timestamp()))
    checked = openssl("verify", "-attime", seconds, "-partial_chain", "-ignore_critical", "-trusted",
                      os.path.join(folder, "ta.pem"), os.path.join(folder, "ca.pem"))
    yield "openssl at the first second", checked.decode().strip().endswith(": OK"), True
    for word in ["", "x", "2026-01-01", "2026-01-01T00:00:00", "2026-13-01T00:00:00Z", "2026-02-29T00:00:00Z",
                 "10000-01-01T00:00:00Z", "2026-01-01T25:00:00Z", "0000-01-01T00:00:00+01:00",
                 "-000001-12-31T23:59:59Z", "9999-12-30T22:00:01Z", "9999-12-30T21:00:01-01:00",
                 "9999-12-31T23:59:58Z", "9999-12-31T23:59:59.0Z", "9999-12-31T23:59:59z",
                 "9999-12-31T23:59:59+00:00", "+009999-12-31T23:59:59Z", "9999-12-31T23:59:60Z",
                 "9999-12-31T23:59:59-01:00", "1767225600", "20260101000000Z", "tomorrow", "NOW", "now ", " now",
                 "nowadays", "no", "now\n"]:
        joined = [[path, f"--at={word}"]] if word else []
        apart = [] if word[:1] == "-" else [["--at", word, path], ["--check", "--at", word, "--issuer", "lost", path]]
        for order in joined + apart:
            yield f"no moment {order}", ran(program, *order), (2, b"", no_moment(word))


def no_moment(word):
    """What is said of a word that is no moment."""
    word = word.replace("\n", "\\0A")
    return f"rpkicert: --at {word}: not a moment such as 2026-11-28T12:00:00Z, nor now\n".encode() + USAGE


def now(program, folder):
    """The moment of the clock: certificates that openssl says have expired or not, and manifests of which this clock
    says whether they are of an hour before, of now or of an hour later."""
    anchor, path, old = (os.path.join(folder, name) for name in ("ta.der", "ca.der", "old.der"))
    certify(os.path.join(folder, "ca"), os.path.join(folder, "ta"), "3", "-outform", "DER", "-out", old, days="-1")
    for name, text in (path, "will not expire"), (old, "will expire"):
        with open(name, "rb") as file:
            said = subprocess.run(["openssl", "x509", "-inform", "DER", "-noout", "-checkend", "0"], stdin=file,
                                  capture_output=True, check=False).stdout.decode()
        holds = "not" in text
        yield f"openssl says that it {text}", text in said.lower(), True
        # The one that has expired begins after its end, which is a day before: it violates its profile, to which it is
        # held with --check.
        late = b"" if holds else b"rpkicert: " + line(name, valued(LATE, "now", iso(period(name)[1])))
        for words in ["--at", "now"], ["--at=now"], ["--issuer", anchor, "--at", "now"]:
            status, _, faults = of_now(program, *words, name)
            yield f"{name} {words}", (status, faults), (0 if holds else 1, late)
            good = line(name, UNREVOKED if "--issuer" in words else UNASKED)
            violated = line(name, "violates the profile: RFC 5280 4.1.2.5: period ends before it begins")
            yield f"{name} {words}, checked", ran(program, "--check", *words, name), (
                0 if holds else 1, good if holds else violated, b"")
        early = b"" if holds else b"rpkicert: " + line(name, valued(EARLY, iso(period(name)[1]), iso(period(name)[0])))
        status, _, faults = ran(program, "--at", at(period(name)[1]), name)
        yield f"{name} at a written moment", (status, faults), (0 if holds else 1, early)
    moment = datetime.now(timezone.utc).replace(microsecond=0)
    for hours, said, end in [((-1, 1), UNASKED, None), ((1, 2), OF_MANIFEST + "issued later", 0),
                             ((-2, -1), OF_MANIFEST + "stale", 1)]:
        ends = [moment + timedelta(hours=number) for number in hours]
        first, last = (each.strftime("%Y%m%d%H%M%SZ") for each in ends)
        octets = signing.object_of(folder, objects.MANIFEST, payloads.manifest([], this=first, until=last))
        seen = of_now(program, "--check", "--at", "now", "-", octets=octets)
        told = said if end is None else valued(said, "now", iso(ends[end]))
        yield f"a manifest of {hours} hours", seen, (0 if said == UNASKED else 1, line("-", told), b"")


def of_now(program, *words, octets=b""):
    """What is seen of a run, with the word `now` in place of the moment that was found, if that is one during the run
    by this clock."""
    before = datetime.now(timezone.utc).replace(microsecond=0)
    seen = ran(program, *words, octets=octets)
    after = datetime.now(timezone.utc)
    for number in range(int((after - before).total_seconds()) + 1):
        found = f"; found {iso(before + timedelta(seconds=number))};".encode()
        seen = seen._replace(**{stream: getattr(seen, stream).replace(found, b"; found now;")
                                for stream in ("output", "faults")})
    return seen


def updates(program, folder):
    """A manifest within and without its updates, in the period of its signer's certificate."""
    first, last = period(signing.signer_of(folder, objects.MANIFEST).path)
    middle = first + (last - first) / 2
    middle = middle.replace(microsecond=0)
    until = middle + timedelta(days=1)
    spelled = [moment.strftime("%Y%m%d%H%M%SZ") for moment in (middle, until)]
    content = payloads.manifest([], this=spelled[0], until=spelled[1])
    octets = signing.object_of(folder, objects.MANIFEST, content)
    for moment, said, *end in [(first - SECOND, EARLY, first), (first, OF_MANIFEST + "issued later", middle),
                               (middle - SECOND, OF_MANIFEST + "issued later", middle), (middle, UNASKED),
                               (until, UNASKED), (until + SECOND, OF_MANIFEST + "stale", until),
                               (last + SECOND, LATE, last)]:
        seen = ran(program, "--check", "--at", at(moment), "-", octets=octets)
        said = valued(said, iso(moment), iso(*end)) if end else said
        yield f"a manifest at {moment}", seen, (0 if said == UNASKED else 1, line("-", said), b"")


def none(program, folder):
    """Issuers that are none: nothing is shown."""
    path = os.path.join(folder, "ca.der")
    crl = os.path.join(folder, "issuers", "repository", "rpki.example/repo/ta/ta.crl")
    text = os.path.join(folder, "text")
    with open(text, "wb") as file:
        file.write(b"-----BEGIN CERTIFICATE-----\n")
    lost = os.path.join(folder, "lost")
    rows = [(lost, "cannot be read: No such file or directory"), (folder, "cannot be read: " + FOLDER),
            (crl, "not a certificate"), (text, "not one certificate or list in PEM")]
    for issuer, said in rows:
        for words in ["--issuer", issuer, path], ["--check", path, f"--issuer={issuer}"], \
                ["--json", "--at", "2026-01-01T00:00:00Z", "--issuer", issuer, path, path]:
            yield f"no issuer {issuer} {words[0]}", ran(program, *words), (2, b"", b"rpkicert: " + line(issuer, said))
    for words in (["--issuer"], ["--issuer", path], ["--at"], ["--at", "2026-01-01T00:00:00Z"],
                  ["--issuer", path, "--issuer", path, path], [path, "--at"]):
        yield f"usage {words}", (ran(program, *words)[0], ran(program, *words)[1]), (2, b"")


TABLES = [issued, broken, published, moments, now, updates, none]
