"""The forms of what is printed, names of locators, ends of payloads, numbers for monitoring, and other payloads."""
import base64
import datetime
import json
import os
import re
import shutil
import subprocess
import time

from alterations import other_octet, removed
from compared import compared
from counting import holds
from exceptions import slurm
from programs import octets_of
from repositories import AT, AUTHORITIES, ORIGINS, STALE_LIST, TITLES, below, edit, payloads, router_key, url_safe


def since(text):
    """The second of a moment of JSON."""
    return int(datetime.datetime.strptime(text, "%Y-%m-%dT%H:%M:%S%z").timestamp())


def listed_in(name, output, begun, counts):
    """An object of JSON without `metadata`, which says when it was made, by the clock, and how much is in it."""
    made = json.loads(output)
    said = made.pop("metadata")
    dates = [since(said.pop(it)) for it in ("generatedTime", "buildtime")]
    holds(f"when {name} was made", dates == [said.pop("generated")] * 2 and begun <= dates[0] <= time.time(), dates)
    holds(f"how much is in {name}", said == dict(zip(("vrps", "routerKeys", "aspas"), counts)), said)
    return made


def forms(program, maker):
    """The texts of the same payloads in other forms, of one locator and of two."""
    folder, lines = maker.repository(), [line.split(",") for line in payloads(below(0)[1:])]
    again = os.path.join(maker.room, "again.tal")
    shutil.copyfile(os.path.join(folder, "example.tal"), again)
    for words, names in ((), ["example"]), (("--tal", again), ["example", "again"]):
        csv = [TITLES, *(",".join([*line[:3], name]) for name in names for line in lines)]
        made = json.dumps({"roas": [{"asn": line[0], "prefix": line[1], "maxLength": int(line[2]), "ta": name}
                                    for name in names for line in lines], "routerKeys": [], "aspas": []})
        openbgpd = [f"    {line[1]} maxlen {line[2]} source-as {line[0][2:]} expires {FOREVER}" for line in lines]
        routes = [f"route {line[1]} max {line[2]} as {line[0][2:]};" for line in lines]
        tables = [["", "protocol static {", f"    roa{it} {{ table ROAS{it}; }};", *(routes if it == 4 else []), "}"]
                  for it in (4, 6)]
        wanted = {"csv": csv, "openbgpd": ["roa-set {", *openbgpd, "}"],
                  "openbgpd-origins": ["roa-set {", *openbgpd, "}"],
                  "bird": ["roa4 table ROAS4;", "roa6 table ROAS6;", *tables[0], *tables[1]]}
        for form, text in wanted.items():
            status, output, _ = program.run(folder, "--form", form, *words)
            holds(f"{form} of {len(names)}", status == 0 and output.split("\n") == [*text, ""], output[:300])
        begun, counts = int(time.time()), (len(names) * len(lines), 0, 0)
        status, output, _ = program.run(folder, "--form", "json", *words)
        seen = listed_in(f"json of {len(names)}", output, begun, counts)
        holds(f"json of {len(names)}", status == 0 and json.dumps(seen) == made, output[:300])
        status, output, _ = program.run(folder, "--form", "stayrtr", *words)
        seen = listed_in(f"stayrtr of {len(names)}", output, begun, counts)
        stay = {"roas": [{"asn": int(line[0][2:]), "prefix": line[1], "maxLength": int(line[2]), "expires": FOREVER,
                          "ta": name} for name in names for line in lines],
                "bgpsec_keys": [], "provider_authorizations": {"ipv4": [], "ipv6": []}}
        holds(f"stayrtr of {len(names)}", status == 0 and json.dumps(seen) == json.dumps(stay), output[:300])


def names(program, maker):
    """The name of a locator is a field of csv (RFC 4180), which is in quotation marks only where it has to be."""
    folder, lines = maker.repository(), [line.rsplit(",", 1)[0] for line in payloads(below(0)[1:])]
    for name, field in (("a b; c", "a b; c"), ("a, b", '"a, b"'), ('a "b" c', '"a ""b"" c"'), ('"', '""""'),
                        ("a\nb", '"a\nb"'), ("a\rb", '"a\rb"')):
        locator = os.path.join(maker.room, f"{name}.tal")
        shutil.copyfile(os.path.join(folder, "example.tal"), locator)
        run = [program.path, "--tal", locator, "--cache", folder, "--at", AT]
        for form, titles, end in ("csv", TITLES, ""), ("rpki-client", f"{TITLES},Expires", f",{FOREVER}"):
            seen = subprocess.run([*run, "--form", form], capture_output=True, check=False).stdout.decode()
            wanted = "\n".join([titles, *(f"{line},{field}{end}" for line in lines), ""])
            holds(f"{form} of the name {name!r}", seen == wanted, seen[:200])
            compared(program, f"{form} of the name {name!r}", folder, seen, [])


# The last second in which each is valid: that of 2036-01-01; and one in which a list ends before.
FOREVER, SOON = 2082758400, 1796083200


def timed(lines, end_of):
    """The lines of rpki-client's csv: those of csv, each with its end."""
    return [f"{TITLES},Expires", *(f"{line},{end_of(line)}" for line in lines), ""]


def ends(program, maker):
    """Until when payloads are valid: the first end of a certificate or a list on the path, never that of a manifest."""
    lines = payloads(below(0)[1:])
    for name, variant, soon in (
            ("no end before", {}, []),
            ("a list of one authority", {"LISTUNTIL": "261201000000Z", "LISTOF": "1"}, below(1)),
            ("a list of another", {"LISTUNTIL": "261201000000Z", "LISTOF": "4"}, below(4)),
            ("the list of the trust anchor", {"LISTUNTIL": "261201000000Z", "LISTOF": "0"}, below(0)),
            ("a manifest", {"MANIFESTUNTIL": "20261201000000Z"}, [])):
        first = payloads(it for it in soon if it)
        wanted = timed(lines, lambda line: SOON if line in first else FOREVER)
        status, output, _ = program.run(maker.repository(**variant), "--form", "rpki-client")
        holds(f"ends: {name}", status == 0 and output.split("\n") == wanted, output[:300])
    of_several(program, maker)


def of_several(program, maker):
    """Where several attestations say a payload, it ends with the last of them, whichever that is."""
    once = payloads(below(0)[1:], origins=1)
    for early in range(ORIGINS):
        variant = {"SAME": "1", "ROAOF": str(early), "ROAUNTIL": "261201000000Z"}
        status, output, _ = program.run(maker.repository(**variant), "--form", "rpki-client")
        is_last = (status, output.split("\n")) == (0, timed(once, lambda line: FOREVER))
        holds(f"ends: several, of which number {early} ends early", is_last, output[:300])
    variant = {"ROAOF": "1", "ROAUNTIL": "261201000000Z"}
    lines = payloads(below(0)[1:])
    wanted = timed(lines, lambda line: FOREVER if line in payloads(below(0)[1:], without=early_of(1)) else SOON)
    status, output, _ = program.run(maker.repository(**variant), "--form", "rpki-client")
    holds("ends: the certificate of one of each authority's", (status, output.split("\n")) == (0, wanted), output[:300])


def early_of(number):
    """The route origins of this number, one of each authority."""
    return [(it, number) for it in below(0)[1:]]


def twice(program, maker):
    """Of two locators each payload is there twice; what local exceptions add has no end."""
    folder, lines = maker.repository(), payloads(below(0)[1:])
    again, added = os.path.join(maker.room, "again.tal"), os.path.join(maker.room, "added.json")
    shutil.copyfile(os.path.join(folder, "example.tal"), again)
    exceptions_of = slurm([{"asn": 64512 + 16}], assertions=[{"asn": 64496, "prefix": "192.0.2.0/24"}])
    edit(added, json.dumps(exceptions_of).encode())
    both = lines + [line.replace("example", "again") for line in lines]
    status, output, _ = program.run(folder, "--form", "rpki-client", "--tal", again)
    holds("ends of two locators", status == 0 and output.split("\n") == timed(both, lambda line: FOREVER), output[:300])
    left = [line for line in lines if not line.startswith("AS64528,")] + ["AS64496,192.0.2.0/24,24,added"]
    status, output, _ = program.run(folder, "--form", "rpki-client", "--exceptions", added)
    wanted = timed(left, lambda line: 253402300799 if "added" in line else FOREVER)
    holds("ends with exceptions", status == 0 and output.split("\n") == wanted, output[-300:])


REASONS = ("missing", "digest", "malformed", "stale", "expired", "revoked", "invalid")


def families(name, anchor, counts, rejected, end=FOREVER):
    """The metrics of one locator: its trust anchor, payloads by kind, points and objects that are rejected, each for
    the same reason, and the first end, where there are route origins."""
    kinds = zip(("origin", "provider", "router_key"), counts)
    parts, why = zip(("point", "object"), rejected), (*rejected, "")[2]
    return "\n".join([
        "# TYPE rpkivalid_trust_anchor gauge",
        "# HELP rpkivalid_trust_anchor Whether the locator has a trust anchor.",
        f'rpkivalid_trust_anchor{{ta="{name}"}} {anchor}',
        "# TYPE rpkivalid_payloads gauge", "# HELP rpkivalid_payloads How many payloads are written.",
        *(f'rpkivalid_payloads{{ta="{name}",type="{kind}"}} {count}' for kind, count in kinds),
        "# TYPE rpkivalid_rejected gauge",
        "# HELP rpkivalid_rejected How many points and objects are rejected.",
        *(f'rpkivalid_rejected{{ta="{name}",type="{part}"}} {count}' for part, count in parts),
        "# TYPE rpkivalid_rejected_reasons gauge",
        "# HELP rpkivalid_rejected_reasons How many points and objects are rejected, by reason.",
        *(f'rpkivalid_rejected_reasons{{ta="{name}",reason="{reason}"}} {sum(rejected[:2]) if reason == why else 0}'
          for reason in REASONS),
        "# TYPE rpkivalid_first_end_seconds gauge", "# UNIT rpkivalid_first_end_seconds seconds",
        "# HELP rpkivalid_first_end_seconds When the first route origin ends, since 1970.",
        *([f'rpkivalid_first_end_seconds{{ta="{name}"}} {end}'] if counts[0] else []), ""])


def of_the_run(name, seen, begun):
    """The metrics without those of the run: the version, when the list was made, by the clock, and how long it took."""
    families_of, told, rest = seen.partition("# TYPE rpkivalid info\n")
    run = re.fullmatch(
        r'# HELP rpkivalid The program\.\nrpkivalid_info\{version="([0-9.]+)"\} 1\n'
        r"# TYPE rpkivalid_made_seconds gauge\n# UNIT rpkivalid_made_seconds seconds\n"
        r"# HELP rpkivalid_made_seconds When the list was made, since 1970\.\nrpkivalid_made_seconds (\d+)\n"
        r"# TYPE rpkivalid_duration_seconds gauge\n# UNIT rpkivalid_duration_seconds seconds\n"
        r"# HELP rpkivalid_duration_seconds How long the run took\.\nrpkivalid_duration_seconds (\d+)\n# EOF\n", rest)
    now = int(time.time())
    is_run = bool(run) and begun <= int(run[2]) <= now and int(run[3]) <= now - begun + 1
    holds(f"metrics of the run: {name}", told and is_run, rest)
    return families_of, run[1] if run else None


# A program for the interpreter that has Prometheus's own parser of OpenMetrics: the samples of a file, as JSON.
PARSER = """import json, sys
from prometheus_client.openmetrics.parser import text_string_to_metric_families
with open(sys.argv[1]) as file:
    families = list(text_string_to_metric_families(file.read()))
json.dump([[it.name, sorted(it.labels.items()), it.value] for family in families for it in family.samples], sys.stdout)
"""


def samples_of(file):
    """What Prometheus's parser reads, or what is wrong."""
    ended = subprocess.run(["/usr/bin/python3", "-c", PARSER, file], capture_output=True, check=False)
    return json.loads(ended.stdout) if ended.returncode == 0 else ended.stderr.decode()[-300:]


def wanted_samples(file):
    """The samples of a file, by its lines: names without a quotation mark or a comma."""
    found = []
    for name, labels, value in re.findall(r"^(\w+)(?:\{(.*)\})? (\d+)$", octets_of(file).decode(), re.MULTILINE):
        pairs = [list(pair) for pair in re.findall(r'(\w+)="([^"]*)"', labels)]
        found.append([name, sorted(pairs), int(value)])
    return found


def lone(program, maker, file):
    """Of two locators one has no trust anchor: its metrics say so. Where none has one, nothing is written."""
    folder, other = maker.repository(), os.path.join(maker.room, "other.tal")
    lines = octets_of(os.path.join(folder, "example.tal")).decode().split("\n")
    edit(other, "\n".join([lines[0].replace("ca0.cer", "none.cer"), *lines[1:]]).encode())
    ended, output, _ = program.run(folder, "--metrics", file, "--tal", other)
    anchors = [it for it in octets_of(file).decode().split("\n") if it.startswith("rpkivalid_trust_anchor{")]
    wanted = [f'rpkivalid_trust_anchor{{ta="{name}"}} {bit}' for name, bit in (("example", 1), ("other", 0))]
    holds("metrics: one of two trust anchors", ended == 1 and anchors == wanted and TITLES in output, (ended, anchors))
    edit(file, b"before")
    ended, output, faults = program.run(maker.changed(removed(0, "ca0.cer")), "--metrics", file)
    said = faults.split("\n")[-2:]
    holds("metrics: no trust anchor", (ended, output, octets_of(file), said) == (
        2, "", b"before", ["rpkivalid: no locator has a trust anchor: nothing is written", ""]), (ended, said))
    holds("which has none is told", faults.startswith("rpkivalid: example: no trust anchor: "), faults)
    os.remove(file)


def metrics(program, maker):
    """What is counted: payloads, and what a change lets be rejected."""
    file, odd = os.path.join(maker.room, "metrics"), 'a "name" \\'
    origins = AUTHORITIES * ORIGINS
    for name, change, variant, status, wanted in (
            ("nothing is changed", None, {}, 0, (1, (origins, 0, 0), (0, 0))),
            ("providers and routers", None, {"ASPA": "1", "ROUTER": "1"}, 0,
             (1, (origins, 2 * AUTHORITIES, AUTHORITIES), (0, 0))),
            ("a route origin is missing", removed(AUTHORITIES, "r0.roa"), {}, 0,
             (1, (origins - ORIGINS, 0, 0), (1, 0, "missing"))),
            ("another octet", other_octet(AUTHORITIES, "r1.roa"), {}, 0,
             (1, (origins - ORIGINS, 0, 0), (1, 0, "digest"))),
            ("a stale list", None, STALE_LIST, 0, (1, (0, 0, 0), (1, 0, "stale"))),
            ("a manifest of tomorrow", None, {"MANIFESTFROM": "20261201000000Z"}, 0,
             (1, (0, 0, 0), (1, 0, "stale"))),
            ("malformed objects", None, {"BADROA": "1"}, 0, (1, (origins, 0, 0), (0, AUTHORITIES, "malformed"))),
            ("an early end", None, {"LISTUNTIL": "261201000000Z", "LISTOF": "4"}, 0,
             (1, (origins, 0, 0), (0, 0), SOON))):
        folder = maker.changed(change, **variant)
        begun = int(time.time())
        ended, output, _ = program.run(folder, "--metrics", file)
        seen, version = of_the_run(name, octets_of(file).decode(), begun)
        said = subprocess.run([program.path, "--version"], capture_output=True, check=True).stdout.decode()
        holds(f"metrics: the version: {name}", said == f"rpkivalid {version}\n", (said, version))
        holds(f"metrics: {name}", ended == status and seen == families("example", *wanted), (ended, seen))
        parsed = samples_of(file)
        holds(f"metrics for Prometheus: {name}", parsed == wanted_samples(file), parsed)
        holds(f"payloads beside metrics: {name}", len(output.split("\n")) == wanted[1][0] + 2, output[:99])
    folder = maker.changed(None)
    locator = os.path.join(folder, f"{odd}.tal")
    shutil.move(os.path.join(folder, "example.tal"), locator)
    words = [program.path, "--tal", locator, "--cache", folder, "--at", AT, "--metrics", file]
    subprocess.run(words, stdout=subprocess.DEVNULL, stderr=subprocess.DEVNULL, check=True)
    wanted = families('a \\"name\\" \\\\', 1, (origins, 0, 0), (0, 0))
    holds("metrics: a name that is escaped", octets_of(file).decode().startswith(wanted), octets_of(file)[:300])
    told = {dict(labels).get("ta", odd) for _, labels, _ in samples_of(file)}
    holds("metrics for Prometheus: a name that is escaped", told == {odd}, told)
    os.remove(file)
    lone(program, maker, file)
    ended, output, faults = program.run(maker.repository(), "--metrics", os.path.join(maker.room, "none", "it"))
    holds("metrics: no such folder", ended == 2 and not output and "cannot be written" in faults, (ended, faults))
    ended, output, _ = program.run(maker.repository(), "--metrics", file, "--form", "none")
    left = [it for it in (file, file + ".new") if os.path.exists(it)]
    holds("metrics: a wrong usage", ended == 2 and not left, (ended, left))


def others(program, maker):
    """Providers and keys of routers: those of each authority, each once."""
    folder, all_of = maker.repository(ASPA="1", ROUTER="1"), below(0)[1:]
    info, identifier = router_key(folder)
    again = os.path.join(maker.room, "again.tal")
    shutil.copyfile(os.path.join(folder, "example.tal"), again)
    aspas = [{"customer": f"AS{it}", "providers": ["AS64496", "AS64500"]} for it in all_of]
    for words, names in ((), ["example"]), (("--tal", again), ["example", "again"]):
        keys = [{"asn": f"AS{it}", "SKI": identifier.hex().upper(), "routerPublicKey": url_safe(info), "ta": name}
                for name in names for it in all_of]
        status, output, _ = program.run(folder, "--form", "json", *words)
        counts = (len(names) * AUTHORITIES * ORIGINS, len(names) * AUTHORITIES, AUTHORITIES)
        made = listed_in(f"others of {len(names)}", output, 0, counts)
        holds(f"router keys of {len(names)}", status == 0 and made["routerKeys"] == keys, made["routerKeys"][:2])
        holds(f"customers of {len(names)}", made["aspas"] == aspas, made["aspas"][:2])
        status, output, _ = program.run(folder, "--form", "stayrtr", *words)
        made = json.loads(output)
        keys = [{"asn": it, "ski": identifier.hex().upper(), "pubkey": base64.b64encode(info).decode(), "ta": name}
                for name in names for it in all_of]
        holds(f"StayRTR's keys of {len(names)}", status == 0 and made["bgpsec_keys"] == keys, made["bgpsec_keys"][:2])
        vaps = [{"customer_asid": it, "providers": [64496, 64500]} for it in all_of]
        seen = made["provider_authorizations"]
        holds(f"StayRTR's customers of {len(names)}", seen == {"ipv4": vaps, "ipv6": vaps}, seen)
        _, output, _ = program.run(folder, "--form", "openbgpd-origins", *words)
        holds(f"no customers of {len(names)}", output.startswith("roa-set {") and output.count("{") == 1)
        status, output, _ = program.run(folder, "--form", "openbgpd", *words)
        wanted = ["aspa-set {", *(f"    customer-as {it} provider-as {{ 64496, 64500 }}" for it in all_of), "}", ""]
        holds(f"openbgpd's customers of {len(names)}", status == 0 and output.split("\n")[-len(wanted):] == wanted)
        holds(f"one set of {len(names)}", output.startswith("roa-set {") and output.count("aspa-set") == 1)
