"""Local exceptions (RFC 8416)."""
import base64
import ipaddress
import json
import os
import re
import shutil
import subprocess

from counting import holds
from repositories import below, edit, payloads, router_key, url_safe


def slurm(filters=(), key_filters=(), assertions=(), key_assertions=()):
    return {"slurmVersion": 1,
            "validationOutputFilters": {"prefixFilters": list(filters), "bgpsecFilters": list(key_filters)},
            "locallyAddedAssertions": {"prefixAssertions": list(assertions), "bgpsecAssertions": list(key_assertions)}}


# A name, filters of prefixes, and which lines of csv they take away: by the AS number, the prefix, and the length.
FILTERS = (("no filter", [], lambda asn, net: False),
           ("an AS number", [{"asn": 64529}], lambda asn, net: asn == 64529),
           ("a prefix", [{"prefix": "10.0.3.0/24", "comment": "all of it"}],
            lambda asn, net: net.startswith("10.0.3.")),
           ("the prefix itself", [{"prefix": "10.0.3.16/28"}], lambda asn, net: net == "10.0.3.16/28"),
           ("a longer prefix", [{"prefix": "10.0.3.16/29"}], lambda asn, net: False),
           ("every prefix", [{"prefix": "0.0.0.0/0"}], lambda asn, net: True),
           ("every prefix of the other family", [{"prefix": "::/0"}], lambda asn, net: False),
           ("both", [{"prefix": "10.0.0.0/8", "asn": 64529}], lambda asn, net: asn == 64529),
           ("both, of which one doesn't match", [{"prefix": "10.0.4.0/24", "asn": 64529}], lambda asn, net: False),
           ("two", [{"asn": 64529}, {"prefix": "10.0.4.0/24"}],
            lambda asn, net: asn == 64529 or net.startswith("10.0.4.")))

ASSERTIONS = [{"asn": 64500, "prefix": "198.51.100.0/24"},
              {"asn": 64496, "prefix": "2001:db8::/32", "maxPrefixLength": 48, "comment": "a site"},
              {"asn": 64500, "prefix": "198.51.100.0/24", "maxPrefixLength": 24}]
ASSERTED = ["AS64500,198.51.100.0/24,24,local", "AS64496,2001:db8::/32,48,local"]


# A public key on P-256, which openssl made.
KEY = ("MFkwEwYHKoZIzj0CAQYIKoZIzj0DAQcDQgAEwqoGcakZncFZEfn0k3LTgg2h+qvnTxWG4D8eQHjDjNomh52wqWHa5cuEKMi/ehAGRE0iS/VR"
       "2icQfJUSn8cPzw==")


# Texts that aren't JSON, and the line from which on they aren't; where they only end too soon the last.
LINES = (("", 1), ("{", 1), ("{\n\n", 3), ("x\n", 1), ("{\n\n\"slurmVersion\": 1,\n,", 4), ("{}\n\n{}\n", 3),
         (json.dumps(slurm(), indent=1).replace("[]\n", "[\n", 1), 6),
         (json.dumps(slurm(), indent=1).replace("1,\n", "1\n", 1), 3),
         (json.dumps(slurm([{"comment": "y"}], [{"comment": "Q"}]), indent=1).replace("Q", "\n"), 11),
         (json.dumps(slurm([{"comment": "y"}], [{"comment": "Q"}]), indent=1).replace("Q", "\udcff"), 11),
         ("{" + "\n" * 5000 + ":" + "\n" * 5000, 5001))


# Where a member is twice, and the text of it, once and twice.
TWICE = (("a member of the whole", '"slurmVersion": 1', '"slurmVersion": 1, "slurmVersion": 1'),
         ("one that would be right alone", '"slurmVersion": 1', '"slurmVersion": 2, "slurmVersion": 1'),
         ("a member of the filters", '"bgpsecFilters": []', '"bgpsecFilters": [], "bgpsecFilters": []'),
         ("a member of an element", '"asn": 1', '"asn": 1, "asn": 1'),
         ("one that is spelled by escapes", '"asn": 1', '"asn": 1, "\\u0061s\\u006e": 1'),
         ("a comment", '"comment": "x"', '"comment": "x", "comment": "y"'))


# A name, and a text that is no file of local exceptions.
def deviations():
    def without(*path):
        made = slurm()
        at = made
        for name in path[:-1]:
            at = at[name]
        del at[path[-1]]
        return json.dumps(made)
    yield "empty", ""
    yield "not JSON", "{"
    yield "not an object", "[]"
    yield "octets that aren't UTF-8", b"\xff"
    for name, old, new in TWICE:
        yield f"twice: {name}", json.dumps(slurm([{"asn": 1, "comment": "x"}])).replace(old, new)
    for path in (("slurmVersion",), ("validationOutputFilters",), ("locallyAddedAssertions",),
                 ("validationOutputFilters", "prefixFilters"), ("validationOutputFilters", "bgpsecFilters"),
                 ("locallyAddedAssertions", "prefixAssertions"), ("locallyAddedAssertions", "bgpsecAssertions")):
        yield f"without {path[-1]}", without(*path)
    yield "another version", json.dumps({**slurm(), "slurmVersion": 2})
    yield "a version that is a text", json.dumps({**slurm(), "slurmVersion": "1"})
    yield "another member", json.dumps({**slurm(), "more": 1})
    yield "another member of the filters", json.dumps(
        {**slurm(), "validationOutputFilters": {"prefixFilters": [], "bgpsecFilters": [], "more": []}})
    yield "filters that are no array", json.dumps(
        {**slurm(), "validationOutputFilters": {"prefixFilters": {}, "bgpsecFilters": []}})
    for name, one in (("nothing", {}), ("a comment alone", {"comment": "x"}), ("a negative AS number", {"asn": -1}),
                      ("a large AS number", {"asn": 1 << 32}), ("an AS number that is a text", {"asn": "64496"}),
                      ("no prefix", {"prefix": "10.0.0.0"}), ("bits behind the prefix", {"prefix": "10.0.0.1/8"}),
                      ("a long prefix", {"prefix": "10.0.0.0/33"}),
                      ("a comment that is a number", {"asn": 1, "comment": 1}),
                      ("another name", {"asn": 1, "ASN": 1}), ("a maximum length", {"asn": 1, "maxPrefixLength": 8})):
        yield f"a filter with {name}", json.dumps(slurm(filters=[{"asn": 1}, one]))
    for name, one in (("nothing", {}), ("a short identifier", {"SKI": "AAAA"}), ("no base 64", {"SKI": "!" * 27}),
                      ("a key", {"asn": 1, "routerPublicKey": "AAAA"})):
        yield f"a filter of keys with {name}", json.dumps(slurm(key_filters=[one]))
    for name, one in (("no AS number", {"prefix": "10.0.0.0/8"}), ("no prefix", {"asn": 1}),
                      ("a short maximum length", {"asn": 1, "prefix": "10.0.0.0/8", "maxPrefixLength": 7}),
                      ("a long maximum length", {"asn": 1, "prefix": "10.0.0.0/8", "maxPrefixLength": 33}),
                      ("another name", {"asn": 1, "prefix": "10.0.0.0/8", "maxLength": 8})):
        yield f"a prefix that is added with {name}", json.dumps(slurm(assertions=[one]))
    ski, key = url_safe(bytes(20)), base64.b64decode(KEY)
    yield "an identifier with padding", json.dumps(slurm(key_filters=[{"SKI": ski + "="}]))
    for name, one in (("no octets", b""), ("no key", b"AAA"), ("an octet behind the key", key + b"A"),
                      ("a key that is cut", key[:-1]), ("the bits alone", key[-65:])):
        yield f"a key that is added with {name}", json.dumps(
            slurm(key_assertions=[{"asn": 1, "SKI": ski, "routerPublicKey": url_safe(one)}]))
    yield "a key that is added with padding", json.dumps(
        slurm(key_assertions=[{"asn": 1, "SKI": ski, "routerPublicKey": base64.urlsafe_b64encode(key).decode()}]))
    yield "a key that is added without its identifier", json.dumps(
        slurm(key_assertions=[{"asn": 1, "routerPublicKey": "AAAA"}]))
    yield "a key that is added without the key", json.dumps(
        slurm(key_assertions=[{"asn": 1, "SKI": url_safe(bytes(20))}]))


# A member's name among the parts of the two objects, its section, and an element of its array that is one.
RULES = (("prefixFilters", "3.3.1", {"asn": 1, "comment": "x"}),
         ("bgpsecFilters", "3.3.2", {"asn": 1}),
         ("prefixAssertions", "3.4.1", {"asn": 1, "prefix": "192.0.2.0/24"}),
         ("bgpsecAssertions", "3.4.2", None))
# Elements that are none, with what a scan of the text may take for something else.
ELEMENTS = ("{}", "[]", "7", "null", '"x"', "[[1], [2, {}]]", '{"prefixFilters": [1]}',
            '{"comment": "\\", [{"}', '{"comment": "\\\\"}', '"prefixFilters"', '[\n\n1, 2]')


def faulty():
    """Texts with an element that is none, and what is said of it. Its line is that of a mark, which it replaces."""
    for member, section, good in RULES:
        for before in ([0] if good is None else [0, 1, 5]):
            for indent in 1, None:
                made = slurm([{"asn": 2, "comment": 'a, "b": [{\n'}] if member != "prefixFilters" else ())
                for part in made.values():
                    if isinstance(part, dict) and member in part:
                        part[member] = [good] * before + ["MARK"] + [7, {}]
                marked = json.dumps(made, indent=indent)
                line = marked[:marked.index('"MARK"')].count("\n") + 1
                for element in ELEMENTS:
                    text = marked.replace('"MARK"', element)
                    said = ": line {}: " + f"{member}[{before}] is no such element"
                    yield text, section + said.format(line)
                    name = f'"\\u00{ord(member[0]):02X}{member[1:]}" :\n\n['
                    yield text.replace(f'"{member}": [', name, 1), section + said.format(line + 2)


def exceptions(program, maker):
    """Filters take payloads away, assertions are added, and what deviates from RFC 8416 is refused."""
    folder, file = maker.repository(ASPA="1", ROUTER="1"), os.path.join(maker.room, "local.json")
    lines, words = payloads(below(0)[1:]), ("--exceptions", file)
    for name, filters, matches in FILTERS:
        edit(file, json.dumps(slurm(filters)).encode())
        left = [line for line in lines if not matches(int(line.split(",")[0][2:]), line.split(",")[1])]
        program.holds(f"exceptions: {name}", folder, left, 0, *words)
    edit(file, json.dumps(slurm([{"asn": 64529}], assertions=ASSERTIONS)).encode())
    left = [line for line in lines if not line.startswith("AS64529,")]
    program.holds("exceptions: prefixes that are added", folder, [*left, *ASSERTED], 0, *words)
    key_exceptions(program, folder, file)
    other = {**slurm(), "validationOutputFilters": {"prefixFilters": {}, "bgpsecFilters": []}}
    for text, said in (*((text, f"3.1: line {number}: not JSON") for text, number in LINES),
                       (json.dumps(slurm(), indent=1).replace(": 1", ": 1, \"slurmVersion\": 1"),
                        "3.1: a member twice in an object"),
                       ({**slurm(), "slurmVersion": 2}, "3.2: slurmVersion is not the number 1"),
                       ({**slurm(), "validationOutputFilters": []},
                        "3.3: validationOutputFilters is not an object of prefixFilters and bgpsecFilters"),
                       ({**slurm(), "locallyAddedAssertions": []},
                        "3.4: locallyAddedAssertions is not an object of prefixAssertions and bgpsecAssertions"),
                       (other, "3.3.1: prefixFilters is not an array"),
                       (slurm([{"asn": 1}, {}]), "3.3.1: line 1: prefixFilters[1] is no such element"),
                       (slurm(key_filters=[{}]), "3.3.2: line 1: bgpsecFilters[0] is no such element"),
                       (slurm(assertions=[{}]), "3.4.1: line 1: prefixAssertions[0] is no such element"),
                       (slurm(key_assertions=[{}]), "3.4.2: line 1: bgpsecAssertions[0] is no such element")):
        edit(file, (text if isinstance(text, str) else json.dumps(text)).encode("utf-8", "surrogateescape"))
        _, _, faults = program.run(folder, *words)
        holds(f"exceptions: told: {said}", faults == f"rpkivalid: {file}: RFC 8416 {said}\n", faults)
    for text, said in faulty():
        edit(file, text.encode())
        _, _, faults = program.run(folder, *words)
        holds(f"exceptions: a line: {said}", faults == f"rpkivalid: {file}: RFC 8416 {said}\n", faults)
    for name, text in deviations():
        edit(file, text if isinstance(text, bytes) else text.encode())
        status, output, faults = program.run(folder, *words)
        holds(f"exceptions: {name}", status == 2 and not output and "local.json: RFC 8416 3." in faults,
              (status, output[:50], faults[:200]))
    several(program, maker, folder, left)
    status, output, faults = program.run(folder, "--exceptions", os.path.join(maker.room, "none.json"))
    holds("exceptions: no file", status == 2 and not output and "none.json: cannot be read" in faults, faults)


def added_key(asn):
    return {"asn": asn, "SKI": url_safe(bytes(20)), "routerPublicKey": url_safe(base64.b64decode(KEY))}


# A name, what two files have, and what is said of the two, or None where they are used (RFC 8416 4.2).
PAIRS = (("other prefixes", {"filters": [{"prefix": "192.0.2.0/24"}]}, {"assertions": ASSERTIONS[:1]}, None),
         ("other families", {"filters": [{"prefix": "0.0.0.0/0"}]}, {"assertions": ASSERTIONS[1:2]}, None),
         ("one AS number of filters without a prefix", {"filters": [{"asn": 64999}]}, {"filters": [{"asn": 64999}]},
          None),
         ("one AS number of prefixes that are added", {"assertions": [{"asn": 64500, "prefix": "198.51.100.0/25"}]},
          {"assertions": [{"asn": 64500, "prefix": "198.51.100.128/25"}]}, None),
         ("one AS number of filters and of keys", {"filters": [{"asn": 64999}]}, {"key_filters": [{"asn": 64999}]},
          None),
         ("identifiers alone", {"key_filters": [{"SKI": url_safe(bytes(20))}]},
          {"key_assertions": [added_key(64999)]}, None),
         ("one prefix", {"filters": [{"prefix": "192.0.2.0/24"}]}, {"filters": [{"prefix": "192.0.2.0/24"}]},
          "192.0.2.0/24 and 192.0.2.0/24 overlap"),
         ("a prefix that covers", {"filters": [{"prefix": "192.0.0.0/16"}]},
          {"assertions": [{"asn": 1, "prefix": "192.0.2.0/24"}]}, "192.0.0.0/16 and 192.0.2.0/24 overlap"),
         ("a prefix that is covered", {"assertions": [{"asn": 1, "prefix": "2001:db8:1::/48"}]},
          {"filters": [{"prefix": "192.0.2.0/24"}, {"prefix": "2001:db8::/32", "asn": 2}]},
          "2001:db8:1::/48 and 2001:db8::/32 overlap"),
         ("prefixes that are added", {"assertions": [{"asn": 1, "prefix": "198.51.100.0/24"}]},
          {"assertions": [{"asn": 2, "prefix": "198.51.100.64/26"}]}, "198.51.100.0/24 and 198.51.100.64/26 overlap"),
         ("an AS number of keys", {"key_filters": [{"asn": 64999}]},
          {"key_filters": [{"asn": 1}, {"asn": 64999, "SKI": url_safe(bytes(20))}]},
          "both have router keys of AS64999"),
         ("an AS number of a key that is added", {"key_filters": [{"asn": 64999}]},
          {"key_assertions": [added_key(64998), added_key(64999)]}, "both have router keys of AS64999"))


def several(program, maker, folder, left):
    """Several files: their union; and where two are in conflict, none is used."""
    first, second, third = (os.path.join(maker.room, name) for name in ("one.json", "two.json", "three.json"))
    edit(first, json.dumps(slurm([{"asn": 64529}], assertions=ASSERTIONS[:1])).encode())
    edit(second, json.dumps(slurm([{"prefix": "10.0.4.0/24"}], assertions=ASSERTIONS[1:2])).encode())
    edit(third, json.dumps(slurm()).encode())
    lines = [line for line in left if not line.split(",")[1].startswith("10.0.4.")]
    added = [line.replace("local", name) for line, name in zip(ASSERTED, ("one", "two"))]
    for name, words in (("by one option", ("--exceptions", first, second, third)),
                        ("by several", ("--exceptions", first, "--exceptions", second, f"--exceptions={third}"))):
        program.holds(f"exceptions: several files, {name}", folder, [*lines, *added], 0, *words)
    program.holds("exceptions: several files, the other way", folder, [*lines, *reversed(added)], 0, "--exceptions",
                  second, first)
    for name, one, other, said in PAIRS:
        edit(first, json.dumps(slurm(**one)).encode())
        edit(third, json.dumps(slurm(**other)).encode())
        edit(second, json.dumps(slurm()).encode())
        status, output, faults = program.run(folder, "--exceptions", first, second, third)
        if said is None:
            holds(f"exceptions: two files: {name}", status == 0 and output, (status, faults[:300]))
            continue
        told = f"rpkivalid: {first} and {third}: RFC 8416 4.2: {said}\n"
        holds(f"exceptions: two files: {name}", (status, output, faults[-len(told):]) == (2, "", told), faults[-300:])
    same = os.path.join(maker.room, "same", "one.json")
    os.makedirs(os.path.dirname(same), exist_ok=True)
    edit(same, json.dumps(slurm()).encode())
    edit(first, json.dumps(slurm()).encode())
    for name, file in (("a file twice", first), ("two files of one name", same)):
        status, output, faults = program.run(folder, "--exceptions", first, file)
        told = f"rpkivalid: {first} and {file}: both have one name\n"
        holds(f"exceptions: {name}", (status, output, faults[-len(told):]) == (2, "", told), faults[-300:])
    edit(third, b"{")
    status, output, faults = program.run(folder, "--exceptions", first, third)
    holds("exceptions: the second file",
          status == 2 and not output and f"{third}: RFC 8416 3.1: line 1: not JSON\n" in faults, faults)


def addresses(count, odd, low=ipaddress.ip_address("10.0.0.0")):
    """So many addresses from the lowest on, each as a prefix: every second one, so that two files take turns."""
    return [{"prefix": str(ipaddress.ip_network(low + 2 * it + odd))} for it in range(count)]


def numbers(count, odd):
    return [{"asn": 2 * it + odd} for it in range(count)]


# The first address of a route origin with many prefixes.
LOWEST = ipaddress.ip_address("10.0.1.0")
LOW, LAST = ipaddress.ip_address("2001:db8::"), {"prefix": "203.0.113.0/24"}
SHARED = "203.0.113.0/24 and 203.0.113.0/24 overlap"
# A name, what a file of many exceptions has, the first and the other one, and what is said of the two: the last is in
# conflict.
MANY = (("prefixes", lambda count, odd: slurm([*addresses(count, odd), LAST]), SHARED),
        ("prefixes of IPv6", lambda count, odd: slurm([*addresses(count, odd, LOW), LAST]), SHARED),
        ("one prefix often", lambda count, odd: slurm([{"prefix": f"{10 + odd}.0.0.0/8"}] * count + [LAST]), SHARED),
        ("prefixes that are added",
         lambda count, odd: slurm(assertions=[{"asn": 1, **it} for it in [*addresses(count, odd), LAST]]), SHARED),
        ("AS numbers of keys", lambda count, odd: slurm(key_filters=[*numbers(count, odd), {"asn": 4200000000}]),
         "both have router keys of AS4200000000"))
# How many times the instructions of a file twice as long are at most.
TWICE_AS_LONG = 2.2


def instructions(path, *words):
    """How many instructions callgrind counts of a run."""
    options = ["--tool=callgrind", "--callgrind-out-file=/dev/null"]
    ended = subprocess.run([shutil.which("valgrind"), *options, path, *words], stdout=subprocess.PIPE,
                           stderr=subprocess.PIPE, check=False, timeout=300)
    return int(re.search(rb"Collected : (\d+)", ended.stderr)[1])


# A name, and that many filters, of which none matches an even address.
MANY_FILTERS = (("prefixes", lambda count: addresses(count, 1)),
                ("prefixes and AS numbers",
                 lambda count: [{"asn": it, **one} for it, one in enumerate(addresses(count, 1))]),
                ("AS numbers", lambda count: [{"asn": it} for it in range(count)]))


def filtered(program, maker, file, name, of):
    """Many payloads and as many filters, and twice as many of both."""
    counts = []
    for count in (2_000, 4_000):
        folder = maker.repository(1, 1, 1, prefixes=count)
        lines = [f"AS64528,{LOWEST + 2 * it}/32,32,example" for it in range(count)]
        edit(file, json.dumps(slurm(of(count)), separators=(",", ":")).encode())
        program.holds(f"exceptions: {count} {name} and payloads", folder, lines, 0, "--exceptions", file)
        if shutil.which("valgrind"):
            counts.append(instructions(*program.words(folder, "--exceptions", file)))
    if counts:
        holds(f"exceptions: twice as many {name} and payloads", counts[1] <= TWICE_AS_LONG * counts[0], counts)


# Octets that identify no key of a repository.
OTHER = url_safe(bytes(range(20)))
# A name, what the certificate of the router has, and that many filters of keys; which of its AS numbers are left. Its
# certificate has so many odd numbers, or all up to twice as many.
MANY_KEYS = (("AS numbers of keys", "ROUTERBLOCKS", lambda count, ski: [{"asn": 2 * it} for it in range(count)],
              lambda count: range(1, 2 * count, 2)),
             ("identifiers", "ROUTERBLOCKS", lambda count, ski: [{"SKI": url_safe(it.to_bytes(20, "big"))}
                                                                for it in range(count)],
              lambda count: range(1, 2 * count, 2)),
             ("identifiers and AS numbers", "ROUTERBLOCKS",
              lambda count, ski: [{"asn": 2 * it + 1, "SKI": ski if it % 2 else OTHER} for it in range(count)],
              lambda count: range(1, 2 * count, 4)),
             ("AS numbers of one key", "ROUTERNUMBERS", lambda count, ski: [{"asn": it} for it in range(0, count, 2)],
              lambda count: range(1, count, 2)))


def keys_filtered(program, maker, file, name, made, of, left):
    """Many keys of routers and as many filters, and twice as many of both."""
    counts = []
    for count in (2_000, 4_000):
        folder = maker.repository(1, 1, 1, ROUTER="1", **{made: str(count - (made == "ROUTERNUMBERS"))})
        _, identifier = router_key(folder)
        edit(file, json.dumps(slurm(key_filters=of(count, url_safe(identifier))), separators=(",", ":")).encode())
        words = ("--form", "json", "--exceptions", file)
        status, output, faults = program.run(folder, *words)
        seen = [key["asn"] for key in json.loads(output)["routerKeys"]]
        holds(f"exceptions: {count} {name}", (status, seen) == (0, [f"AS{it}" for it in left(count)]),
              (status, seen[:9], faults[:300]))
        if shutil.which("valgrind"):
            counts.append(instructions(*program.words(folder, *words)))
    if counts:
        holds(f"exceptions: twice as many {name}", counts[1] <= TWICE_AS_LONG * counts[0], counts)


def many_exceptions(program, maker):
    """Two files of many exceptions, of which the last are in conflict, and of twice as many; and of a real size. No
    instructions are counted without valgrind."""
    folder, files = maker.repository(2, 2, 1), [os.path.join(maker.room, name) for name in ("one.json", "two.json")]

    def made(of, count):
        for odd, file in enumerate(files):
            edit(file, json.dumps(of(count, odd), separators=(",", ":")).encode())

    for name, of, said in MANY:
        counts = []
        for count in (1_000, 2_000):
            made(of, count)
            told = f"rpkivalid: {files[0]} and {files[1]}: RFC 8416 4.2: {said}\n"
            status, output, faults = program.run(folder, "--exceptions", *files)
            holds(f"exceptions: {count} {name}", (status, output, faults[-len(told):]) == (2, "", told), faults[-300:])
            if shutil.which("valgrind"):
                counts.append(instructions(*program.words(folder, "--exceptions", *files)))
        if counts:
            holds(f"exceptions: twice as many {name}", counts[1] <= TWICE_AS_LONG * counts[0], counts)
    for name, of in MANY_FILTERS:
        filtered(program, maker, files[0], name, of)
    for row in MANY_KEYS:
        keys_filtered(program, maker, files[0], *row)
    made(lambda count, odd: slurm(addresses(count, odd), numbers(count, odd)), 100_000)
    program.holds("exceptions: 200,000 filters in each of two", folder, payloads([1, 2], 1), 0, "--exceptions", *files)


def key_exceptions(program, folder, file):
    """Filters of keys, and a key that is added."""
    info, identifier = router_key(folder)
    all_of, ski, other = below(0)[1:], url_safe(identifier), url_safe(bytes(range(20)))
    for name, filters, left in (("an identifier", [{"SKI": ski}], []),
                                ("another identifier", [{"SKI": other}], all_of),
                                ("a number", [{"asn": 2}], [it for it in all_of if it != 2]),
                                ("both", [{"asn": 2, "SKI": ski, "comment": "x"}], [it for it in all_of if it != 2]),
                                ("both, of which one doesn't match", [{"asn": 2, "SKI": other}], all_of),
                                ("two", [{"asn": 2}, {"asn": 3}], [it for it in all_of if it not in (2, 3)])):
        added = [{"asn": 65000, "SKI": other, "routerPublicKey": url_safe(info)}]
        edit(file, json.dumps(slurm(key_filters=filters, key_assertions=added)).encode())
        status, output, _ = program.run(folder, "--form", "json", "--exceptions", file)
        made = [(key["asn"], key["SKI"], key["routerPublicKey"], key["ta"]) for key in json.loads(output)["routerKeys"]]
        wanted = [*((f"AS{it}", identifier.hex().upper(), url_safe(info), "example") for it in left),
                  ("AS65000", bytes(range(20)).hex().upper(), url_safe(info), "local")]
        holds(f"exceptions: filters of keys: {name}", status == 0 and made == wanted, made)
