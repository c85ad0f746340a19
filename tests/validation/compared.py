"""What is compared with what another validator says."""
import json
import os
import shutil

from alterations import removed
from counting import holds
from exceptions import ASSERTIONS, slurm
from programs import TOP
from repositories import TITLES, below, edit, payloads


def as_csv(rows, titles=TITLES, end=""):
    return "\n".join([*([titles] if titles else []), *(f"{row},example{end}" for row in rows), ""])


def as_json(rows, number=str, **more):
    """As rpki-client or Routinator writes it, by how they write AS numbers."""
    parts = [row.split(",") for row in rows]
    return json.dumps({**more, "roas": [{"asn": number(it[0]), "prefix": it[1], "maxLength": int(it[2]), "ta": "a"}
                                        for it in parts]})


def compared(program, name, folder, text, lines, *more):
    """What is said of this list is these lines, and the status is 0 where there are none."""
    file = os.path.join(folder, "theirs")
    edit(file, text.encode())
    status, output, faults = program.run(folder, "--compare", file, *more)
    wanted = "".join(f"{line}\n" for line in lines)
    is_right = status == (1 if lines else 0) and output == wanted
    holds(f"compared: {name}", is_right, (status, output[:500], wanted[:500], faults[:200]))


def alike(program, folder, rows):
    """The same payloads, in each spelling."""
    marked = [",".join(f'"{part}"' for part in row.split(",")) for row in rows]
    shorter = [row.replace("AS", "") for row in rows]
    client = {"metadata": {"vrps": len(rows)}, "bgpsec_keys": [], "aspas": {"ipv4": []}}
    for name, text in (
            ("csv", as_csv(rows)), ("csv of rpki-client", as_csv(rows, f"{TITLES},Expires", ",1796083200")),
            ("no titles", as_csv(rows, "")), ("titles in lower case", as_csv(rows, TITLES.lower())),
            ("other titles", as_csv(rows, '"ASN","Prefix","maxLength","TA"')),
            ("another end of lines", as_csv(rows).replace("\n", "\r\n")), ("no last end", as_csv(rows)[:-1]),
            ("quotation marks", as_csv(marked)), ("numbers alone", as_csv(shorter)),
            ("another name", as_csv(rows).replace("example", '"a ""b"",\nc"')),
            ("another order", as_csv(rows[::-1])), ("each twice", as_csv(rows + rows)),
            ("more fields in one row", as_csv(rows) + f"{rows[0]},example,1,2\n"),
            ("JSON of rpki-client", as_json(rows, lambda it: int(it[2:]), **client)),
            ("JSON of Routinator", as_json(rows, metadata={"generated": 1})), ("spaces", f" \r\n\t{as_json(rows)}\n"),
            ("numbers as texts", as_json(rows, lambda it: it[2:]))):
        compared(program, f"alike: {name}", folder, text, [])
    for form in ("csv", "json", "rpki-client"):
        compared(program, f"alike: our {form}", folder, program.run(folder, "--form", form)[1], [])


def apart(program, folder, rows):
    """Some of ours are missing, and some are theirs alone: each is told once, in order."""
    more = ["AS64496,10.0.0.0/8,8", "AS64496,10.0.1.0/28,28", "AS4294967295,203.0.113.0/24,32", "AS0,2001:db8::/32,48"]
    for at, row in enumerate(rows):
        compared(program, f"{row} is missing", folder, as_csv(rows[:at] + rows[at + 1:]), [f"{row}: only here"])
        parts = row.split(",")
        longer = f"{parts[0]},{parts[1]},{int(parts[2]) + 1}"
        for name, text in ("csv", as_csv), ("JSON", as_json):
            compared(program, f"{row} has another length, {name}", folder, text([*rows[:at], longer, *rows[at + 1:]]),
                     [f"{row}: only here", f"{longer}: only there"])
    for name, text in (("csv", as_csv), ("JSON", as_json)):
        there = [f"{row}: only there" for row in more]
        compared(program, f"more, {name}", folder, text([*more[::-1], *rows, *more]), there)
        compared(program, f"more alone, {name}", folder, text(more), [*(f"{row}: only here" for row in rows), *there])
    compared(program, "nothing", folder, "", [f"{row}: only here" for row in rows])
    compared(program, "titles alone", folder, as_csv([]), [f"{row}: only here" for row in rows])


def no_lists(program, folder, rows):
    """A list that is none is refused, and why is told."""
    file, first = os.path.join(folder, "theirs"), as_csv(rows[:1])
    for name, text, said in (
            ("no number of an AS", first + "ASX,10.0.0.0/8,8,example\n", "line 3: not a payload"),
            ("a number of 33 bits", first + "AS4294967296,10.0.0.0/8,8,example\n", "line 3: not a payload"),
            ("bits behind a prefix", first + "AS1,10.0.0.1/8,8,example\n", "line 3: not a payload"),
            ("a length below", first + "AS1,10.0.0.0/8,7,example\n", "line 3: not a payload"),
            ("a length above", first + "AS1,10.0.0.0/8,33,example\n", "line 3: not a payload"),
            ("no length", first + "AS1,10.0.0.0/8,,example\n", "line 3: not a payload"),
            ("a row behind two lines", first + '"AS1",10.0.0.0/8,8,"a\nb"\nASX,10.0.0.0/8,8,c\n', "line 5: not a"),
            ("a field of no UTF-8", first.encode() + b"AS1,10.0.0.0/8,8,\xff\n", "line 3: not a payload"),
            ("two fields", "AS1,10.0.0.0/8\n", "line 1: not a payload"),
            ("a text", "payloads", "line 1: not a payload"),
            ("an array", "[]", "line 1: not a payload"), ("half of JSON", as_json(rows)[:-1], "not JSON"),
            ("other members", '{"vrps": []}', "no array roas"), ("no array", '{"roas": {}}', "no array roas"),
            ("an element", as_json(rows).replace("AS645", "ASX", 2), "roas: not a payload: number 0"),
            ("the last element", as_json(rows)[:-2] + ', {"asn": 1}]}', f"roas: not a payload: number {len(rows)}"),
            ("a length as text", '{"roas": [{"asn": 1, "prefix": "10.0.0.0/8", "maxLength": "8"}]}', "number 0")):
        edit(file, text if isinstance(text, bytes) else text.encode())
        status, output, faults = program.run(folder, "--compare", file)
        told_so = f"rpkivalid: {file}: " in faults and said in faults
        holds(f"no list: {name}", status == 2 and not output and told_so, (status, output[:99], faults[:200]))
    status, output, faults = program.run(folder, "--compare", file + ".none")
    holds("no list: no file", status == 2 and not output and "cannot be read" in faults, faults[:200])


# How many octets a file of a copy has at most, above which a list may be.
MOST = 16_777_216


def large(program, folder, rows):
    """A list that is larger than a file of a copy is read to its last row: the world's payloads are such a list."""
    once, last = as_csv(rows, ""), "AS64496,192.0.2.0/24,24"
    many = once * (MOST // len(once) + 1)
    compared(program, "a large list", folder, many, [])
    compared(program, "the last of a large list", folder, f"{many}{last},example\n", [f"{last}: only there"])
    edit(os.path.join(folder, "theirs"), f"{many}none\n".encode())
    status, output, faults = program.run(folder, "--compare", os.path.join(folder, "theirs"))
    said = f": line {many.count(chr(10)) + 1}: not a payload\n"
    holds("compared: the last of a large list is none", (status, output) == (2, "") and faults.endswith(said), faults)


def comparisons(program, maker):
    """Lists of other validators: what each has alone, and why."""
    folder = maker.repository()
    rows = [line.rsplit(",", 1)[0] for line in payloads(below(0)[1:])]
    alike(program, folder, rows)
    large(program, folder, rows)
    apart(program, folder, rows)
    no_lists(program, folder, rows)
    local, counts = os.path.join(maker.room, "local.json"), os.path.join(maker.room, "counts")
    edit(local, json.dumps(slurm(assertions=ASSERTIONS)).encode())
    own = ["AS64496,2001:db8::/32,48: only here"]
    status, output, _ = program.run(folder, "--compare", os.path.join(folder, "theirs"), "--exceptions", local)
    holds("compared: a file that is no list, with exceptions", status == 2 and not output, output[:99])
    edit(os.path.join(folder, "theirs"), as_csv(rows).encode())
    status, output, _ = program.run(folder, "--compare", os.path.join(folder, "theirs"), "--exceptions", local,
                                    "--metrics", counts)
    holds("compared: with exceptions", status == 1 and set(own) <= set(output.split("\n")), output[:300])
    holds("compared: no metrics", not os.path.exists(counts))
    reasons(program, maker)


def reasons(program, maker):
    """Why payloads are theirs alone: what the two attestations of the example say that are rejected, of these alone."""
    folder = os.path.join(maker.room, "example-copy")
    shutil.copytree(os.path.join(TOP, "crates", "rpkivalid", "data"), folder)
    rows = [line.rsplit(",", 1)[0] for line in program.run(folder)[1].split("\n")[1:-1]]
    gone, wide = (f"example: rsync://rpki.example/repo/ca/{name}.roa: rejected: invalid: RFC 6487 7.2: "
                  for name in ("gone", "wide"))
    said, other = "AS64496,10.1.0.0/16,16", "AS64496,10.1.0.0/16,17"
    why = [f"{said}: {gone}revoked certificate", f"{said}: {wide}resources that the issuer does not have"]
    compared(program, "none is rejected", folder, as_csv(rows), [])
    compared(program, "one is rejected", folder, as_csv([*rows, said]), [f"{said}: only there", *why])
    compared(program, "another length is not", folder, as_csv([*rows, other]), [f"{other}: only there"])
    compared(program, "both", folder, as_json([*rows, other, said]),
             [f"{said}: only there", f"{other}: only there", *why])
    rejected_points(program, maker)


def rejected_points(program, maker):
    """Why payloads are theirs alone: their point is rejected, and its files say them."""
    everyone = [line.rsplit(",", 1)[0] for line in payloads(below(0)[1:])]
    for it in (authority for authority in below(0)[1:] if below(authority) == [authority]):
        folder = maker.changed(removed(it, "r1.roa"))
        uri = f"rsync://rpki.example/repo/d{it}"
        why = f"example: {uri}/m.mft: publication point rejected: RFC 9286 6.4: no file at {uri}/r1.roa"
        own = [line.rsplit(",", 1)[0] for line in payloads([it])]
        said = [line.rsplit(",", 1)[0] for line in payloads([it], without=[(it, 1)])]
        compared(program, f"a point is rejected: {it}", folder, as_csv(everyone),
                 [*(f"{row}: only there" for row in own), *(f"{row}: {why}" for row in said)])
