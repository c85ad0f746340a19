"""What is explained of objects and of routes."""
import json
import os

from alterations import another_anchor, other_octet, removed
from counting import holds
from exceptions import ASSERTIONS, slurm
from programs import TOP
from repositories import STALE_MANIFEST, below, edit, parent, payload


def uri_of(authority, name):
    return f"rsync://rpki.example/repo/d{authority}/{name}"


def asked(program, name, folder, lines, status, *words):
    """What is said of an object or of a route is these lines."""
    ended, output, faults = program.run(folder, "--explain", *words)
    wanted = "".join(f"{line}\n" for line in lines)
    holds(f"explained: {name}", ended == status and output == wanted, (ended, output[:500], faults[:200]))


UNLISTED = "example: listed by no manifest that counts"


def listed(authority):
    return f"example: listed by {uri_of(authority, 'm.mft')}"


def whole(authority, why):
    return f"example: {uri_of(authority, 'm.mft')}: publication point rejected: {why}"


def objects(program, maker):
    """Why an object counts, or not: what is known from the change."""
    folder = maker.repository(BADROA="1", BADGBR="1")
    for it in below(0)[1:]:
        asked(program, f"{it}: a route origin", folder, ["example: counts", listed(it)], 0, uri_of(it, "r0.roa"))
        asked(program, f"{it}: a certificate", folder, ["example: counts", listed(parent(it))], 0,
              uri_of(parent(it), f"ca{it}.cer"))
        asked(program, f"{it}: a list", folder, ["example: counts", listed(it)], 0, uri_of(it, "l.crl"))
        asked(program, f"{it}: a manifest", folder, ["example: counts", "example: the manifest of an authority"], 0,
              uri_of(it, "m.mft"))
        asked(program, f"{it}: no such file", folder, [UNLISTED], 0, uri_of(it, "none.roa"))
        asked(program, f"{it}: another kind", folder, ["example: not looked at", listed(it)], 0, uri_of(it, "bad.gbr"))
        bad = f"example: {uri_of(it, 'bad.roa')}: rejected: malformed: "
        other = uri_of(it, "bad.roa").replace("rsync://rpki", "RSYNC://RPKI")
        status, output, _ = program.run(folder, "--explain", other)
        told_so = output.startswith(bad) and output.endswith(f"{listed(it)}\n")
        holds(f"explained: {it}: malformed", status == 0 and told_so, output)
    asked(program, "the trust anchor", folder, ["example: counts", "example: the certificate of the trust anchor"], 0,
          uri_of(0, "ca0.cer"))
    changed_objects(program, maker)


def changed_objects(program, maker):
    """All that an authority publishes is rejected."""
    for it in below(0)[1:]:
        missing = f"RFC 9286 6.4: no file at {uri_of(it, 'r0.roa')}"
        folder = maker.changed(removed(it, "r0.roa"))
        asked(program, f"{it}: a missing file", folder, [whole(it, missing), listed(it)], 0, uri_of(it, "r0.roa"))
        asked(program, f"{it}: beside it", folder, [whole(it, missing), UNLISTED], 0, uri_of(it, "r1.roa"))
        above = uri_of(parent(it), f"ca{it}.cer")
        asked(program, f"{it}: above it", folder, ["example: counts", listed(parent(it))], 0, above)
        folder = maker.changed(other_octet(it, "r1.roa"))
        other = f"RFC 9286 6.5: another digest at {uri_of(it, 'r1.roa')}"
        asked(program, f"{it}: another octet", folder, [whole(it, other), listed(it)], 0, uri_of(it, "r1.roa"))
        folder = maker.changed(removed(it, "m.mft"))
        none = [whole(it, "RFC 9286 6.2: no manifest"), "example: the manifest of an authority"]
        asked(program, f"{it}: no manifest", folder, none, 0, uri_of(it, "m.mft"))
    folder = maker.changed(another_anchor)
    status, output, _ = program.run(folder, "--explain", uri_of(1, "r0.roa"))
    holds("explained: no trust anchor", status == 1 and output.startswith("example: no trust anchor: "), output)


def routes(program, maker):
    """Whether a route is valid (RFC 6811 2), and why: by the payloads that are made."""
    folder = maker.repository()
    local, words = os.path.join(maker.room, "local.json"), ("--exceptions", os.path.join(maker.room, "local.json"))
    for it in below(0)[1:]:
        (octets, size, most, number), _ = payload(it, 0)
        address = ".".join(map(str, octets))
        covers, route = f"AS{number},{address}/{size},{most}: ", f"{address}/{size}"
        for name, prefix, asn, said, why in (
                ("a match", route, number, "valid", "match"),
                ("another AS", route, number + 1, "invalid", "no match: the AS number"),
                ("AS 0", route, 0, "invalid", "no match: the AS number"),
                ("a longer prefix", f"{address}/32", number, "invalid", "no match: the length"),
                ("both", f"{address}/32", number + 1, "invalid", "no match: the AS number and the length"),
                ("a shorter prefix", f"{address}/{size - 1}", number, "not found", ""),
                ("another prefix", f"10.200.{it}.0/28", number, "not found", ""),
                ("the other family", "a00::/28", number, "not found", "")):
            lines = [f"AS{asn},{prefix}: {said}", *([covers + why] if why else [])]
            asked(program, f"{it}: {name}", folder, lines, 0, prefix, "--as", str(asn))
            asked(program, f"{it}: {name}, by its name", folder, lines, 0, prefix, "--as", f"AS{asn}")
        wide, gone = f"{address}/{size - 1}", f"AS{number},{address}/{size},{most}: filtered by local: "
        for name, filters, by in (("a number", [{"asn": number}], [f"AS{number}"]),
                                  ("a prefix", [{"prefix": route}, {"asn": number + 1}], [route]),
                                  ("both", [{"prefix": route, "asn": number}], [f"{route}, AS{number}"]),
                                  ("each of two", [{"prefix": wide}, {"asn": number}], [wide, f"AS{number}"])):
            edit(local, json.dumps(slurm(filters)).encode())
            left = [f"AS{number},{route}: not found", *(gone + asks for asks in by)]
            asked(program, f"{it}: filtered by {name}", folder, left, 0, route, "--as", str(number), *words)
        edit(local, json.dumps(slurm([{"prefix": f"{address}/32"}, {"asn": number + 1}])).encode())
        left = [f"AS{number},{route}: valid", covers + "match"]
        asked(program, f"{it}: not filtered", folder, left, 0, route, "--as", str(number), *words)
    edit(local, json.dumps(slurm(assertions=ASSERTIONS)).encode())
    lines = ["AS64496,2001:db8:1::/48: valid", "AS64496,2001:db8::/32,48: match",
             "AS64496,2001:db8::/32,48: added by local"]
    asked(program, "an assertion", folder, lines, 0, "2001:db8:1::/48", "--as", "64496", *words)
    edit(local, json.dumps(slurm([{"prefix": "::/0"}], assertions=ASSERTIONS)).encode())
    asked(program, "an assertion that a filter matches", folder, lines, 0, "2001:db8:1::/48", "--as", "64496", *words)


def rejected_routes(program, maker):
    """What attestations that are rejected say of a route: the two of the example, by what it was made of."""
    folder = os.path.join(TOP, "crates", "rpkivalid", "data")
    gone, wide = (f"example: rsync://rpki.example/repo/ca/{name}.roa: rejected: invalid: RFC 6487 7.2: "
                  for name in ("gone", "wide"))
    revoked, over = f"{gone}revoked certificate", f"{wide}resources that the issuer does not have"
    covered = "AS64496,10.0.0.0/8,24: "
    for prefix, asn, lines in (
            ("10.1.0.0/16", 64496, [f"{covered}match", f"AS64496,10.1.0.0/16,16: {revoked}",
                                    f"AS64496,10.1.0.0/16,16: {over}"]),
            ("10.2.0.0/16", 64496, [f"{covered}match"]),
            ("10.0.0.0/9", 64500, [f"{covered}no match: the AS number"])):
        first = f"AS{asn},{prefix}: {'valid' if asn == 64496 else 'invalid'}"
        asked(program, f"rejected: {prefix}", folder, [first, *lines], 0, prefix, "--as", str(asn))


def rejected_points(program, maker):
    """What the files of a point that is rejected say of a route, each that is there: of a missing file, and of one
    with another octet; and where no manifest says which they are, or the point above is rejected, nothing."""
    for it in below(0)[1:]:
        missing = whole(it, f"RFC 9286 6.4: no file at {uri_of(it, 'r0.roa')}")
        other = whole(it, f"RFC 9286 6.5: another digest at {uri_of(it, 'r0.roa')}")
        for name, change, variant, origin, why in (
                ("a missing file", removed(it, "r0.roa"), {}, 1, [missing]),
                ("the missing file itself", removed(it, "r0.roa"), {}, 0, []),
                ("another octet", other_octet(it, "r0.roa"), {}, 2, [other]),
                ("no manifest", removed(it, "m.mft"), {}, 1, []),
                ("above it", None, STALE_MANIFEST, 1, [])):
            folder = maker.changed(change, **variant)
            (octets, size, most, number), _ = payload(it, origin)
            route = f"{'.'.join(map(str, octets))}/{size}"
            lines = [f"AS{number},{route}: not found", *(f"AS{number},{route},{most}: {line}" for line in why)]
            asked(program, f"a point is rejected: {it}: {name}", folder, lines, 0, route, "--as", str(number))
