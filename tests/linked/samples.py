#!/usr/bin/env python3
"""Picks a few of the rows that the scripts rows.py beside this one write, for bindings/rust/tests/rows, so that the
package tests itself where nothing else of the repository is: the shortest row of each outcome. Needs Python alone.

usage: samples.py KIND < ROWS > SAMPLE      KIND: objects, contents, certificates or lists"""
import sys

# Longer rows are left out.
MOST = {"objects": 5000, "contents": 600, "certificates": 8000, "lists": 2000}


def of_object(words):
    """Which outcome a row of an object has, without the reason, and of one that is read each thing that it says."""
    if len(words) < 8:
        return [tuple(words[1:3]) + tuple(words[5:6] if words[2] == "0" else ())]
    return [(words[1], place, len(words[place]) > 1, words[place] if place > 17 else "") for place in (16, 17, 18, 19)]


def of_content(words):
    """Which outcome a row of a content has; of entries, how many there are, and the sizes of their numbers."""
    if words[0] not in ("manifest", "roa0", "roa1", "aspa"):
        return []
    if words[2] != "0":
        return [(words[0], *words[2:4])]
    return [tuple(words[:1]) + (words[2], min(len(words), 16), len(words[3]) if len(words) > 3 else 0,
                                words[10] if words[0][:3] == "roa" and len(words) > 10 else "")]


def of_certificate(words):
    """Each outcome that a row of a certificate has: a part and a reason, whether its algorithm has parameters, of
    extensions, of each profile."""
    if words[1] != "0":
        return [tuple(words[1:3])]
    places = [place for place, word in enumerate(words) if word == "|"]
    parts = [("parameters", words[places[0] - 1]), ("extensions", words[places[0] + 1])]
    return parts + [("inspected", word) for word in words[places[1] + 1:]]


def of_list(words):
    """Which outcome a row of a revocation list has: a part and a reason, or what is said."""
    if words[0] != "list":
        return []
    if words[2] != "0":
        return [tuple(words[2:4])]
    return [(min(len(words), 22), words[17] if len(words) > 17 else "")]


def main():
    outcomes = {"objects": of_object, "contents": of_content, "certificates": of_certificate, "lists": of_list}
    seen = set()
    for row in sorted(sys.stdin.read().splitlines(), key=len):
        found = set(outcomes[sys.argv[1]](row.split(" "))) - seen
        if found and len(row) < MOST[sys.argv[1]]:
            seen |= found
            print(row)


if __name__ == "__main__":
    main()
