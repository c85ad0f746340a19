#!/usr/bin/env python3
"""Makes the pictures of the documents, docs/pictures/NAME.svg, of what is said elsewhere: bars of the figures in
docs/PERFORMANCE.md, the layers of crates.txt. Each has a ground of its own, light or dark as the reader's screen is.
tests/documents/run compares them with what is made here.

usage: tests/documents/pictures.py --write"""
import html
import pathlib
import re
import sys
from typing import NamedTuple

TOP = pathlib.Path(__file__).resolve().parent.parent.parent
FOLDER = TOP / "docs" / "pictures"
STYLE = """
text { font: 14px sans-serif; fill: #1f2328; text-anchor: middle }
.first { text-anchor: start } .last { text-anchor: end } .small { font-size: 12px } .name { font-weight: bold }
.ground { fill: #ffffff } .box { fill: #f3f5f7; stroke: #57606a } .own, .bar { fill: #cfe3f8; stroke: #2f6fb0 }
.frame { fill: none; stroke: #57606a; stroke-dasharray: 4 3 } .line { fill: none; stroke: #57606a; stroke-width: 1.5 }
.tip { fill: #57606a }
@media (prefers-color-scheme: dark) {
text { fill: #e6edf3 } .ground { fill: #0d1117 } .box { fill: #21262d; stroke: #8b949e }
.own, .bar { fill: #1c4572; stroke: #6cb0f5 } .frame, .line { stroke: #8b949e } .tip { fill: #8b949e }
}
"""


class Box(NamedTuple):
    """A box: its left upper corner, its size, and the lines in it, the first of them bold."""

    x: int
    y: int
    width: int
    height: int
    lines: tuple
    kind: str = "box"

    @property
    def middle(self):
        return self.x + self.width // 2, self.y + self.height // 2


class Picture:
    """A picture of a title, which a screen reader says, and a size."""

    def __init__(self, title, width, height):
        size = f'width="{width}" height="{height}"'
        self.parts = [f'<svg xmlns="http://www.w3.org/2000/svg" viewBox="0 0 {width} {height}" {size} role="img">',
                      f"<title>{html.escape(title)}</title>", f"<style>{STYLE}</style>",
                      f'<rect class="ground" {size} rx="8"/>']

    def text(self, x, y, text, kind=""):
        self.parts.append(f'<text x="{x}" y="{y}" class="{kind}">{html.escape(text, quote=False)}</text>')

    def rectangle(self, x, y, width, height, kind):
        self.parts.append(f'<rect class="{kind}" x="{x}" y="{y}" width="{width}" height="{height}" rx="4"/>')

    def box(self, box):
        self.rectangle(*box[:4], box.kind)
        x, y = box.middle
        for at, line in enumerate(box.lines):
            self.text(x, y + 5 + 18 * at - 9 * (len(box.lines) - 1), line, "small" if at else "name")

    def arrow(self, *points):
        """A line through these points, with a tip at the end; its last part is level or upright."""
        (x0, y0), (x, y) = points[-2:]
        across, down = (x > x0) - (x < x0), (y > y0) - (y < y0)
        end = x - 8 * across, y - 8 * down
        path = " L".join(f"{a},{b}" for a, b in (*points[:-1], end))
        self.parts.append(f'<path class="line" d="M{path}"/>')
        corners = [(x, y), *((end[0] + 5 * side * down, end[1] + 5 * side * across) for side in (1, -1))]
        self.parts.append(f'<polygon class="tip" points="{" ".join(f"{a},{b}" for a, b in corners)}"/>')

    def made(self):
        return "\n".join([*self.parts, "</svg>", ""])


def flow():
    """README.md: what the program reads, and who takes what it writes."""
    picture = Picture("A copy of a repository and TALs go into rpkivalid, which writes a list; StayRTR feeds it to "
                      "routers, and BIRD and OpenBGPD load it", 800, 170)
    copy = Box(15, 20, 150, 56, ("copy", "of rpki-client or rsync"))
    locators = Box(15, 94, 150, 56, ("TALs", "trust anchor locators"))
    program = Box(210, 57, 120, 56, ("rpkivalid", "validates"), "own")
    written = Box(375, 57, 130, 56, ("list", "VRPs, ASPAs, keys"))
    server = Box(550, 20, 120, 56, ("StayRTR", "or another server"))
    routers = Box(700, 20, 85, 56, ("routers",))
    others = Box(550, 94, 235, 56, ("BIRD, OpenBGPD", "by one include"))
    for box in (copy, locators, program, written, server, routers, others):
        picture.box(box)
    for y, to in (copy.middle[1], 75), (locators.middle[1], 95):
        picture.arrow((165, y), (187, y), (187, to), (210, to))
    picture.arrow((330, 85), (375, 85))
    for at, y in (75, server.middle[1]), (95, others.middle[1]):
        picture.arrow((505, at), (527, at), (527, y), (550, y))
    picture.arrow((670, 48), (700, 48))
    picture.text(685, 40, "RTR", "small")
    return picture.made()


def path():
    """docs/VALIDATION.md: from a locator to payloads."""
    picture = Picture("A locator's key is the trust anchor's; authorities are issued below it; each publishes a "
                      "manifest, which lists a revocation list and the files that payloads come from", 800, 372)
    top = [Box(20, 20, 150, 56, ("locator", "TAL: URIs and a key")),
           Box(250, 20, 150, 56, ("trust anchor", "self-signed")),
           Box(480, 20, 160, 56, ("authority", "CA: a certificate"))]
    manifest = Box(40, 150, 150, 56, ("manifest", "names and digests"))
    files = [Box(40 + 185 * at, 236, 150, 40, (name,)) for at, name in
             enumerate(("revocation list", "ROA, .roa", "ASPA, .asa", "certificate, .cer"))]
    payloads = [Box(225 + 185 * at, 318, 150, 40, (name,), "own") for at, name in
                enumerate(("route origin: VRP", "providers", "router's key"))]
    picture.rectangle(20, 112, 760, 178, "frame")
    picture.text(765, 132, "publication point, whole or not at all", "small last")
    for box in (*top, manifest, *files, *payloads):
        picture.box(box)
    picture.arrow((170, 48), (250, 48))
    picture.text(210, 40, "its key", "small")
    picture.arrow((400, 48), (480, 48))
    picture.text(440, 40, "issues", "small")
    picture.arrow((640, 36), (675, 36), (675, 62), (640, 62))
    picture.text(682, 53, "issues others", "small first")
    picture.arrow((560, 76), (560, 98), (115, 98), (115, 150))
    picture.text(350, 93, "signs all of its point; none is on its list (CRL)", "small")
    picture.arrow((115, 206), (115, 236))
    for at, box in enumerate(files[1:]):
        picture.arrow((190 + 185 * at - 75 * (at > 0), 178), (box.middle[0], 178), (box.middle[0], 236))
    picture.text(480, 170, "lists each", "small")
    for made, box in zip(payloads, files[1:]):
        picture.arrow((box.middle[0], 276), (made.middle[0], 318))
    return picture.made()


PROGRAMS = ("rpkibasic", "rpkicert", "rpkivalid", "rpki_c")


def layers():
    """docs/ARCHITECTURE.md: the crates, each in the row above the highest that it uses. Those of tests are left out."""
    uses = {}
    for line in (TOP / "crates.txt").read_text().split("\n"):
        head, _, names = line.partition("#")[0].partition(":")
        if head.strip():
            uses[head.split()[0]] = names.split()

    def row(name):
        return max((row(use) + 1 for use in uses[name] if use in uses), default=0)
    rows = {}
    for name in uses:
        if not name.endswith(("_tests", "_calls")) and name not in ("rsa_rows", "rpki_examples"):
            rows.setdefault(row(name), []).append(name)
    highest, width = max(rows), 20 + 140 * max(map(len, rows.values()))
    picture = Picture("Each crate rests on crates of the rows below it", width, 66 + 46 * highest)
    for at, names in rows.items():
        left = (width - 140 * len(names) + 8) // 2
        for place, name in enumerate(names):
            kind = "own" if name in PROGRAMS else "box"
            picture.box(Box(left + 140 * place, 15 + 46 * (highest - at), 132, 36, (name,), kind))
    return picture.made()


def figures(pattern, shape):
    """The numbers of a sentence of docs/PERFORMANCE.md."""
    found = re.search(pattern, " ".join((TOP / "docs" / "PERFORMANCE.md").read_text().split()))
    if not found:
        raise ValueError(f"docs/PERFORMANCE.md has no sentence such as: {shape}")
    return [it.replace(",", "") for it in found.groups()]


def bars(title, rows, shown):
    """Bars of named numbers, and what is written after each."""
    told, most = ", ".join(f"{name} {shown(number)}" for name, number in rows), max(number for _, number in rows)
    picture = Picture(f"{title}: {told}", 680, 50 + 34 * len(rows))
    picture.text(20, 28, title, "first name")
    for at, (name, number) in enumerate(rows):
        y, size = 42 + 34 * at, max(2, round(340 * number / most))
        picture.text(180, y + 17, name, "last")
        picture.rectangle(190, y, size, 24, "bar")
        picture.text(200 + size, y + 17, shown(number), "first")
    return picture.made()


def times():
    """docs/PERFORMANCE.md: the time of rpkivalid and of rpki-client."""
    own, files, version, other = figures(
        r"`rpkivalid` takes ([\d.]+) s and \d+ MB for ([\d,]+) files of `[^`]*`, rpki-client ([\d.]+) ([\d.]+) s\.",
        "`rpkivalid` takes 1 s and 1 MB for 1 files of `PATH`, rpki-client 1 1 s.")
    rows = [("rpkivalid", float(own)), (f"rpki-client {version}", float(other))]
    return bars(f"Seconds of processor for {int(files):,} files", rows, lambda it: f"{it} s")


def costs():
    """docs/PERFORMANCE.md: what a route origin costs."""
    whole, *parts = map(int, figures(
        r"route origin it takes ([\d,]+) instructions: RSA ([\d,]+), SHA-256 ([\d,]+), decoding and verifying ([\d,]+) "
        r"\([^)]*\), all else ([\d,]+)",
        "route origin it takes 1 instructions: RSA 1, SHA-256 1, decoding and verifying 1 (of a list 1), all else 1"))
    if sum(parts) != whole:
        raise ValueError(f"docs/PERFORMANCE.md: {whole} instructions aren't the sum {sum(parts)}")
    rows = list(zip(("RSA", "SHA-256", "decoding and verifying", "all else"), parts))
    return bars(f"Instructions of a route origin, of {whole:,}", rows, lambda it: f"{it:,}: {100 * it / whole:.0f} %")


# Each picture, what makes it, and the document that shows it.
PICTURES = {"flow": (flow, "README.md"), "layers": (layers, "docs/ARCHITECTURE.md"),
            "path": (path, "docs/VALIDATION.md"), "times": (times, "docs/PERFORMANCE.md"),
            "costs": (costs, "docs/PERFORMANCE.md")}


def stale():
    """The pictures that aren't what is made here, or that their document doesn't show."""
    for name, (make, shown) in PICTURES.items():
        file = FOLDER / f"{name}.svg"
        try:
            if not file.is_file() or file.read_text() != make():
                yield f"{name} is not what is said elsewhere: `tests/documents/pictures.py --write` makes it"
        except ValueError as error:
            yield str(error)
        if f"]({file.relative_to((TOP / shown).parent)})" not in (TOP / shown).read_text():
            yield f"{shown} doesn't show {name}"
    for file in sorted(FOLDER.iterdir() if FOLDER.is_dir() else []):
        if file.stem not in PICTURES or file.suffix != ".svg":
            yield f"{file.name} is made by nothing"


def main():
    if sys.argv[1:] != ["--write"]:
        sys.exit(__doc__)
    FOLDER.mkdir(exist_ok=True)
    for name, (make, _) in PICTURES.items():
        (FOLDER / f"{name}.svg").write_text(make())


if __name__ == "__main__":
    main()
