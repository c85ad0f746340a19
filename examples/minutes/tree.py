"""The authorities that count in a copy, as rpkivalid and rpkicert tell of it. What they decide, they decide; this only
looks where each publishes, so that it can be fetched and kept."""
import json
import os
import re
import subprocess
from concurrent.futures import ThreadPoolExecutor
from typing import Dict, Iterable, Iterator, List, NamedTuple, Optional, Sequence, Set

POINT = re.compile(r"(rsync://\S+): publication point rejected: ")
OBJECT = re.compile(r"(rsync://\S+): (?!publication point rejected: )")
ANCHOR = re.compile(r"rpkivalid: (.*): no trust anchor: ")
# So many files are shown by one rpkicert.
BATCH = 500


class Programs(NamedTuple):
    """The paths of rpkivalid and rpkicert."""

    rpkivalid: str
    rpkicert: str


class Locator(NamedTuple):
    """The locator of a trust anchor (RFC 8630): its file, its name, and the URIs in it."""

    path: str
    name: str
    uris: List[str]


class Verdict(NamedTuple):
    """The status of a validation, and what is rejected: the URIs of manifests of points, those of objects, and the
    names of locators without a trust anchor."""

    status: int
    points: Set[str]
    objects: Set[str]
    locators: Set[str]


class Authority(NamedTuple):
    """The URIs of a certificate and of the folder and the manifest that it names, and how far below a trust anchor it
    is; and, of one that counts, the number of the manifest and the names of its files."""

    certificate: str
    folder: str
    manifest: str
    level: int
    number: Optional[int] = None
    files: Sequence[str] = ()


def locator(path: str) -> Locator:
    with open(path, encoding="utf-8") as file:
        lines = [line.strip() for line in file if not line.startswith("#")]
    end = lines.index("") if "" in lines else len(lines)
    return Locator(path, os.path.splitext(os.path.basename(path))[0], lines[:end])


def path_in(folder: str, uri: str) -> str:
    """Where an object is in a copy. A URI that could lead out of it has no place: neither of the programs reads one."""
    parts = uri.removeprefix("rsync://").split("/")
    if not uri.startswith("rsync://") or {"", ".", ".."} & set(parts):
        raise ValueError(f"{uri}: no place in a copy")
    return os.path.join(folder, *parts)


def is_there(folder: str, uri: str) -> bool:
    try:
        return os.path.isfile(path_in(folder, uri))
    except ValueError:
        return False


def validated(programs: Programs, copy: str, locators: Iterable[Locator], *words: str) -> Verdict:
    """What rpkivalid says of the copy; the list that it writes goes where the words say, or nowhere."""
    tals = [word for it in locators for word in ("--tal", it.path)]
    ended = subprocess.run([programs.rpkivalid, *tals, "--cache", copy, *(words or ("--output", os.devnull))],
                           stdout=subprocess.DEVNULL, stderr=subprocess.PIPE, check=False)
    lines = ended.stderr.decode(errors="replace").split("\n")
    found = ({found[1] for found in map(what.match, lines) if found} for what in (POINT, OBJECT, ANCHOR))
    return Verdict(ended.returncode, *found)


def validated_each(programs: Programs, copy: str, locators: Sequence[Locator]) -> Verdict:
    """The same of each locator by itself, side by side, with what is rejected under any."""
    with ThreadPoolExecutor(max(1, min(len(locators), os.cpu_count() or 1))) as pool:
        each = list(pool.map(lambda it: validated(programs, copy, [it]), locators))
    points, objects, names = (set().union(*(it[at] for it in each)) for at in (1, 2, 3))
    return Verdict(max((it.status for it in each), default=2), points, objects, names)


def shown(programs: Programs, copy: str, uris: Iterable[str]) -> Dict[str, dict]:
    """What rpkicert says of each of these objects that is in the copy."""
    paths = {path_in(copy, uri): uri for uri in uris if is_there(copy, uri)}
    names, found = list(paths), {}
    for start in range(0, len(names), BATCH):
        words = [programs.rpkicert, "--json", *names[start:start + BATCH]]
        ended = subprocess.run(words, stdout=subprocess.PIPE, stderr=subprocess.DEVNULL, check=False)
        for line in ended.stdout.decode(errors="replace").splitlines():
            told = json.loads(line)
            found[paths[told["file"]]] = told
    return found


def number_of(manifest: dict) -> Optional[int]:
    """The number of a manifest (RFC 9286 4.2.1)."""
    digits = manifest.get("manifest_number")
    return int(digits, 16) if digits else None


def authorities(programs: Programs, copy: str, locators: Iterable[Locator], verdict: Verdict) -> Iterator[Authority]:
    """The trust anchors, and the authorities that manifests of those list that count, level by level, each once by the
    URI of its certificate. One whose point is rejected has no files."""
    level = [uri for it in locators if it.name not in verdict.locators
             for uri in [uri for uri in it.uris if is_there(copy, uri)][:1]]
    depth, seen = 0, set()
    while level:
        found = []
        certificates = [uri for uri in level if uri not in seen and uri not in verdict.objects]
        seen.update(certificates)
        for uri, told in shown(programs, copy, certificates).items():
            if "manifest" in told and "carepository" in told:
                found.append(Authority(uri, told["carepository"], told["manifest"], depth))
        manifests = shown(programs, copy, [it.manifest for it in found if it.manifest not in verdict.points])
        level = []
        for it in found:
            told = manifests.get(it.manifest)
            if told is None:
                yield it
                continue
            files = [file["filename"] for file in told.get("filesandhashes", [])]
            yield it._replace(number=number_of(told), files=files)
            level += [beside(it.manifest, name) for name in files if name.endswith(".cer")]
        depth += 1


def beside(uri: str, name: str) -> str:
    """The file of this name in the folder of the other."""
    return f"{uri.rpartition('/')[0]}/{name}"
