"""What is fetched by rsync, and how much: servers are not trusted to end, to be small or to be few."""
import os
import re
import subprocess
from concurrent.futures import ThreadPoolExecutor
from typing import Dict, Iterable, Iterator, List, NamedTuple, Set

from tree import Authority, Locator

# Names of hosts have a dot, and letters behind the last: no address of a machine or of a local network, no port, no
# user. Modules have plain names, which are no words of rsync.
HOST = r"[a-z0-9]([a-z0-9-]*[a-z0-9])?(\.[a-z0-9]([a-z0-9-]*[a-z0-9])?)*\.[a-z]([a-z0-9-]*[a-z0-9])?"
MODULE = re.compile(rf"(rsync://{HOST}/[A-Za-z0-9_][A-Za-z0-9._-]*/)")
NAMES = [f"*.{end}" for end in ("cer", "crl", "mft", "roa", "asa")]


class Limits(NamedTuple):
    """How much a run may fetch: seconds in all, seconds a module, octets a second of a module (in rsync's words),
    octets of a file, modules in all and such that certificates of one host name, and how many at once."""

    seconds: float = 480
    module_seconds: float = 120
    rate: str = "10m"
    file: int = 16_777_216
    modules: int = 1_000
    of_one_host: int = 200
    at_once: int = 8


class Wanted(NamedTuple):
    """A module, the host of the certificate that names it, and how far below a trust anchor that is."""

    module: str
    named_by: str
    level: int


def module_of(uri: str) -> str:
    """The module that the URI is in; nothing where its names aren't plain."""
    found = MODULE.match(uri)
    return found[1] if found else ""


def host_of(uri: str) -> str:
    return uri.removeprefix("rsync://").partition("/")[0]


def of_locators(locators: Iterable[Locator]) -> Iterator[Wanted]:
    """The modules of trust anchors, which no certificate names."""
    for it in locators:
        for uri in it.uris:
            if module_of(uri):
                yield Wanted(module_of(uri), "", 0)


def of_authorities(found: Iterable[Authority]) -> Iterator[Wanted]:
    """The modules in which authorities publish."""
    for it in found:
        for uri in it.folder, it.manifest:
            if module_of(uri):
                yield Wanted(module_of(uri), host_of(it.certificate), it.level)


class Fetcher:
    """Fetches modules into a folder, each once in a run."""

    def __init__(self, folder: str, log: str, limits: Limits) -> None:
        self.folder, self.log, self.limits = folder, log, limits
        self.tried: Set[str] = set()
        self.failed: List[str] = []
        self.by_host: Dict[str, int] = {}

    def chosen(self, wanted: Iterable[Wanted], most: int) -> List[str]:
        """The modules that are new, those of high levels first, as far as the limits go, and as long as there are fewer
        in all than so many."""
        found: List[str] = []
        for it in sorted(wanted, key=lambda it: it.level):
            count = self.by_host.get(it.named_by, 0)
            if it.module in self.tried or len(self.tried) >= most:
                continue
            if it.named_by and count >= self.limits.of_one_host:
                continue
            self.by_host[it.named_by] = count + 1
            self.tried.add(it.module)
            found.append(it.module)
        return found

    def fetch(self, modules: Iterable[str]) -> None:
        """Fetches the modules, several at once."""
        with ThreadPoolExecutor(self.limits.at_once) as pool:
            for module, status in zip(modules, pool.map(self.fetch_one, modules)):
                if status:
                    self.failed.append(f"{module}: {status}")

    def fetch_one(self, module: str) -> str:
        """Fetches a module; returns why that failed, or nothing. Files and folders are taken, and no links, devices,
        owners or modes. Its time is bounded whatever the server does, and by that and the rate its octets."""
        place = os.path.join(self.folder, *module.removeprefix("rsync://").rstrip("/").split("/"))
        os.makedirs(place, exist_ok=True)
        words = ["rsync", "-rt", "--no-motd", "--chmod=D755,F644", "--delete-delay", "--delay-updates",
                 "--contimeout=10", "--timeout=30", f"--bwlimit={self.limits.rate}", f"--max-size={self.limits.file}",
                 "--include=*/", *(f"--include={it}" for it in NAMES), "--exclude=*", "--prune-empty-dirs", "--",
                 module, place]
        with open(self.log, "ab") as log:
            try:
                ended = subprocess.run(words, stdin=subprocess.DEVNULL, stdout=log, stderr=log, check=False,
                                       timeout=self.limits.module_seconds)
            except subprocess.TimeoutExpired:
                return f"not done in {self.limits.module_seconds:g} s"
        return f"rsync's status {ended.returncode}" if ended.returncode else ""
