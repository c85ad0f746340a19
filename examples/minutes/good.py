"""The points that counted last. Where what was fetched of an authority is incomplete, malformed, stale or older, what
counted last counts as long as it is current (RFC 9286 4.2.1, 6.6): no number has to be remembered, since the files are.
They are hard links, so that they take no room twice; rsync replaces files, and never writes into one."""
import os
import shutil
from typing import Dict, Iterable, List, NamedTuple, Set

from tree import (
    Authority, Locator, Programs, Verdict, authorities, beside, is_there, number_of, path_in, shown, validated_each,
)


class Choice(NamedTuple):
    """What is chosen: the verdict on it, its authorities, and what was put back, with why."""

    verdict: Verdict
    found: List[Authority]
    back: Dict[str, str]


def link(source: str, target: str) -> None:
    os.makedirs(os.path.dirname(target), exist_ok=True)
    if os.path.lexists(target):
        os.remove(target)
    os.link(source, target)


def link_all(source: str, target: str) -> None:
    """The folder again, by hard links."""
    shutil.rmtree(target, ignore_errors=True)
    if os.path.isdir(source):
        shutil.copytree(source, target, copy_function=os.link)


class Copies:
    """What was fetched, what counted last, and the choice of both that is validated."""

    def __init__(self, state: str, programs: Programs, locators: Iterable[Locator]) -> None:
        self.fetched, self.good, self.use = (os.path.join(state, name) for name in ("fetched", "good", "use"))
        self.programs, self.locators = programs, list(locators)
        if not os.path.isdir(self.good) and os.path.isdir(self.good + ".old"):
            os.rename(self.good + ".old", self.good)  # a run ended between the two

    def take(self, folder: str, uri: str) -> None:
        """Takes an object from a copy, or a point: its manifest, and the files that it lists."""
        told = shown(self.programs, folder, [uri]).get(uri, {})
        for it in (uri, *(beside(uri, file["filename"]) for file in told.get("filesandhashes", []))):
            if is_there(folder, it):
                link(path_in(folder, it), path_in(self.use, it))

    def choose(self) -> Choice:
        """What was fetched; and of each trust anchor and authority, as long as something changes, what counted last,
        where that is rejected, or has a lower number. What was older and is rejected as well is as it was fetched."""
        link_all(self.fetched, self.use)
        back: Dict[str, str] = {}
        ended: Set[str] = set()
        while True:
            verdict = validated_each(self.programs, self.use, self.locators)
            found = list(authorities(self.programs, self.use, self.locators, verdict))
            stale = [it for it in back if back[it] == "older" and it in verdict.points and it not in ended]
            ended.update(stale)
            for uri in stale:
                self.take(self.fetched, uri)
            new = {} if stale else self.due(found, verdict, back)
            back.update(new)
            for uri in new:
                self.take(self.good, uri)
            if not stale and not new:
                return Choice(verdict, found, {it: why for it, why in back.items() if it not in ended})

    def due(self, found: Iterable[Authority], verdict: Verdict, back: Dict[str, str]) -> Dict[str, str]:
        """What of these authorities has to be put back, and why."""
        anchors = (uri for it in self.locators if it.name in verdict.locators for uri in it.uris)
        due = {uri: "rejected" for uri in anchors if uri not in back and is_there(self.good, uri)}
        asked = {it.manifest: it for it in found if it.manifest not in back and is_there(self.good, it.manifest)}
        for manifest, told in shown(self.programs, self.good, asked).items():
            number, last = asked[manifest].number, number_of(told)
            if manifest in verdict.points:
                due[manifest] = "rejected"
            elif number is not None and last is not None and number < last:
                due[manifest] = "older"
        return due

    def keep(self, choice: Choice) -> None:
        """Keeps what counts: trust anchors, and each point with its files."""
        kept, old = self.good + ".new", self.good + ".old"
        for folder in kept, old:
            shutil.rmtree(folder, ignore_errors=True)
        os.makedirs(kept)
        points = [it for it in choice.found if it.number is not None]
        objects = [uri for it in points for uri in (it.manifest, *(beside(it.manifest, name) for name in it.files))]
        for uri in [*(uri for it in self.locators for uri in it.uris), *objects]:
            if is_there(self.use, uri):
                link(path_in(self.use, uri), path_in(kept, uri))
        if os.path.isdir(self.good):
            os.rename(self.good, old)
        os.rename(kept, self.good)
        shutil.rmtree(old, ignore_errors=True)
