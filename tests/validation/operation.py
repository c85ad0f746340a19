"""What an operator writes and reads: words, moments, where a copy has its files, and what is told where."""
import json
import os
import re
import shutil
import subprocess

from counting import holds
from programs import TOP, octets_of
from repositories import AT, TITLES, below, edit, file_of, payloads

ALL = [TITLES, *payloads(below(0)[1:]), ""]
FORMS = "csv, json, stayrtr, rpki-client, openbgpd, openbgpd-origins or bird"
# Words that ask for nothing, and what is said of the first that is wrong.
WRONG = [
    ([], "no --tal"), (["--tal", "a.tal"], "no --cache"), (["--cache", "b"], "no --tal"),
    (["--cache", "b", "--tal", "a.tal", "--form", "xml"], f"--form takes {FORMS}, not xml"),
    (["--form=xml"], f"--form takes {FORMS}, not xml"), (["--form", ""], f"--form takes {FORMS}, not "),
    (["-v"], "unknown option: -v"), (["-V"], "unknown option: -V"), (["--word"], "unknown option: --word"),
    (["--tals", "a"], "unknown option: --tals"), (["--output=x", "--word", "--form", "y"], "unknown option: --word"),
    (["--cache", "b", "--tal", "a", "--cache", "c"], "--cache is given twice"),
    (["--at", AT, "--at=now"], "--at is given twice"), (["--strict", "--strict"], "--strict is given twice"),
    (["--strict=yes"], "--strict takes no value"), (["--quiet=1"], "--quiet takes no value"),
    (["--cache"], "--cache takes a value"), (["--tal", "--cache", "b"], "--tal takes a value"),
    (["--log", "--quiet"], "--log takes a value"), (["--tal", "a", "b", "--depth"], "--depth takes a value"),
    (["a.tal"], "not an option: a.tal"), (["--cache", "b", "c"], "not an option: c"),
    (["--tal=a", "b"], "not an option: b"), (["--tal", "a", "--strict", "b"], "not an option: b"),
]


def run(*words):
    ended = subprocess.run(words, capture_output=True, check=False, timeout=300)
    return ended.returncode, ended.stdout.decode(), ended.stderr.decode()


def wrong_words(program, maker):
    """The first wrong word is named, and how the program is used follows."""
    for words, said in WRONG:
        status, output, faults = run(program.path, *words)
        first, *usage = faults.split("\n")
        holds(f"{' '.join(words)}", (status, output, first) == (2, "", f"rpkivalid: {said}"), faults)
        holds(f"{' '.join(words)}: the usage", len(usage) == 2 and usage[0].startswith("usage: rpkivalid "), faults)


def locators(program, maker):
    """Several names after one --tal; a file that is named twice counts once, and another of its name is refused."""
    folder, there = maker.repository(), os.path.join(maker.room, "there")
    first, again, same = (os.path.join(*it) for it in (
        (folder, "example.tal"), (maker.room, "again.tal"), (there, "example.tal")))
    os.mkdir(there)
    for path in again, same:
        shutil.copyfile(first, path)
    lines = ALL[1:-1]
    both = [TITLES, *lines, *(line.replace("example", "again") for line in lines), ""]
    rest = ["--cache", folder, "--at", AT]
    for name, words, wanted in (
            ("two names", ["--tal", first, again, *rest], both),
            ("two options", ["--tal", first, *rest, "--tal", again], both),
            ("one name twice", ["--tal", first, first, *rest], ALL),
            ("one name in two options", ["--tal", first, "--tal", first, *rest], ALL),
            ("one twice, and another", ["--tal", first, again, first, *rest, "--tal", again], both)):
        status, output, faults = run(program.path, *words)
        holds(f"locators: {name}", (status, output.split("\n")) == (0, wanted), (status, output[:200], faults))
        holds(f"locators: {name}: told once", faults.count("rpkivalid: example: ") == 1, faults)
    shelf, bare = (os.path.join(maker.room, name) for name in ("tals", "bare"))
    for path in shelf, bare:
        os.mkdir(path)
        for name in "README", "a.tal.old", ".hidden.tal":
            shutil.copyfile(first, os.path.join(path, name))
    for name in "example.tal", "again.tal":
        shutil.copyfile(first, os.path.join(shelf, name))
    mixed = [TITLES, *(line.replace("example", "again") for line in lines), *lines, ""]
    for name, words in (("a folder", ["--tal", shelf, *rest]), ("a folder with a slash", [*rest, "--tal", shelf + "/"]),
                        ("a folder twice", ["--tal", shelf, *rest, "--tal", shelf]),
                        ("one of its files before it", ["--tal", os.path.join(shelf, "again.tal"), shelf, *rest])):
        status, output, faults = run(program.path, *words)
        holds(f"locators: {name}", (status, output.split("\n")) == (0, mixed), (status, output[:200], faults))
    status, output, faults = run(program.path, "--tal", bare, first, *rest)
    holds("locators: a folder without one", (status, output, faults) == (
        2, "", f"rpkivalid: {bare}: not read: a folder\nrpkivalid: {bare}: cannot be read\n"), (status, faults))
    status, output, faults = run(program.path, "--tal", first, same, *rest)
    holds("two locators of one name", (status, output, faults) == (
        2, "", f"rpkivalid: {same}: another locator has its name\n"), (status, faults))


def moments(program, maker):
    """A moment is one of RFC 3339, or that of the clock."""
    folder = maker.repository()
    words = [program.path, "--tal", os.path.join(folder, "example.tal"), "--cache", folder]
    for text in (AT, "2026-11-27t12:00:00z", "2026-11-27T13:00:00+01:00", "2026-11-27T06:30:00-05:30",
                 "2026-11-27T12:00:00-00:00", "now"):
        status, output, faults = run(*words, "--at", text)
        holds(f"--at {text}", (status, output.split("\n")) == (0, ALL), (status, faults))
    status, output, _ = run(*words, "--at", "9999-12-31T23:59:59Z")
    holds("--at the last moment", (status, output) == (2, ""), (status, output[:99]))
    for text in ("", "Now", "2026-11-27T12:00:60Z", "2026-11-27T12:00:00Z[UTC]", "2026-11-27 12:00:00Z",
                 "20261127T120000Z", "2026-11-27T12:00Z", "2026-11-27T12:00:00", "2026-11-27T12:00:00.5Z",
                 "2026-11-27T12:00:00+01", "2026-11-27", "2026-02-29T12:00:00Z", "2026-11-27T24:00:00Z",
                 "2026-13-27T12:00:00Z", "@1", "yesterday"):
        status, output, faults = run(*words, "--at", text)
        said = "rpkivalid: --at takes a moment such as 2026-11-27T12:00:00Z, or now\n"
        holds(f"--at {text}: refused", (status, output, faults) == (2, "", said), (status, faults))


def anchors(program, maker):
    """A trust anchor by an rsync URI is at the place of an object, or, where there is nothing, in ta/NAME, as
    rpki-client keeps it."""
    def at_ta(folder, move=True):
        place = os.path.join(folder, "ta", "example")
        os.makedirs(place)
        (shutil.move if move else shutil.copyfile)(file_of(folder, 0, "ca0.cer"), os.path.join(place, "ca0.cer"))
        return place

    def both(folder):
        edit(os.path.join(at_ta(folder, move=False), "ca0.cer"), b"other")

    def of_another(folder):
        os.rename(at_ta(folder), os.path.join(folder, "ta", "other"))
    for name, change, wanted in (("in ta alone", at_ta, ALL), ("in both, the place of an object first", both, ALL),
                                 ("in the folder of another locator", of_another, None)):
        status, output, faults = program.run(maker.changed(change))
        holds(f"a trust anchor {name}", (status, output) == ((0, "\n".join(wanted)) if wanted else (2, "")),
              (status, faults[:300]))


def hosts(program, maker):
    """A host's folder has small letters, or, where there is no such file, capitals; a host `ta` has none in ta."""
    for host, folder_name, wanted in (("RPKI.Example", "rpki.example", ALL), ("RPKI.Example", "RPKI.Example", ALL),
                                      ("rpki.example", "RPKI.EXAMPLE", ALL), ("rpki.example", "rpki.example.", None)):
        folder = maker.changed(lambda it, name=folder_name: os.rename(
            os.path.join(it, "rpki.example"), os.path.join(it, name)), URIHOST=host)
        status, output, faults = program.run(folder)
        holds(f"the host {host} in {folder_name}", (status, output) == ((0, "\n".join(wanted)) if wanted else (2, "")),
              (status, faults[:300]))

    def in_ta(folder):
        os.rename(os.path.join(folder, "rpki.example"), os.path.join(folder, "ta"))
        os.mkdir(os.path.join(folder, "ta", "example"))
        shutil.move(os.path.join(folder, "ta", "repo", "d0", "ca0.cer"), os.path.join(folder, "ta", "example"))
    for name, change, wanted in (
            ("ta", in_ta, [TITLES, ""]),
            ("ta.", lambda it: os.rename(os.path.join(it, "rpki.example"), os.path.join(it, "ta.")), ALL)):
        status, output, faults = program.run(maker.changed(change, URIHOST="ta"))
        holds(f"a host ta in the folder {name}", (status, output.split("\n")) == (0, wanted), (status, faults[:300]))


def told(program, maker):
    """What standard error and a log are told of runs that end well, of one that doesn't, and of none."""
    folder, log = maker.repository(BADROA="1"), os.path.join(maker.room, "log")
    _, output, all_of = program.run(folder)
    holds("what is told", all_of.count("rsync://") == 6 and all_of.endswith(" router keys\n"), all_of)
    status, seen, faults = program.run(folder, "--quiet")
    holds("--quiet: a run that ends well", (status, seen, faults) == (0, output, ""), (status, faults))
    other = os.path.join(maker.room, "other.tal")
    lines = octets_of(os.path.join(folder, "example.tal")).decode().split("\n")
    edit(other, "\n".join([lines[0].replace("ca0.cer", "none.cer"), *lines[1:]]).encode())
    _, _, loud = program.run(folder, "--tal", other)
    few = "".join(line for line in loud.splitlines(True) if line.startswith("rpkivalid: "))
    status, seen, faults = program.run(folder, "--tal", other, "--quiet")
    is_few = (status, seen, faults) == (1, output, few)
    holds("--quiet: a locator without a trust anchor", is_few, (status, faults))
    holds("which is told", "rpkivalid: other: no trust anchor: " in few and "rsync://" not in few.split("\n")[1], few)
    status, _, faults = program.run(folder, "--quiet", "--least", "1000")
    said = "rpkivalid: fewer route origins than --least asks for: nothing is written\n"
    holds("--quiet: nothing is written", status == 2 and faults == said, (status, faults))
    edit(log, b"before\n")
    status, seen, faults = program.run(folder, "--log", log)
    holds("--log: a run that ends well", (status, seen, faults) == (0, output, ""), (status, faults))
    status, seen, faults = program.run(folder, "--log", log, "--tal", other)
    holds("--log: one that doesn't", (status, seen, faults) == (1, output, few), (status, faults))
    moment = r"rpkivalid [0-9.]+ \d{4}-\d\d-\d\dT\d\d:\d\d:\d\dZ\n"
    wanted = f"before\n{moment}{re.escape(all_of)}{moment}{re.escape(loud)}"
    holds("the log has all of both", re.fullmatch(wanted, octets_of(log).decode()), octets_of(log))
    for name, words, said in (
            ("a folder", ["--log", maker.room], f"{maker.room}: cannot be written"),
            ("the output's file", ["--log", log, "--output", log], f"{log}: is the output's file too"),
            ("the metrics' file", ["--log", log, "--metrics", log], f"{log}: is the metrics' file too"),
            ("a device that is full", ["--log", "/dev/full"], "/dev/full: cannot be written")):
        status, seen, faults = program.run(folder, *words)
        holds(f"--log: {name}", (status, seen, faults) == (2, "", f"rpkivalid: {said}\n"), (status, faults))


def crontab(program, maker):
    """The example of a crontab, with other folders, writes a list and a log, and tells cron nothing."""
    folder, at = maker.repository(), {it: os.path.join(maker.room, it) for it in ("tals", "lists", "log")}
    for name in "tals", "lists":
        os.mkdir(at[name])
    for name in "one", "two":
        shutil.copyfile(os.path.join(folder, "example.tal"), os.path.join(at["tals"], f"{name}.tal"))
    text = octets_of(os.path.join(TOP, "examples", "crontab")).decode()
    for old, new in (("/etc/tals", at["tals"]), ("/var/cache/rpki-client", folder), ("/var/lib/rpkivalid", at["lists"]),
                     ("/var/log/rpkivalid.log", at["log"])):
        holds(f"the crontab names {old}", text.count(old) == 1, text)
        text = text.replace(old, new)
    *settings, last = [line for line in text.splitlines() if not line.startswith("#")]
    command = re.fullmatch(r"10,40 \* \* \* \* rpkivalid (.*)", last)
    environment = {name: value.strip('"') for name, value in (line.split("=", 1) for line in settings)}
    ended = subprocess.run(["sh", "-c", f"{program.path} {command[1]}"], capture_output=True, check=False,
                           env={**os.environ, **environment})
    holds("the crontab's run", (ended.returncode, ended.stdout, ended.stderr) == (0, b"", b""), ended)
    made = json.loads(octets_of(os.path.join(at["lists"], "vrps.json")))
    holds("the crontab's list", len(made["roas"]) == 2 * len(ALL[1:-1]), len(made["roas"]))
    log = octets_of(at["log"]).decode()
    holds("the crontab's log", [f"rpkivalid: {it}: " in log for it in ("one", "two")] == [True, True], log)


OPERATION = [wrong_words, locators, moments, anchors, hosts, told, crontab]
