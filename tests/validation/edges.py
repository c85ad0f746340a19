"""What lies between the program and its machine: a copy that is hostile, outputs that are no plain files, and the
clock."""
import contextlib
import datetime
import os
import re
import resource
import shutil
import signal
import stat
import subprocess
import threading
import time

from counting import holds
from programs import octets_of
from repositories import AT, TITLES, below, edit, file_of, payloads
from shim import compiled

# How many octets a file of a copy has at most.
MOST = 16_777_216
ALL = payloads(below(0)[1:])
# Those that are left where authority 2 publishes nothing that counts.
LEFT = payloads(it for it in below(0)[1:] if it not in below(2))
LIST, REST = [TITLES, *ALL, ""], [TITLES, *LEFT, ""]


def object_of(folder):
    return file_of(folder, 2, "r0.roa")


def as_fifo(path, _):
    os.remove(path)
    os.mkfifo(path)


def as_folder(path, _):
    os.remove(path)
    os.mkdir(path)


def as_large(path, _):
    os.truncate(path, MOST + 1)


def as_largest(path, _):
    os.truncate(path, MOST)


def linked_to(target):
    def change(path, _):
        os.remove(path)
        os.symlink(target, path)
    return change


def out_of_the_copy(path, room):
    shutil.move(path, os.path.join(room, "outside"))
    os.symlink(os.path.join(room, "outside"), path)


def folder_out_of_the_copy(path, room):
    outside = os.path.join(room, "elsewhere")
    shutil.move(os.path.dirname(path), outside)
    os.symlink(outside, os.path.dirname(path))


def folder_within_the_copy(path, _):
    shutil.move(os.path.dirname(path), os.path.dirname(path) + ".kept")
    os.symlink(os.path.basename(os.path.dirname(path)) + ".kept", os.path.dirname(path))


def into_another_folder(path, _):
    other = os.path.join(os.path.dirname(os.path.dirname(path)), "kept")
    os.mkdir(other)
    shutil.move(path, other)
    os.symlink(os.path.join("..", "kept", os.path.basename(path)), path)


def through_a_file(path, _):
    shutil.rmtree(os.path.dirname(path))
    edit(os.path.dirname(path), b"no folder")


def within_the_copy(path, _):
    shutil.move(path, path + ".kept")
    os.symlink(os.path.basename(path) + ".kept", path)


COPIES = [
    ("a FIFO", as_fifo, REST, "not read: no regular file"),
    ("a folder", as_folder, REST, "not read: a folder"),
    ("a file that is too large", as_large, REST, "not read: too large"),
    ("the largest file, of other octets", as_largest, REST, None),
    ("a path through a file", through_a_file, REST, None),
    ("a link to what never ends", linked_to("/dev/zero"), REST, "not read: no regular file"),
    ("a link that leads nowhere", linked_to("none"), REST, None),
    ("a link to itself", linked_to("r0.roa"), REST, "not read: a loop of links"),
    ("a link out of the copy", out_of_the_copy, REST, "not read: a link out of the copy"),
    ("a folder out of the copy", folder_out_of_the_copy, REST, "not read: a link out of the copy"),
    ("a link in its folder", within_the_copy, LIST, None),
    ("a link to another folder", into_another_folder, REST, "not read: a link to another folder"),
    ("a folder that is a link", folder_within_the_copy, REST, "not read: a link to another folder"),
]


def hostile(program, maker):
    """Whatever stands in place of an object, the run ends, the others' payloads are there, and it is told why."""
    for name, change, wanted, said in COPIES:
        with contextlib.suppress(FileNotFoundError):
            shutil.rmtree(os.path.join(maker.room, "elsewhere"))
        folder = maker.changed(lambda it, change=change: change(object_of(it), maker.room))
        status, output, faults = program.run(folder)
        holds(f"{name}: the others count", (status, output.split("\n")) == (0, wanted), (status, output[:200]))
        told = [line for line in faults.split("\n") if line.startswith(f"rpkivalid: {folder}/")]
        whole = change in (folder_out_of_the_copy, folder_within_the_copy)
        first = file_of(folder, 2, "m.mft") if whole else object_of(folder)
        due = [f"rpkivalid: {first}: {said}"] if said else []
        holds(f"{name}: what is told", told == due, faults[:300])
    again = os.path.join(maker.room, "again.tal")
    shutil.copyfile(os.path.join(folder, "example.tal"), again)
    folder = maker.changed(lambda it: as_folder(object_of(it), maker.room))
    _, _, faults = program.run(folder, "--tal", again)
    said = f"rpkivalid: {object_of(folder)}: not read: a folder\n"
    holds("what two locators meet is told once", faults.count(said) == 1, faults[:300])
    folder, nowhere = maker.repository(), os.path.join(maker.room, "nowhere")
    locator, file = os.path.join(folder, "example.tal"), os.path.join(maker.room, "kept.csv")
    edit(file, b"yesterday's")
    words = [program.path, "--tal", locator, "--cache", nowhere, "--at", AT, "--output", file]
    ended = subprocess.run(words, capture_output=True, check=False)
    holds("a copy that isn't there: told", f"rpkivalid: {nowhere}: no such folder\n" in ended.stderr.decode(), ended)
    holds("a copy that isn't there: the old list stays", (ended.returncode, octets_of(file)) == (2, b"yesterday's"))


def real_sizes(program, maker):
    """An authority that publishes as much as large ones do: its manifest has more than 65,536 octets."""
    count = 1500
    folder = maker.repository(1, 1, count)
    size = os.path.getsize(file_of(folder, 1, "m.mft"))
    holds("a manifest of more than 65,536 octets", size > 65536, size)
    program.holds("a large manifest", folder, payloads([1], count), 0)


def unreadable(program, maker):
    """A file that may not be read is told as such; it doesn't count."""
    folder, words = maker.changed(lambda it: os.chmod(object_of(it), 0)), []
    if os.geteuid() == 0:
        words = ["setpriv", "--reuid=65534", "--regid=65534", "--clear-groups"]
        path = maker.room
        while path != os.path.dirname(path):
            if path.startswith("/tmp/"):
                os.chmod(path, 0o755)
            path = os.path.dirname(path)
    asked = [*words, program.path, "--tal", os.path.join(folder, "example.tal"), "--cache", folder, "--at", AT]
    ended = subprocess.run(asked, capture_output=True, check=False)
    seen, faults = ended.stdout.decode().split("\n"), ended.stderr.decode()
    holds("no permission: the others count", (ended.returncode, seen) == (0, REST), (ended.returncode, faults[:300]))
    due = f"rpkivalid: {object_of(folder)}: cannot be read: permission denied\n"
    holds("no permission: told", due in faults, faults[:300])


def failing(program, maker):
    """A file of which the system fails to read, as of a process's memory, in a mount of the test's own: that is told,
    and is the run's status, since no one who publishes can choose it."""
    apart = ["unshare", "--map-root-user", "--mount"]
    if subprocess.run([*apart, "true"], stderr=subprocess.DEVNULL, check=False).returncode != 0:
        return
    folder = maker.changed(None)
    bound = [*apart, "sh", "-c", 'mount --bind "/proc/$$/mem" "$0" && exec "$@"', object_of(folder)]
    ended = subprocess.run([*bound, *program.words(folder)], capture_output=True, check=False)
    seen, faults = ended.stdout.decode().split("\n"), ended.stderr.decode()
    is_rest = (ended.returncode, seen) == (1, REST)
    holds("a file that fails: the others count", is_rest, (ended.returncode, faults[:300]))
    holds("a file that fails: told", f"rpkivalid: {object_of(folder)}: cannot be read\n" in faults, faults[:300])


class Place:
    """A folder for outputs, and what a run leaves there."""

    def __init__(self, program, maker, name):
        self.program, self.folder = program, maker.repository()
        self.room = os.path.join(maker.room, f"outputs of {name}")
        os.mkdir(self.room)

    def at(self, name):
        return os.path.join(self.room, name)

    def run(self, *words):
        status, output, faults = self.program.run(self.folder, *words)
        return status, output, faults

    def left(self):
        return sorted(os.listdir(self.room))


def is_list(path):
    return octets_of(path).decode().split("\n") == LIST


def plain_outputs(program, maker):
    """Files: new ones, old ones with their modes, links, and what may stand beside them."""
    here = Place(program, maker, "plain")
    for mode in 0o600, 0o640:
        edit(here.at("old"), b"before")
        os.chmod(here.at("old"), mode)
        status, _, _ = here.run("--output", here.at("old"))
        seen = stat.S_IMODE(os.stat(here.at("old")).st_mode)
        holds(f"the mode {mode:o} is kept", (status, seen) == (0, mode) and is_list(here.at("old")), oct(seen))
    with contextlib.suppress(PermissionError):
        os.chown(here.at("old"), 4321, 1234)
        status, _, _ = here.run("--output", here.at("old"))
        seen = os.stat(here.at("old"))
        holds("the owner is kept", (status, seen.st_uid, seen.st_gid) == (0, 4321, 1234), seen)
    os.symlink("old", here.at("link"))
    edit(here.at("old"), b"before")
    status, _, _ = here.run("--output", here.at("link"))
    holds("a link is followed", status == 0 and os.path.islink(here.at("link")) and is_list(here.at("old")))
    edit(here.at("victim"), b"victim")
    os.symlink(here.at("victim"), here.at("fresh.new"))
    status, _, _ = here.run("--output", here.at("fresh"))
    victim = octets_of(here.at("victim"))
    holds("what is beside stays", status == 0 and victim == b"victim" and is_list(here.at("fresh")), victim)
    holds("the output is a file", not os.path.islink(here.at("fresh")))
    status, output, _ = here.run("--output", "-")
    holds("- is standard output", (status, output.split("\n")) == (0, LIST) and not os.path.exists("-"))
    status, output, _ = here.run("--output", "/proc/self/fd/1")
    holds("a pipe is written to", (status, output.split("\n")) == (0, LIST))
    holds("nothing else is there", here.left() == ["fresh", "fresh.new", "link", "old", "victim"], here.left())


def refused_outputs(program, maker):
    """What can't be written, and two outputs of one file: nothing is written, and that alone is told, before a run."""
    here = Place(program, maker, "refused")
    os.symlink("nowhere", here.at("dangling"))
    os.mkdir(here.at("folder"))
    edit(here.at("one"), b"one")
    edit(here.at("two"), b"two")
    os.link(here.at("one"), here.at("hard"))
    os.symlink("one", here.at("soft"))
    left = here.left()
    for name, output, metrics, said in (
            ("a folder", "folder", None, "folder: cannot be written"),
            ("a link that leads nowhere", "dangling", None, "dangling: cannot be written"),
            ("a folder beside metrics", "folder", "two", "folder: cannot be written"),
            ("metrics that are a folder", "two", "folder", "folder: cannot be written"),
            ("one name for both", "one", "one", "one: is the output's file too"),
            ("one name for both, spelled otherwise", "one", "./one", "one: is the output's file too"),
            ("one new name for both", "new", "./new", "new: is the output's file too"),
            ("two names of one file", "one", "hard", "hard: is the output's file too"),
            ("a link to the other", "one", "soft", "soft: is the output's file too")):
        words = ["--output", here.at(output), *(["--metrics", here.at(metrics)] if metrics else [])]
        status, printed, faults = here.run(*words)
        is_alone = faults.startswith("rpkivalid: ") and faults.endswith(f"{said}\n") and faults.count("\n") == 1
        holds(name, (status, printed) == (2, "") and is_alone, (status, faults))
        kept = [octets_of(here.at(it)) for it in ("one", "two")]
        holds(f"{name}: all is as it was", (kept, here.left()) == ([b"one", b"two"], left), here.left())


def flushed(program, maker):
    """Each file is on the disk before it takes its place, and its folder is after that."""
    here = Place(program, maker, "flushed")
    notes, flush = here.at("notes"), compiled("flush.c", maker.room)
    status, _, faults = program.run(here.folder, "--output", here.at("list"), "--metrics", here.at("metrics"),
                                    LD_PRELOAD=flush, NOTES=notes)
    seen = re.sub(r"\.\d+\.\d+\.new\b", ".new", octets_of(notes).decode()).split("\n") if status == 0 else []
    both = [(f"{here.at(it)}.new", here.at(it)) for it in ("list", "metrics")]
    renamed = [line for new, old in reversed(both) for line in (f"rename {new} {old}", f"flush {here.room}")]
    holds("flushed, then renamed", seen == [*(f"flush {new}" for new, _ in both), *renamed, ""], (status, seen, faults))


def full_disk(program, maker):
    """A file that can't be written to its end: the old one stays, nothing stays beside it, and it is told."""
    here = Place(program, maker, "disk")

    def bounded():
        signal.signal(signal.SIGXFSZ, signal.SIG_IGN)
        resource.setrlimit(resource.RLIMIT_FSIZE, (40, 40))
    for words in ["--output"], ["--metrics"], ["--metrics", here.at("other"), "--output"]:
        edit(here.at("old"), b"before")
        asked = program.words(here.folder, *words, here.at("old"))
        ended = subprocess.run(asked, capture_output=True, check=False, preexec_fn=bounded)
        told = ended.stderr.decode().endswith("cannot be written\n")
        holds(f"a disk that is full, {words}", (ended.returncode, ended.stdout, told) == (2, b"", True), ended)
        holds(f"a disk that is full, {words}: all is as it was",
              (octets_of(here.at("old")), here.left()) == (b"before", ["old"]), here.left())
    room = len("\n".join(LIST)) + 1

    def for_the_list():
        signal.signal(signal.SIGXFSZ, signal.SIG_IGN)
        resource.setrlimit(resource.RLIMIT_FSIZE, (room, room))
    asked = program.words(here.folder, "--output", here.at("old"), "--metrics", here.at("other"))
    ended = subprocess.run(asked, capture_output=True, check=False, preexec_fn=for_the_list)
    said = f"rpkivalid: {here.at('other')}: cannot be written\n".encode()
    holds("a disk with room for the list alone", (ended.returncode, ended.stderr.endswith(said)) == (2, True), ended)
    holds("a disk with room for the list alone: all is as it was",
          (octets_of(here.at("old")), here.left()) == (b"before", ["old"]), here.left())


def special_outputs(program, maker):
    """A FIFO has the list, and stays; a device, of the test's own, as well."""
    here, seen = Place(program, maker, "special"), []
    os.mkfifo(here.at("fifo"))
    reader = threading.Thread(target=lambda: seen.append(octets_of(here.at("fifo"))))
    reader.start()
    status, _, _ = here.run("--output", here.at("fifo"))
    reader.join(30)
    holds("a FIFO has the list", status == 0 and seen == ["\n".join(LIST).encode()], seen[:1])
    holds("a FIFO stays", stat.S_ISFIFO(os.lstat(here.at("fifo")).st_mode))
    with contextlib.suppress(PermissionError):
        os.mknod(here.at("null"), stat.S_IFCHR | 0o666, os.makedev(1, 3))
        os.mknod(here.at("full"), stat.S_IFCHR | 0o666, os.makedev(1, 7))
        for name, wanted in ("null", 0), ("full", 2):
            for option in "--output", "--metrics":
                status, _, faults = here.run(option, here.at(name))
                told = wanted == 0 or f"{here.at(name)}: cannot be written\n" in faults
                holds(f"{option}: the device {name}", status == wanted and told, (status, faults))
                holds(f"{option}: {name} stays a device", stat.S_ISCHR(os.lstat(here.at(name)).st_mode))
        status, _, faults = here.run("--output", here.at("full"), "--metrics", here.at("metrics"))
        holds("metrics without a list", status == 3 and os.path.isfile(here.at("metrics")), (status, faults))
        holds("which is told", f"{here.at('full')}: cannot be written; the metrics are\n" in faults, faults)
        os.remove(here.at("metrics"))
    left = [it for it in here.left() if it not in ("fifo", "null", "full")]
    holds("nothing stays beside what is no file", left == [], left)
    with open("/dev/full", "wb") as full:
        words = [program.path, "--tal", "none", "--cache", here.room, "--at", AT]
        status = subprocess.run(words, stdout=subprocess.DEVNULL, stderr=full, check=False).returncode
        holds("standard error that is full", status == 2, status)
        words = program.words(here.folder, "--output", here.at("untold"))
        ended = subprocess.run(words, stdout=subprocess.PIPE, stderr=full, check=False)
        is_kept = (ended.returncode, ended.stdout, os.path.exists(here.at("untold"))) == (2, b"", False)
        holds("standard error that is full, where all is well: nothing is written", is_kept, ended)
        words = [program.path, "--tal", os.path.join(here.folder, "example.tal"), "--cache", here.folder, "--at", AT]
        words += ["--metrics", here.at("metrics")]
        ended = subprocess.run(words, stdout=full, stderr=subprocess.PIPE, check=False)
        told = ended.stderr.decode().endswith("rpkivalid: standard output: cannot be written; the metrics are\n")
        holds("standard output that is full, beside metrics", ended.returncode == 3 and told, ended)
        up = os.path.join(here.folder, "..", os.path.basename(here.folder), "example.tal")
        words = [program.path, "--tal", up, "--cache", here.folder, "--at", AT]
        ended = subprocess.run(words, capture_output=True, check=False)
        holds("a locator above the copy", ended.returncode == 0, ended.stderr)


def fifos(program, maker):
    """A FIFO that is named in order to be read is refused, and no run waits for who writes to it. To one that is named
    as the output, the metrics or the log the run writes, and waits for who reads it."""
    here = Place(program, maker, "FIFOs")
    fifo = here.at("fifo")
    os.mkfifo(fifo)
    said = f"rpkivalid: {fifo}: not read: no regular file\nrpkivalid: {fifo}: cannot be read\n"
    for option in "--tal", "--exceptions", "--compare":
        words = program.words(here.folder, option, fifo)
        try:
            ended = subprocess.run(words, capture_output=True, check=False, timeout=60)
            seen = ended.returncode, ended.stdout, ended.stderr.decode()
        except subprocess.TimeoutExpired:
            seen = "waits"
        holds(f"a FIFO of {option}", seen == (2, b"", said), seen)
    for option in "--output", "--metrics", "--log":
        seen = []
        with subprocess.Popen(program.words(here.folder, option, fifo), stdout=subprocess.PIPE,
                              stderr=subprocess.PIPE) as run:
            if option != "--log":
                told = run.stderr.readline()
                holds(f"a FIFO of {option}: the run comes to it", told.startswith(b"rpkivalid: example: "), told)
            reader = threading.Thread(target=lambda: seen.append(octets_of(fifo)), daemon=True)
            reader.start()
            output, _ = run.communicate(timeout=60)
            reader.join(60)
        begins = {"--output": TITLES, "--metrics": "# TYPE rpkivalid", "--log": "rpkivalid "}[option].encode()
        is_whole = (output.decode().split("\n") == LIST) == (option != "--output")
        is_right = run.returncode == 0 and is_whole and len(seen) == 1 and seen[0].startswith(begins)
        holds(f"a FIFO of {option}", is_right, (run.returncode, output[:99], seen))
        holds(f"a FIFO of {option} stays", stat.S_ISFIFO(os.lstat(fifo).st_mode))


def at_once(program, maker):
    """Two runs at once to one file: one of both lists is there, whole."""
    here = Place(program, maker, "two")
    forms = {it: here.run("--form", it)[1].encode() for it in ("csv", "openbgpd")}
    run = [program.path, "--tal", os.path.join(here.folder, "example.tal"), "--cache", here.folder, "--at", AT]
    for turn in range(20):
        both = [subprocess.Popen([*run, "--form", form, "--output", here.at("list")], stderr=subprocess.DEVNULL)
                for form in forms]
        ended = [it.wait() for it in both]
        holds(f"two runs at once, {turn}", ended == [0, 0] and octets_of(here.at("list")) in forms.values(), ended)
    holds("nothing stays beside two runs", here.left() == ["list"], here.left())


def stamp(days):
    """A moment so many days from now, as generate.c takes one."""
    now = datetime.datetime.now(datetime.timezone.utc)
    return (now + datetime.timedelta(days=days)).strftime("%y%m%d%H%M%SZ")


def clock(program, maker):
    """Without --at the moment is the clock's: a list that ends in a day is in force, and one that ended a day ago
    isn't. A run has the moment in which it began, and what it took by the clock when it ends."""
    for name, days, wanted in ("ends in a day", 1, LIST), ("ended a day ago", -1, REST):
        folder = maker.repository(LISTUNTIL=stamp(days), LISTOF="2")
        words = [program.path, "--tal", os.path.join(folder, "example.tal"), "--cache", folder]
        ended = subprocess.run(words, capture_output=True, check=False)
        seen = ended.stdout.decode().split("\n")
        holds(f"by the clock: a list that {name}", (ended.returncode, seen) == (0, wanted), (seen[:5], ended.stderr))
    file, late, begun = os.path.join(maker.room, "counts"), compiled("late.c", maker.room), int(time.time())
    status, _, faults = program.run(maker.repository(), "--metrics", file, LD_PRELOAD=late)
    made, took = (int(re.search(rf"^rpkivalid_{name}_seconds (\d+)$", octets_of(file).decode(), re.M)[1])
                  for name in ("made", "duration"))
    holds("the clock's moment is that of the begin", status == 0 and begun <= made <= time.time(), (made, faults))
    holds("how long a run took", 100 <= took <= 100 + time.time() - begun + 1, took)


def least(program, maker):
    """Fewer route origins than are asked for: the old list stays, and it is told."""
    folder, file = maker.repository(), os.path.join(maker.room, "least.csv")
    for number, wanted in (0, 0), (len(ALL), 0), (len(ALL) + 1, 2), ("4294967295", 2), ("4294967296", 2), ("x", 2):
        edit(file, b"before")
        status, _, faults = program.run(folder, "--output", file, "--least", str(number))
        holds(f"--least {number}", status == wanted and is_list(file) == (wanted == 0), (status, faults[-200:]))
        if wanted == 2:
            is_number = str(number).isdigit() and int(number) < 2**32
            few, no_number = "fewer route origins than --least asks for", "--least takes a number below 4294967296"
            said = few if is_number else no_number
            holds(f"--least {number}: told", octets_of(file) == b"before" and said in faults, faults[-200:])


EDGES = [hostile, real_sizes, unreadable, failing, plain_outputs, refused_outputs, flushed, full_disk,
         special_outputs, fifos, at_once, clock, least]
