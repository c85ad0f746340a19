"""Folders, whose files rpkicert prints by `-r` as if each had been named, in the order of their paths."""
import json
import os
import shutil
import stat
import subprocess
import threading

from fields import verdict
from files import FOLDER, MOST
from makers import authority
from programs import octets_of, ran, write


def made(folder, files):
    """A new folder with these files, by their paths in it."""
    shutil.rmtree(folder, ignore_errors=True)
    for path, octets in files.items():
        path = os.path.join(folder, path)
        os.makedirs(os.path.dirname(path), exist_ok=True)
        with open(path, "wb") as file:
            file.write(octets)
    return folder


def recursive(program, folder):
    """What is printed of folders is what is printed of each of their files, as `sorted` has their paths."""
    paths = authority.paths(folder)
    ta, ca, pem = (octets_of(paths["ta"] + ".der"), octets_of(paths["ca"] + ".der"), octets_of(paths["ta"] + ".pem"))
    inside = {"b.cer": ca, "a/z.cer": ta, "a/b/c/d.pem": pem, "a.cer": ta, "a-b/x.cer": ca, "\u00e4.cer": ca,
              "z/.hidden": ta, "z/empty": b"", "z/text": b"hello"}
    top = made(os.path.join(folder, "tree"), inside)
    os.mkdir(os.path.join(top, "none"))
    names = sorted((os.path.join(top, path) for path in inside), key=os.fsencode)
    for words in [], ["--check"], ["--json"], ["--json", "--check"], ["--check", "--profile", "auto"]:
        yield f"a folder {words}", ran(program, "-r", *words, top), ran(program, *words, *names)
    yield "the long word", ran(program, "--recursive", "--check", top), ran(program, "--check", *names)
    slash = [os.path.join(top, "", os.path.relpath(name, top)) for name in names]
    yield "a name that ends with a slash", ran(program, "-r", "--check", top + "/"), ran(program, "--check", *slash)
    anchor = paths["ta"] + ".der"
    yield "a file, a folder and a file", ran(program, "-r", "--check", anchor, top, anchor), ran(
        program, "--check", anchor, *names, anchor)
    yield "a file", ran(program, "-r", "--check", anchor), (0, f"{anchor}: {verdict(anchor)}\n".encode(), b"")
    yield "standard input", ran(program, "-r", "--check", "-", octets=ta), (0, b"-: OK\n", b"")
    empty = os.path.join(top, "none")
    for words in [], ["--check"], ["--json"]:
        yield f"an empty folder {words}", ran(program, "-r", *words, empty), (0, b"", b"")
    lost = os.path.join(folder, "lost")
    yield "no folder", ran(program, "-r", lost), (
        2, b"", f"rpkicert: {lost}: cannot be read: No such file or directory\n".encode())
    seen = ran(program, top)
    yield "a folder without -r", seen, (2, b"", f"rpkicert: {top}: cannot be read: {FOLDER}\n".encode())
    issued = ran(program, "-r", "--check", "--issuer", anchor, os.path.join(top, "a"))
    yield "an issuer", issued, ran(program, "--check", "--issuer", anchor, *[
        name for name in names if name.startswith(os.path.join(top, "a", ""))])
    link = os.path.join(top, "zz")
    os.symlink("a", link)
    seen = ran(program, "-r", "--check", os.path.join(top, "none"), link)
    yield "a link to a folder that is named", seen, ran(program, "--check", *[
        os.path.join(link, path) for path in ("b/c/d.pem", "z.cer")])
    status, output, _ = ran(program, "-r", "--check", top)
    line = f"{link}: cannot be read: {FOLDER}\n".encode()
    yield "a link to a folder in one", (status, line in output), (2, True)
    os.remove(link)
    broken = os.path.join(top, "zz")
    os.symlink("nowhere", broken)
    status, output, _ = ran(program, "-r", "--check", top)
    line = f"{broken}: cannot be read: No such file or directory\n".encode()
    yield "a link to nothing", (status, line in output), (2, True)
    os.remove(broken)


def filled(octets):
    return lambda path: write(os.path.dirname(path), os.path.basename(path), octets)


def linked(target):
    return lambda path: os.symlink(target, path)


def as_socket(path):
    os.mknod(path, stat.S_IFSOCK | 0o600)


def as_hole(path):
    filled(b"")(path)
    os.truncate(path, 1 << 40)


def hostile(program, folder):
    """Whatever stands in a folder, the run ends, it is told what can't be read, and the files around it are shown."""
    anchor = octets_of(authority.paths(folder)["ta"] + ".der")
    top, outside = made(os.path.join(folder, "copy"), {"a.cer": anchor, "z.cer": anchor}), write(folder, "out", anchor)
    path, special, large = os.path.join(top, "m"), "cannot be read: Not a regular file", f"larger than {MOST} octets"
    for name, put, status, said in (
            ("a FIFO", os.mkfifo, 2, special), ("a socket", as_socket, 2, special),
            ("a link to what never ends", linked("/dev/zero"), 2, special),
            ("a link to a FIFO", linked("/proc/self/fd/0"), 2, special),
            ("a link to a folder", linked(top), 2, f"cannot be read: {FOLDER}"),
            ("a link to nothing", linked("none"), 2, "cannot be read: No such file or directory"),
            ("a link to itself", linked("m"), 2, "cannot be read"),
            ("a link through a file", linked("a.cer/x"), 2, "cannot be read"),
            ("a link to a file elsewhere", linked(outside), 0, "OK"),
            ("no octet", filled(b""), 1, "empty"), ("an octet too many", filled(bytes(MOST + 1)), 2, large),
            ("a hole of a terabyte", as_hole, 2, large)):
        put(path)
        lines = "".join(f"{top}/{it}\n" for it in ("a.cer: OK", f"m: {said}", "z.cer: OK"))
        yield f"{name} in a folder", ran(program, "-r", "--check", top), (status, lines.encode(), b"")
        os.remove(path)


def named(program, folder):
    """A FIFO that is named is read, for which the run waits for who writes to it; not with -r, as one in a folder."""
    anchor = authority.paths(folder)["ta"] + ".der"
    path, octets = os.path.join(folder, "fifo"), octets_of(anchor)
    os.mkfifo(path)
    for words in ["--check", path], ["--check", "--issuer", path, anchor]:
        with subprocess.Popen([program, *words], stdout=subprocess.PIPE, stderr=subprocess.PIPE) as run:
            threading.Thread(target=write, args=(folder, "fifo", octets), daemon=True).start()
            output, faults = run.communicate()
        wanted = ran(program, *(anchor if word == path else word for word in words))
        yield f"a FIFO {words}", (run.returncode, output.replace(path.encode(), anchor.encode()), faults), tuple(wanted)
    seen = ran(program, "-r", "--check", path)
    yield "a FIFO with -r", seen, (2, f"{path}: cannot be read: Not a regular file\n".encode(), b"")
    os.remove(path)


def unreadable(program, folder):
    """A folder that can't be listed and a file that can't be read are told, and those behind them are shown. Whoever is
    root reads all."""
    paths = authority.paths(folder)
    top = made(os.path.join(folder, "closed"), {"a/x.cer": b"", "b.cer": b"", "c.cer": octets_of(paths["ta"] + ".der")})
    closed = [os.path.join(top, name) for name in ("a", "b.cer")]
    for path in closed:
        os.chmod(path, 0)
    if os.geteuid() != 0:
        denied = "".join(f"{path}: cannot be read: Permission denied\n" for path in closed)
        expected = f"{denied}{top}/c.cer: OK\n".encode()
        yield "what may not be read", ran(program, "-r", "--check", top), (2, expected, b"")
    for path in closed:
        os.chmod(path, 0o755)


def many(program, folder):
    """Many files, and folders in folders."""
    octets = octets_of(authority.paths(folder)["ta"] + ".der")
    wide = made(os.path.join(folder, "wide"), {f"{number}.cer": octets for number in range(1000)})
    status, output, faults = ran(program, "-r", "--check", wide)
    names = [line.split(": ")[0] for line in output.decode().splitlines()]
    expected = sorted(f"{wide}/{number}.cer" for number in range(1000))
    yield "a thousand files", (status, names, faults), (0, expected, b"")
    deep = made(os.path.join(folder, "deep"), {"a/" * 500 + "x.cer": octets})
    status, output, faults = ran(program, "-r", "--json", "--check", deep)
    yield "five hundred folders", (status, json.loads(output)["verdict"], faults), (0, "OK", b"")
    path = write(folder, "odd\n", octets)
    yield "a name with a line feed", ran(program, "-r", "--check", path), ran(program, "--check", path)


TABLES = [recursive, hostile, named, unreadable, many]
