"""The program over inputs and outputs of the system that fail, take a part, or give one octet at a call."""
import os
import resource
import signal
import socket
import subprocess
import tempfile
from functools import partial

from programs import Seen, run
from vectors import (
    EXTENSIONS, EXTENSIONS_WRITTEN, EXTENSION_WITHOUT_OCTETS, KEY, KEY_DIGITS, ORGANIZATION, ROUTER_ORGANIZATION,
    SIGNED, USAGE,
)

URI = b"rSync://hOst/module/foo/bar\n"

# Words, an input, and the output; and words, an input, the status and the fault.
ANSWERED = [
    (["again"], SIGNED, SIGNED),
    (["data"], SIGNED, bytes.fromhex("3000")),
    (["key"], KEY, KEY_DIGITS + b"\n"),
    (["uri"], URI, b"scheme rsync\nauthority host\nmodule module\npath foo/bar\n"),
    (["ext"], EXTENSIONS, EXTENSIONS_WRITTEN),
    (["ext"], EXTENSION_WITHOUT_OCTETS, EXTENSION_WITHOUT_OCTETS),
    (["name"], ROUTER_ORGANIZATION, b"rpki no\nrouter yes\n"),
    ([], b"", USAGE),
]
REFUSED = [
    (["x"], b"", 2, USAGE),
    (["again", "again"], b"", 2, USAGE),
    (["again"], b"", 1, b"refused 1\n"),
    (["key"], b"\x31\x00", 1, b"refused 4\n"),
    (["uri"], b"rsync:///module/foo", 1, b"refused 6\n"),
    (["ext"], EXTENSIONS + bytes.fromhex("3005 0603551D13"), 1, b"refused 1\n"),
    (["name"], ORGANIZATION + b"\x00", 1, b"refused 6\n"),
]
UNREAD = (1, b"", b"input could not be read\n")
UNWRITTEN = b"output could not be written\n"


def start(program, words, stdin=subprocess.DEVNULL, stdout=subprocess.PIPE, stderr=subprocess.PIPE, prepare=None):
    """A run over these streams."""
    with subprocess.Popen([program, *words], stdin=stdin, stdout=stdout, stderr=stderr, preexec_fn=prepare) as process:
        output, faults = process.communicate(timeout=60)
        return Seen(process.wait(), output or b"", faults or b"").after(0)


def unread_inputs(programs):
    """An input that is closed, a folder, or open for writing alone can't be read. Without words it is not read."""
    for words, _, output in ANSWERED:
        expected = UNREAD if words else (0, output, b"")
        yield f"{words}, input closed", start(programs.basic, words, prepare=lambda: os.close(0)), expected
        for path, way in [(".", os.O_RDONLY), (os.devnull, os.O_WRONLY)]:
            stream = os.open(path, way)
            yield f"{words}, input {path}", start(programs.basic, words, stdin=stream), expected
            os.close(stream)


def inputs_that_end_early(programs):
    """A connection that gives one octet at a call and is then reset, after each count of octets; or closed, at the end.

    A peer that is closed with octets unread resets the connection: the reader gets what was sent, and then an error."""
    for words, octets, output in ANSWERED[:-1]:
        for count in range(len(octets) + 1):
            for reset in [True, False]:
                ours, theirs = socket.socketpair(socket.AF_UNIX, socket.SOCK_SEQPACKET)
                if reset:
                    theirs.send(b"unread")
                for at in range(count):
                    ours.send(octets[at:at + 1])
                ours.close()
                seen = start(programs.basic, words, stdin=theirs)
                theirs.close()
                if reset:
                    yield f"{words}, reset after {count} octets", seen, UNREAD
                elif count == len(octets):
                    yield f"{words}, octet by octet", seen, (0, output, b"")


def limit_files(octets):
    """Lets no file of the process grow past so many octets, with an error in place of a signal."""
    signal.signal(signal.SIGXFSZ, signal.SIG_IGN)
    resource.setrlimit(resource.RLIMIT_FSIZE, (octets, octets))


def in_file(octets, program, words, given, name):
    """A run whose output, or faults, are a file that may have so many octets; and what the file then holds."""
    with tempfile.TemporaryFile() as file, tempfile.TemporaryFile() as source:
        source.write(given)
        source.seek(0)
        seen = start(program, words, stdin=source, prepare=lambda: limit_files(octets), **{name: file})
        file.seek(0)
        return seen._replace(**{"output" if name == "stdout" else "faults": file.read()}).after(0)


def full_outputs(programs):
    """A file that is full after each count of octets holds that beginning of the output; what can't be written is
    told."""
    for words, given, output in ANSWERED:
        for count in range(len(output) + 1):
            seen = in_file(count, programs.basic, words, given, "stdout")
            whole = count == len(output)
            expected = (0, output, b"") if whole else (1, output[:count], UNWRITTEN)
            yield f"{words}, output of {count} octets", seen, expected


def unwritten_outputs(programs):
    """An output that is closed, full, read alone, or has no reader can't be written."""
    for words, given, _ in ANSWERED:
        with tempfile.TemporaryFile() as source:
            source.write(given)
            for way in ["closed", "full", "for reading", "without a reader"]:
                source.seek(0)
                yield f"{words}, output {way}", unwritten(programs.basic, words, source, way), (1, b"", UNWRITTEN)


def unwritten(program, words, source, way):
    """A run whose output fails in this way."""
    if way == "closed":
        return start(program, words, stdin=source, prepare=lambda: os.close(1))
    if way == "without a reader":
        reader, stream = os.pipe()
        os.close(reader)
        ignore = partial(signal.signal, signal.SIGPIPE, signal.SIG_IGN)
    else:
        path, flags = ("/dev/full", os.O_WRONLY) if way == "full" else (os.devnull, os.O_RDONLY)
        stream, ignore = os.open(path, flags), None
    seen = start(program, words, stdin=source, stdout=stream, prepare=ignore)
    os.close(stream)
    return seen


def unwritten_faults(programs):
    """Faults that can't be written change no status, and put nothing into the output."""
    for words, given, status, line in REFUSED:
        for count in range(len(line) + 1):
            seen = in_file(count, programs.basic, words, given, "stderr")
            yield f"{words}, faults of {count} octets", seen, (status, b"", line[:count])
        closed = run(programs.basic, words, given, preexec_fn=lambda: os.close(2))
        yield f"{words}, faults closed", closed, (status, b"", b"")
    for words, given, _ in ANSWERED:
        with open("/dev/full", "wb") as full, tempfile.TemporaryFile() as source:
            source.write(given)
            source.seek(0)
            seen = start(programs.basic, words, stdin=source, stdout=full, stderr=full)
            yield f"{words}, output and faults full", seen, (1, b"", b"")


TABLES = [
    unread_inputs, inputs_that_end_early, full_outputs, unwritten_outputs, unwritten_faults,
]
