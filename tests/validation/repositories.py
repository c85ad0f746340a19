"""Repositories that tests/validation/generate.c makes, what is valid of them, and the program that says so."""
import base64
import copy
import hashlib
import os
import shutil
import subprocess

from counting import holds
from programs import TOP

AT = "2026-11-27T12:00:00Z"
TITLES = "ASN,IP Prefix,Max Length,Trust Anchor"
# A tree of authorities below the trust anchor, two below each, and the route origins of each.
AUTHORITIES, WIDTH, ORIGINS = 6, 2, 3
STALE_LIST, STALE_MANIFEST = {"LISTUNTIL": "260601000000Z"}, {"MANIFESTUNTIL": "20260601000000Z"}


def parent(authority, width=WIDTH):
    return (authority - 1) // width


def below(authority, count=AUTHORITIES, width=WIDTH):
    """The authority and all below it."""
    found = [it for it in range(count + 1) if it == authority]
    for it in range(authority + 1, count + 1):
        if parent(it, width) in found:
            found.append(it)
    return found


def payload(authority, origin):
    """The payload of a route origin, as generate.c has it: the key of its place in order, and its line of csv."""
    number, low = 64512 + 16 * authority + origin, 16 * (origin % 16)
    octets, most = (10 + (authority >> 16), authority >> 8 & 255, authority & 255, low), 28 + origin % 4
    return (octets, 28, most, number), f"AS{number},{'.'.join(map(str, octets))}/28,{most},example"


def payloads(authorities, origins=ORIGINS, without=()):
    """The lines of csv of all route origins of these authorities but some."""
    found = sorted(payload(it, at) for it in authorities for at in range(origins) if (it, at) not in without)
    return [line for _, line in found]


class Maker:
    """`generate.c`, built, and the keys of its authorities."""

    def __init__(self, room):
        self.room, self.program, self.made = room, os.path.join(room, "generate"), {}
        source = os.path.join(TOP, "tests", "validation", "generate.c")
        subprocess.run([os.environ.get("CC", "cc"), "-O1", "-Wno-deprecated-declarations", source, "-lcrypto", "-o",
                        self.program], check=True)

    def within(self, room):
        """The same in another folder, with the keys that there are."""
        other = copy.copy(self)
        other.room, other.made = room, {}
        shutil.copy2(os.path.join(self.room, "keys.pem"), room)
        return other

    def repository(self, count=AUTHORITIES, width=WIDTH, origins=ORIGINS, prefixes=1, **variant):
        """A repository, made once."""
        key = (count, width, origins, prefixes, *sorted(variant.items()))
        if key not in self.made:
            folder = os.path.join(self.room, f"repository{len(self.made)}")
            words = [self.program, folder, *map(str, (count, width, origins, prefixes))]
            subprocess.run([*words, os.path.join(self.room, "keys.pem")], check=True, stdout=subprocess.DEVNULL,
                           env={**os.environ, **variant})
            self.made[key] = folder
        return self.made[key]

    def changed(self, change, **variant):
        """A copy of a repository, changed."""
        folder = os.path.join(self.room, "changed")
        shutil.rmtree(folder, ignore_errors=True)
        shutil.copytree(self.repository(**variant), folder, symlinks=True)
        if change:
            change(folder)
        return folder


def file_of(folder, authority, name):
    return os.path.join(folder, "rpki.example", "repo", f"d{authority}", name)


def edit(path, octets):
    with open(path, "wb") as file:
        file.write(octets)


class Program:
    def __init__(self, path):
        self.path = path

    def words(self, folder, *words):
        """A run's program and its words."""
        return [self.path, "--tal", os.path.join(folder, "example.tal"), "--cache", folder, "--at", AT, *words]

    def run(self, folder, *words, **environment):
        ended = subprocess.run(self.words(folder, *words), stdout=subprocess.PIPE, stderr=subprocess.PIPE, check=False,
                               timeout=300, env={**os.environ, **environment})
        return ended.returncode, ended.stdout.decode(), ended.stderr.decode()

    def holds(self, name, folder, lines, status, *words):
        ended, output, faults = self.run(folder, *words)
        seen, wanted = output.split("\n"), [""] if status == 2 else [TITLES, *lines, ""]
        holds(name, ended == status and seen == wanted, f"status {ended}, {seen[:9]}, {faults[:300]}")


def router_key(folder):
    """The key of the router, and its identifier, as openssl has them of its certificate."""
    words = ["openssl", "x509", "-inform", "DER", "-in", file_of(folder, 1, "router.cer"), "-noout", "-pubkey"]
    pem = subprocess.run(words, check=True, capture_output=True, text=True).stdout
    info = base64.b64decode("".join(pem.split("\n")[1:-2]))
    return info, hashlib.sha1(info[-65:]).digest()


def url_safe(octets):
    return base64.urlsafe_b64encode(octets).decode().rstrip("=")
