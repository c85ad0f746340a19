"""Routers' programs that load the lists: BIRD, OpenBGPD, and StayRTR, which serves them to one that asks. Each has in
the end what rpkivalid found."""
import json
import os
import re
import shutil
import socket
import subprocess
import tempfile
import time

from counting import holds
from programs import TOP
from repositories import AUTHORITIES, ORIGINS, below, payloads, router_key

# The repository of README.md has both families of addresses, a customer and a router.
EXAMPLE = os.path.join(TOP, "examples", "repository")
PROGRAMS = ["bird", "birdc", "bgpd", "stayrtr", "rtrdump"]


def missing():
    """Which of the programs aren't there."""
    return [it for it in PROGRAMS if not shutil.which(it) and not os.path.isfile(f"/usr/sbin/{it}")]


def path_of(name):
    return shutil.which(name) or f"/usr/sbin/{name}"


def rows_of(text):
    """The rows of csv: AS number, prefix, maximum length."""
    return sorted((int(row[0][2:]), row[1], int(row[2])) for row in
                  (line.split(",") for line in text.split("\n")[1:] if line))


def written(program, folder, room, form):
    """The list of the repository in a form, in a file."""
    file = os.path.join(room, f"list.{form}")
    status, _, faults = program.run(folder, "--form", form, "--output", file)
    holds(f"{form} is written", status == 0, (status, faults))
    return file


def of_bird(program, folder, room, wanted):
    """A BIRD that runs has them in its tables, by one line of its configuration."""
    lists, socket_at = written(program, folder, room, "bird"), os.path.join(room, "ctl")
    config = os.path.join(room, "bird.conf")
    with open(config, "w", encoding="ascii") as file:
        file.write(f'router id 192.0.2.1;\ninclude "{lists}";\nprotocol device {{}}\n')
    tried = subprocess.run([path_of("bird"), "-p", "-c", config], capture_output=True, check=False)
    holds("BIRD reads its form", tried.returncode == 0, tried.stderr[:300])
    words = [path_of("bird"), "-f", "-c", config, "-s", socket_at]
    with subprocess.Popen(words, stdout=subprocess.DEVNULL, stderr=subprocess.DEVNULL) as bird:
        seen = []
        for _ in range(100):
            for table in ("ROAS4", "ROAS6"):
                asked = subprocess.run([path_of("birdc"), "-s", socket_at, f"show route table {table}"],
                                       capture_output=True, check=False)
                seen += re.findall(r"^([0-9a-f.:/]+)-(\d+) AS(\d+) ", asked.stdout.decode(), re.MULTILINE)
            if len(seen) >= len(wanted) or bird.poll() is not None:
                break
            seen = []
            time.sleep(0.1)
        bird.terminate()
        rows = sorted((int(asn), prefix, int(most)) for prefix, most, asn in seen)
        holds("what BIRD has", rows == wanted, (rows[:5], wanted[:5]))


def of_openbgpd(program, folder, room):
    """OpenBGPD reads the set of origins. A version that knows no customers refuses the form that has them."""
    for form in ("openbgpd-origins", "openbgpd"):
        lists, config = written(program, folder, room, form), os.path.join(room, f"{form}.conf")
        with open(config, "w", encoding="ascii") as file:
            file.write(f'AS 64511\nrouter-id 192.0.2.1\ninclude "{lists}"\n')
        os.chmod(config, 0o600)
        tried = subprocess.run([path_of("bgpd"), "-n", "-f", config], capture_output=True, check=False)
        said = tried.stderr.decode()
        if form == "openbgpd":
            with open(lists, encoding="ascii") as text:
                lines = text.read().split("\n")
            knows = tried.returncode == 0
            fault = f"{lists}:{lines.index('aspa-set {') + 1}: syntax error"
            holds("OpenBGPD's customers", knows or fault in said, said[:300])
        else:
            holds("OpenBGPD reads its form", tried.returncode == 0 and "configuration OK" in said, said[:300])


def free_port():
    with socket.socket() as it:
        it.bind(("127.0.0.1", 0))
        return it.getsockname()[1]


def served(file, room, count):
    """What StayRTR serves of a file to one that asks, once it has so many origins."""
    port, dump = free_port(), os.path.join(room, "dump.json")
    words = [path_of("stayrtr"), "-cache", file, "-bind", f"127.0.0.1:{port}", "-metrics.addr", "", "-refresh", "1"]
    with subprocess.Popen(words, stdout=subprocess.DEVNULL, stderr=subprocess.DEVNULL) as stayrtr:
        made = {}
        for _ in range(60):
            time.sleep(0.25)
            asked = [path_of("rtrdump"), "-connect", f"127.0.0.1:{port}", "-file", dump]
            ended = subprocess.run(asked, capture_output=True, check=False, timeout=30).returncode
            if ended == 0 and os.path.isfile(dump):
                with open(dump, encoding="ascii") as text:
                    made = json.load(text)
                if len(made.get("roas") or []) >= count:
                    break
        stayrtr.terminate()
    return made


def of_stayrtr(program, folder, room, wanted):
    """StayRTR serves all of its own form, and of --form json the origins."""
    for form in ("stayrtr", "json"):
        file = written(program, folder, room, form)
        with open(file, encoding="ascii") as text:
            listed = json.load(text)
        made = served(file, room, len(wanted))
        rows = sorted((it["asn"], it["prefix"], it["maxLength"]) for it in made.get("roas") or [])
        holds(f"the origins that StayRTR serves of {form}", rows == wanted, (rows[:5], wanted[:5]))
        if form == "stayrtr":
            keys = [(it["asn"], it["ski"].lower(), it["pubkey"]) for it in made.get("bgpsec_keys") or []]
            due = [(it["asn"], it["ski"].lower(), it["pubkey"]) for it in listed["bgpsec_keys"]]
            holds("the keys that StayRTR serves", sorted(keys) == sorted(due) and due != [], keys[:2])
            seen = made.get("provider_authorizations") or {}
            vaps = {family: sorted((it["customer_asid"], it["providers"]) for it in seen.get(family) or [])
                    for family in ("ipv4", "ipv6")}
            wants = sorted((it["customer_asid"], it["providers"])
                           for it in listed["provider_authorizations"]["ipv4"])
            holds("the providers that StayRTR serves", vaps == {"ipv4": wants, "ipv6": wants} and wants != [], vaps)


def ranges(program, maker):
    """A key for a range of AS numbers is one entry in json, and one for each number in StayRTR's form."""
    folder = maker.repository(ROUTER="1", ROUTERNUMBERS="3")
    _, identifier = router_key(folder)
    _, output, _ = program.run(folder, "--form", "json")
    seen = {(it.get("asn"), it.get("minAsn"), it.get("maxAsn")) for it in json.loads(output)["routerKeys"]}
    wanted = {(None, it, it + 2) for it in below(0)[1:]}
    holds("ranges of numbers in json", seen == wanted, sorted(map(str, seen))[:3])
    _, output, _ = program.run(folder, "--form", "stayrtr")
    keys = sorted((it["asn"], it["ski"].lower()) for it in json.loads(output)["bgpsec_keys"])
    due = sorted((it + more, identifier.hex()) for it in below(0)[1:] for more in range(3))
    holds("numbers of ranges for StayRTR", keys == due, keys[:4])


def routers(program, maker):
    """What routers' programs have, of README's repository and of one of a single family of addresses."""
    holds("programs of routers are installed", not missing(), missing())
    for name, folder in ("README's", EXAMPLE), ("another", maker.repository(ASPA="1", ROUTER="1")):
        _, output, _ = program.run(folder)
        wanted = rows_of(output)
        due = len(payloads(below(0)[1:])) if name == "another" else 5
        holds(f"{name} repository", len(wanted) == due, wanted[:5])
        with tempfile.TemporaryDirectory() as room:
            of_bird(program, folder, room, wanted)
            of_openbgpd(program, folder, room)
            of_stayrtr(program, folder, room, wanted)
    holds("all origins", AUTHORITIES * ORIGINS == len(payloads(below(0)[1:])))
    _, output, _ = program.run(EXAMPLE, "--form", "json")
    made = {name: value for name, value in json.loads(output or "{}").items() if name != "metadata"}
    with open(os.path.join(TOP, "tests", "linked", "valid.json"), encoding="ascii") as file:
        holds("README's repository in json", made == json.load(file), made)
