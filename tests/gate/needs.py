"""What the parts of the gate need of the machine, and how Debian calls it."""
import glob
import os
import shutil
import subprocess
from typing import NamedTuple

PARTS = {
    "proofs": "`rt ci`: libraries, the C library, programs and examples proved from nothing",
    "edits": "wrong bodies, which the prover has to refuse, and their neutral twins",
    "tests": "the tests of the libraries and of the program",
    "hostile": "programs over hostile input, and where allocations are refused",
    "certificates": "rpkicert beside openssl, rpkivalid on changed repositories",
    "c": "the C library and the Cargo package",
    "package": "what is handed out",
    "documents": "documents, formats, commands of README.md",
}


class Need(NamedTuple):
    """A program, a file, or a crate that Debian packages, the package, and the parts that can't do without it. One
    without parts is used where it is there."""

    name: str
    package: str
    parts: tuple


NEEDS = [
    Need("git", "git", tuple(PARTS)),
    Need("rt", "", tuple(PARTS)),
    Need("cc", "gcc", ("hostile", "certificates", "c", "package")),
    Need("c++", "g++", ("c",)),
    Need("make", "make", ("package",)),
    Need("objdump", "binutils", ("c", "package")),
    Need("cargo", "cargo", ("c", "package", "documents")),
    Need("rustc", "rustc", ("c", "package", "documents")),
    Need("openssl", "openssl", ("hostile", "certificates", "c")),
    Need("/usr/include/openssl/evp.h", "libssl-dev", ("certificates",)),
    Need("rsync", "rsync", ("certificates",)),
    Need("/usr/sbin/bird", "bird2", ("certificates",)),
    Need("/usr/sbin/bgpd", "openbgpd", ("certificates",)),
    Need("stayrtr", "stayrtr", ("certificates",)),
    Need("rtrdump", "rtr-tools", ("certificates",)),
    Need("/usr/lib/python3/dist-packages/prometheus_client", "python3-prometheus-client", ("certificates",)),
    *(Need(f"the crate {crate}", f"librust-{crate.replace('_', '-')}-dev", ("c", "package", "documents"))
      for crate in ("bytes", "chrono", "openssl", "serde", "serde_json")),
    Need("valgrind", "valgrind", ()),
    Need("pkg-config", "pkg-config", ()),
    Need("go", "golang-go", ()),
    Need("musl-gcc", "musl-tools", ()),
    Need("qemu-aarch64", "qemu-user", ()),
    Need("aarch64-linux-gnu-gcc", "gcc-aarch64-linux-gnu", ()),
    Need("/usr/aarch64-linux-gnu/lib/crt1.o", "libc6-dev-arm64-cross", ()),
    Need("/usr/bin/rustc", "rustc", ()),
    Need("/usr/bin/cargo", "cargo", ()),
    Need("cargo-clippy", "rust-clippy", ()),
    Need("clang-format", "clang-format", ()),
    Need("shellcheck", "shellcheck", ()),
    Need("pyflakes3", "pyflakes3", ()),
    Need("pycodestyle", "pycodestyle", ()),
    Need("mypy", "mypy", ()),
    Need("rpki-client", "rpki-client", ()),
    Need("lintian", "lintian", ()),
]


def is_there(need):
    if need.name.startswith("the crate "):
        return bool(glob.glob(f"/usr/share/cargo/registry/{need.name.split()[-1]}-[0-9]*"))
    if need.name.startswith("/"):
        return os.path.exists(need.name)
    return shutil.which(need.name) is not None


def missing(parts):
    """What these parts need and isn't there; and what would be used, and isn't there."""
    lacking = [need for need in NEEDS if not is_there(need)]
    return [need for need in lacking if set(need.parts) & set(parts)], [need for need in lacking if not need.parts]


def install(needs):
    """Installs the packages of Debian that these are in, and says so."""
    packages = sorted({need.package for need in needs if need.package})
    if not packages:
        return
    print(f"installing {' '.join(packages)}", flush=True)
    environment = {**os.environ, "DEBIAN_FRONTEND": "noninteractive"}
    for words in (["update"], ["install", "-y", "--no-install-recommends", *packages]):
        subprocess.run(["apt-get", *words], env=environment, stdout=subprocess.DEVNULL, check=False)


def table(needs):
    """A line for each that is missing."""
    lines = [f"  {need.name:24} {need.package or 'the kit':28} for {', '.join(need.parts)}" for need in needs]
    packages = sorted({need.package for need in needs if need.package})
    return "\n".join([*lines, *([f"on Debian: apt-get install {' '.join(packages)}"] if packages else [])])
