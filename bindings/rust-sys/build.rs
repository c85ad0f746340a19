//! Links the library, as `librpki.a` or, where only that is installed, as `librpki.so`: from the folder that
//! `RPKI_ARCHIVE_DIR` names, or else from this package, where it has the digest that is said there, or else from a
//! folder beside it, or else from where pkg-config finds it. A library of another major number than this package, or of
//! an earlier minor number, is not linked; nor, below 1.0, of a later one.

mod digest;

use std::env;
use std::fs;
use std::path::{Path, PathBuf};
use std::process::{self, Command};

const VARIABLE: &str = "RPKI_ARCHIVE_DIR";

/// The major number and the minor number of a version.
fn numbers(version: &str) -> Option<(u32, u32)> {
    let mut parts = version.split('.').map(|part| part.parse().ok());
    Some((parts.next()??, parts.next()??))
}

/// Whether this package can call a library of this version: one of its own major number, and of its own minor number or,
/// from 1.0 on, a later one.
fn fits(version: &str) -> bool {
    let own = numbers(env!("CARGO_PKG_VERSION")).expect("the version of a package");
    numbers(version).map_or(false, |(major, minor)| major == own.0 && (minor == own.1 || major > 0 && minor > own.1))
}

/// The version that the file beside an archive names, where there is one that does.
fn version_of(folder: &Path) -> Option<String> {
    let proof = fs::read_to_string(folder.join("librpki.proof")).ok()?;
    proof.split_whitespace().find_map(|word| word.strip_prefix("version=").map(String::from))
}

/// The folders that the variable names: a relative one below the folder that cargo was called in, or this package's.
fn named(folder: PathBuf) -> Vec<PathBuf> {
    if folder.is_absolute() {
        return vec![folder];
    }
    println!("cargo:rerun-if-env-changed=PWD");
    let bases = ["PWD", "CARGO_MANIFEST_DIR"].into_iter().filter_map(env::var_os);
    bases.map(|base| PathBuf::from(base).join(&folder)).collect()
}

/// The folder of this package as it is when this runs: a build script may be the one that was compiled for a copy in
/// another folder.
fn here() -> PathBuf {
    PathBuf::from(env::var_os("CARGO_MANIFEST_DIR").unwrap_or_default())
}

/// The folder in this package that has the archive for this architecture, if there is one.
fn own(architecture: &str) -> Option<PathBuf> {
    let archives = here().join("archives");
    let folder = archives.join(architecture);
    let archive = fs::read(folder.join("librpki.a")).ok()?;
    let sums = fs::read_to_string(archives.join("SHA256SUMS")).unwrap_or_default();
    let named = format!("{}  {architecture}/librpki.a", digest::sha256(&archive));
    if !sums.lines().any(|line| line == named) {
        stop(&[format!("{} has not the digest that SHA256SUMS says there", folder.join("librpki.a").display())]);
    }
    Some(folder)
}

/// The folders beside this package that may have the archive for this architecture: what `bindings/archive` makes in a
/// clone of the repository, where that for x86-64 has no folder of its own, and what a package of the library has.
fn beside(architecture: &str) -> Vec<PathBuf> {
    let here = here();
    let made = here.join("../out").join(if architecture == "x86_64" { "" } else { architecture });
    vec![made, here.join("../../lib").join(architecture)]
}

/// The folders that may have the archive for this architecture, where none is named.
fn found(architecture: &str) -> Vec<PathBuf> {
    own(architecture).map_or_else(|| beside(architecture), |folder| vec![folder])
}

/// What pkg-config prints, where it succeeds and prints something.
fn pkg_config(words: &[&str]) -> Option<String> {
    let program = env::var_os("PKG_CONFIG").unwrap_or_else(|| "pkg-config".into());
    let told = Command::new(program).args(words).output().ok()?;
    let text = String::from_utf8_lossy(&told.stdout).trim().to_string();
    (told.status.success() && !text.is_empty()).then_some(text)
}

/// Ends the build, and says why.
fn stop(lines: &[String]) -> ! {
    for line in lines {
        eprintln!("{line}");
    }
    process::exit(1)
}

/// Ends the build where the library that was found is of another version.
fn hold(version: &str, found: &Path) {
    if !fits(version) {
        let (major, minor) = numbers(env!("CARGO_PKG_VERSION")).expect("the version of a package");
        let found = format!("the library in {} is of version {version}", found.display());
        stop(&[found, format!("this package wants {major}.{minor} or, from 1.0 on, a later one of {major}")]);
    }
}

/// Links the library of this folder as an archive, if there is one, or else as a shared library.
fn link(folder: &Path) {
    let kind = if folder.join("librpki.a").is_file() { "static" } else { "dylib" };
    println!("cargo:rerun-if-changed={}", folder.display());
    println!("cargo:rustc-link-search=native={}", folder.display());
    println!("cargo:rustc-link-lib={kind}=rpki");
}

fn main() {
    for variable in [VARIABLE, "DOCS_RS", "PKG_CONFIG", "PKG_CONFIG_PATH"] {
        println!("cargo:rerun-if-env-changed={variable}");
    }
    // Documentation links nothing.
    if env::var_os("DOCS_RS").is_some() {
        return;
    }
    let target = |part: &str| env::var(format!("CARGO_CFG_TARGET_{part}")).unwrap_or_default();
    let (architecture, system) = (target("ARCH"), target("OS"));
    let variable = env::var_os(VARIABLE).map(PathBuf::from);
    let is_named = variable.is_some();
    // What is not named is for Linux, with glibc or musl alike.
    let for_linux = || if system == "linux" { found(&architecture) } else { Vec::new() };
    let folders = variable.map_or_else(for_linux, named);
    if let Some(folder) = folders.iter().find(|folder| folder.join("librpki.a").is_file()) {
        if let Some(version) = version_of(folder) {
            hold(&version, folder);
        }
        return link(folder);
    }
    if !is_named {
        if let (Some(version), Some(folder)) =
            (pkg_config(&["--modversion", "rpki"]), pkg_config(&["--variable=libdir", "rpki"]))
        {
            hold(&version, Path::new(&folder));
            return link(Path::new(&folder));
        }
    }
    if !is_named && system != "linux" {
        stop(&[format!("the library is for Linux on x86_64 and aarch64, and there is none for {system}")]);
    }
    stop(&[
        format!("there is no librpki.a in any of {folders:?}, and pkg-config knows no rpki"),
        format!("set {VARIABLE} to its folder: lib/{architecture} of an unpacked package of the library"),
        "or, in a clone of the repository, which wants the toolchain, make it there: \
         tests/gate/unproved_library.py bindings/out builds it without proof, in a minute; bindings/archive proves it \
         too, in an hour"
            .into(),
    ]);
}
