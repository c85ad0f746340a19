//! Links the C library under the package `rpki-proved`, which declares its calls. There is nothing else here.
//!
//! What Cargo publishes of this package has the library, as an archive for each of x86-64 and aarch64, so that a
//! program over it wants a linker for C and nothing more. The archives are for Linux, with glibc or musl: they ask for
//! `malloc`, `realloc`, `free`, `memcpy`, `memmove` and `memset` alone. For another system there is none.
//!
//! The build looks for `librpki.a` in this order:
//!
//! 1. the folder that `RPKI_ARCHIVE_DIR` names, relative to where Cargo is called, or to this package;
//! 2. `archives/TARGET` in this package, where the archive has to have the digest that `archives/SHA256SUMS` says;
//! 3. `bindings/out` in a clone of the repository, where `bindings/archive` makes it, or `lib/TARGET` in a package of
//!    the library;
//! 4. where `pkg-config` finds `rpki`.
//!
//! A library of another major number than this package, or of an earlier minor number, is not linked. Documentation
//! links nothing, where `DOCS_RS` is set.
#![no_std]
#![deny(missing_docs)]

#[cfg(test)]
extern crate std;

#[cfg(test)]
#[path = "../digest.rs"]
mod digest;
