//! The names of the crate rpki over a proved DER and X.509 layer for the resource public key infrastructure (RPKI).
//!
//! The library under this crate is written in Rust with contracts, and each call is proved to meet
//! its contract: it accepts exactly the grammars of docs/SPECIFICATION.md, and does not panic,
//! overflow, read out of bounds or run forever. The crate `rpki-proved-sys` links it; README.md says what each type
//! rests on. What is in this crate is not proved: it passes slices, and turns spans of them into slices again.
//!
//! The modules `crypto`, `oid`, `repository`, `resources`, `uri` and `util` have the types of the crate rpki 0.20,
//! which own their octets and share them; `view` has the calls of the library on borrowed octets.
//!
//! # From a locator to payloads
//!
//! A trust anchor's locator ([Tal](repository::tal::Tal)) has the key of its certificate, with which a chain begins:
//! each [ResourceCert](repository::ResourceCert) was valid when a call made it, and says what it has; each object and
//! each certificate is validated by the one above it. All that an authority publishes counts, or nothing of it (RFC 9286
//! 6.6), and what isn't valid harms nothing else.
//!
//! ```
//! use rpki_proved as rpki;
//! use rpki::repository::{cert::KeyUsage, error::ValidationError, tal::Tal, tal::TalUri, x509::Time};
//! use rpki::repository::{Aspa, Cert, Crl, CurrentCrl, Manifest, ResourceCert, Roa};
//! use rpki::{rtr::payload::{self, Payload}, uri::Rsync};
//! use std::{error::Error, fs, mem, path::PathBuf};
//!
//! # fn folder() -> PathBuf {
//! #     // The example is in this package, or in the repository that this package is in.
//! #     let below = |path| PathBuf::from(env!("CARGO_MANIFEST_DIR")).join(path);
//! #     ["examples/repository", "../../examples/repository"].map(below).into_iter().find(|it| it.is_dir()).unwrap()
//! # }
//! #
//! /// A file of a copy of the repository, where it is HOST/MODULE/PATH.
//! fn read(uri: &Rsync) -> Result<Vec<u8>, Box<dyn Error>> {
//!     Ok(fs::read(folder().join(&*uri.canonical_authority()).join(uri.module_name()).join(uri.path()))?)
//! }
//!
//! /// What an authority publishes: the files that its manifest lists, and the one list of what it has revoked.
//! fn point(by: &ResourceCert, now: Time) -> Result<(Vec<(Rsync, Vec<u8>)>, CurrentCrl), Box<dyn Error>> {
//!     let uri = by.rpki_manifest().ok_or("no manifest")?;
//!     let (signer, content) = Manifest::decode(read(uri)?, false)?.validate_at(by, true, now)?;
//!     let mut files = Vec::new();
//!     for listed in content.iter_uris(by.ca_repository().ok_or("no repository")?) {
//!         let (uri, hash) = listed?;
//!         let file = read(&uri)?;
//!         hash.verify(&file)?;
//!         files.push((uri, file));
//!     }
//!     let lists: Vec<_> = files.iter().filter(|(uri, _)| uri.ends_with(".crl")).collect();
//!     if lists.len() != 1 {
//!         return Err("not one revocation list".into());
//!     }
//!     let mut list = Crl::decode(&lists[0].1)?.validate_at(by, now)?;
//!     list.cache_serials();
//!     list.verify_not_revoked(&signer)?;
//!     Ok((files, list))
//! }
//!
//! struct Walk {
//!     now: Time,
//!     below: Vec<ResourceCert>,
//!     payloads: Vec<Payload>,
//! }
//!
//! impl Walk {
//!     /// What one of the files says, if it is valid: payloads, or another authority.
//!     fn judge(
//!         &mut self,
//!         uri: &Rsync,
//!         file: Vec<u8>,
//!         by: &ResourceCert,
//!         list: &CurrentCrl,
//!     ) -> Result<(), ValidationError> {
//!         let check = |cert: &Cert| list.verify_not_revoked(cert);
//!         if uri.ends_with(".roa") {
//!             let (_, content) = Roa::decode(file, false)?.process_at(by, true, self.now, check)?;
//!             self.payloads.extend(content.iter_origins().map(Payload::from));
//!         } else if uri.ends_with(".asa") {
//!             let (_, content) = Aspa::decode(file, false)?.process_at(by, true, self.now, check)?;
//!             let providers = content.provider_as_set().to_set();
//!             self.payloads.push(payload::Aspa::new(content.customer_as(), providers).into());
//!         } else if uri.ends_with(".cer") {
//!             let cert = Cert::decode(file)?;
//!             check(&cert)?;
//!             if cert.key_usage() == KeyUsage::Ca {
//!                 self.below.push(cert.validate_ca_at(by, true, self.now)?);
//!             } else {
//!                 // What a router's certificate has, and not what it claims: a hundred numbers of it at most.
//!                 let router = cert.validate_router_at(by, true, self.now)?;
//!                 let (key, info) = (router.subject_key_identifier(), cert.subject_public_key_info().to_info_bytes());
//!                 let numbers = router.as_resources().iter_asns().take(100);
//!                 let keys = numbers.map(|asn| payload::RouterKey::new(key, asn, info.clone()).into());
//!                 self.payloads.extend(keys);
//!             }
//!         }
//!         Ok(())
//!     }
//! }
//!
//! let tal = Tal::read("example.tal", &mut fs::File::open(folder().join("example.tal"))?)?;
//! let now = Time::utc(2026, 11, 27, 12, 0, 0);
//! let mut walk = Walk { now, below: Vec::new(), payloads: Vec::new() };
//! for uri in tal.uris() {
//!     if let TalUri::Rsync(uri) = uri {
//!         walk.below.push(Cert::decode(read(uri)?)?.validate_ta_at(tal.info().clone(), true, now)?);
//!     }
//! }
//! // Two levels are all of the example. `examples/validate.rs` visits each authority once, and tells what isn't valid.
//! for _ in 0..2 {
//!     for by in mem::take(&mut walk.below) {
//!         if let Ok((files, list)) = point(&by, now) {
//!             for (uri, file) in files {
//!                 let _ = walk.judge(&uri, file, &by, &list);
//!             }
//!         }
//!     }
//! }
//!
//! let mut lines = vec!["ASN,IP Prefix,Max Length,Trust Anchor".to_string()];
//! for payload in &walk.payloads {
//!     if let Payload::Origin(it) = payload {
//!         let (prefix, longest) = (it.prefix.prefix(), it.prefix.resolved_max_len());
//!         lines.push(format!("{},{prefix},{longest},{}", it.asn, tal.info().name()));
//!     }
//! }
//! # let sorted = |mut lines: Vec<String>| {
//! #     lines.sort();
//! #     lines
//! # };
//! let expected = fs::read_to_string(folder().join("expected.csv"))?.lines().map(String::from).collect();
//! assert_eq!(sorted(lines), sorted(expected));
//! # let router = walk.payloads.iter().filter(|it| matches!(it, Payload::RouterKey(it) if it.asn == 64496.into()));
//! # let aspa = walk.payloads.iter().filter(|it| matches!(it, Payload::Aspa(it) if it.customer == 64496.into()));
//! # assert_eq!((router.count(), aspa.count(), walk.payloads.len()), (1, 1, 7));
//! # Ok::<(), Box<dyn Error>>(())
//! ```
//!
//! # Values by themselves
//!
//! ```
//! use rpki_proved as rpki;
//! use rpki::{repository::x509::SignedData, uri::Rsync};
//!
//! let octets = b"\x30\x15\x30\x00\x30\x0d\x06\x09\x2a\x86\x48\x86\xf7\x0d\x01\x01\x0b\x05\x00\x03\x02\x00\xaa";
//! let signed = SignedData::decode(&octets[..])?;
//! assert_eq!(signed.data(), &b"\x30\x00"[..]);
//!
//! let uri: Rsync = "rsync://rpki.example/repository/ca/ca.mft".parse()?;
//! assert_eq!(uri.parent().unwrap().to_string(), "rsync://rpki.example/repository/ca/");
//! # Ok::<(), Box<dyn std::error::Error>>(())
//! ```
#![deny(missing_docs)]
#![deny(unsafe_code)]
#![deny(unsafe_op_in_unsafe_fn)]

mod captured;
pub mod crypto;
mod encode;
#[allow(unsafe_code)]
mod ffi;
mod octets;
pub mod oid;
pub mod repository;
pub mod resources;
pub mod rtr;
#[cfg(feature = "serde")]
mod texts;
pub mod uri;
pub mod util;
mod version;
pub mod view;

pub use captured::Captured;
pub use octets::IntoOctets;
pub use version::{library_version, Version};
pub use view::DecodeError;

// The code in README.md is compiled with that of the documentation.
#[cfg(doctest)]
#[doc = include_str!("../README.md")]
struct Readme;
