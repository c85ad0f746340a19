//! Validates a copy of a repository from a trust anchor's locator on, level by level: all that an authority publishes, or
//! nothing of it (RFC 9286 6.6). Prints what is valid, each once, and to stderr what isn't, and why:
//!
//!     AS64496,10.0.0.0/8,24            who may announce a prefix, and its maximum length
//!     aspa AS64496 AS64499 AS64501     a customer, and its providers
//!     router AS64496 95434C6D36FE..    whose key it is, and the key's identifier
//!
//! usage: validate LOCATOR FOLDER [SECONDS SINCE 1970]      a file of the folder is HOST/MODULE/PATH

use rpki_proved::repository::cert::KeyUsage;
use rpki_proved::repository::error::ValidationError;
use rpki_proved::repository::resources::{Asn, ResourceSet};
use rpki_proved::repository::tal::{Tal, TalUri};
use rpki_proved::repository::x509::{Name, Time};
use rpki_proved::repository::{Aspa, Cert, Crl, CurrentCrl, Manifest, ResourceCert, Roa};
use rpki_proved::uri::Rsync;
use std::collections::{BTreeMap, BTreeSet, HashSet};
use std::{env, error::Error, fmt::Display, fs, path::PathBuf};

type Failure = Box<dyn Error>;

/// So many authorities are on a path at most, below the trust anchor.
const DEPTH: usize = 32;

/// What an authority publishes: each file that its manifest lists, and its revocation list.
type Point = (Vec<(Rsync, Vec<u8>)>, CurrentCrl);

/// What is validated, at which moment, and what was found.
struct Walk {
    folder: PathBuf,
    now: Time,
    below: Vec<ResourceCert>,
    lines: BTreeSet<String>,
    providers: BTreeMap<Asn, BTreeSet<Asn>>,
}

/// Says what doesn't count, and why, down to the first cause.
fn tell(what: &dyn Display, error: &dyn Error) {
    let mut texts = vec![error.to_string()];
    let mut source = error.source();
    while let Some(error) = source {
        texts.push(error.to_string());
        source = error.source();
    }
    texts.dedup();
    eprintln!("{what}: {}", texts.join(": "));
}

/// Authorities that are alike in these publish the same. What one says of itself alone is no key: it may name another's
/// manifest.
fn likeness(by: &ResourceCert) -> (Name, Vec<u8>, ResourceSet, Option<Rsync>) {
    let key = by.subject_public_key_info().to_info_bytes().to_vec();
    (by.subject().clone(), key, ResourceSet::from(by), by.rpki_manifest().cloned())
}

impl Walk {
    /// The file of this URI; the name of a host is the same in either case, and no folder.
    fn read(&self, uri: &Rsync) -> Result<Vec<u8>, Failure> {
        let host = uri.canonical_authority();
        if host.starts_with('.') {
            return Err("no name of a host".into());
        }
        let path = self.folder.join(&*host).join(uri.module_name()).join(uri.path());
        fs::read(path).map_err(|error| format!("{uri}: {error}").into())
    }

    /// What the manifest of an authority lists: all files, each with its digest, and the one revocation list.
    fn point(&self, by: &ResourceCert) -> Result<Point, Failure> {
        let uri = by.rpki_manifest().ok_or("no manifest")?;
        let (signer, content) = Manifest::decode(self.read(uri)?, false)?.validate_at(by, true, self.now)?;
        let mut files = Vec::new();
        for listed in content.iter_uris(by.ca_repository().ok_or("no repository")?) {
            let (uri, hash) = listed?;
            let file = self.read(&uri)?;
            hash.verify(&file).map_err(|error| format!("{uri}: {error}"))?;
            files.push((uri, file));
        }
        let lists: Vec<_> = files.iter().filter(|(uri, _)| uri.ends_with(".crl")).collect();
        if lists.len() != 1 {
            return Err("not one revocation list".into());
        }
        if signer.crl_uri() != Some(&lists[0].0) {
            return Err("another revocation list is named".into());
        }
        let mut list = Crl::decode(&lists[0].1)?.validate_at(by, self.now)?;
        list.cache_serials();
        list.verify_not_revoked(&signer)?;
        Ok((files, list))
    }

    /// Visits an authority: what it publishes is valid or isn't, each file by itself, once all is there.
    fn visit(&mut self, by: &ResourceCert) -> Result<(), Failure> {
        let (files, list) = self.point(by)?;
        for (uri, file) in files {
            self.judge(&uri, file, by, &list).unwrap_or_else(|error| tell(&uri, &error));
        }
        Ok(())
    }

    fn judge(
        &mut self,
        uri: &Rsync,
        file: Vec<u8>,
        by: &ResourceCert,
        list: &CurrentCrl,
    ) -> Result<(), ValidationError> {
        let check = |cert: &Cert| list.verify_not_revoked(cert);
        if uri.ends_with(".roa") {
            let (_, content) = Roa::decode(file, false)?.process_at(by, true, self.now, check)?;
            let line = |asn, prefix, longest| format!("{asn},{prefix},{longest}");
            let origins = content.iter_origins().map(|it| (it.asn, it.prefix));
            self.lines.extend(origins.map(|(asn, it)| line(asn, it.prefix(), it.resolved_max_len())));
        } else if uri.ends_with(".asa") {
            let (_, content) = Aspa::decode(file, false)?.process_at(by, true, self.now, check)?;
            self.providers.entry(content.customer_as()).or_default().extend(content.provider_as_set());
        } else if uri.ends_with(".cer") {
            let cert = Cert::decode(file)?;
            check(&cert)?;
            if cert.key_usage() == KeyUsage::Ca {
                self.below.push(cert.validate_ca_at(by, true, self.now)?);
            } else {
                // Of what is valid, not of what the certificate claims.
                let router = cert.validate_router_at(by, true, self.now)?;
                let key = router.subject_key_identifier();
                self.lines.extend(router.as_resources().iter().map(|numbers| format!("router {numbers} {key}")));
            }
        }
        Ok(())
    }

    /// The trust anchor: the first valid one of the locator's URIs for rsync.
    fn anchor(&self, tal: &Tal) -> Result<ResourceCert, Failure> {
        let uris = tal.uris().filter_map(|uri| match uri {
            TalUri::Rsync(uri) => Some(uri),
            TalUri::Https(_) => None,
        });
        for uri in uris {
            let validate = |file| Ok(Cert::decode(file)?.validate_ta_at(tal.info().clone(), true, self.now)?);
            match self.read(uri).and_then(validate) {
                Ok(anchor) => return Ok(anchor),
                Err(error) => tell(uri, &*error),
            }
        }
        Err("no trust anchor".into())
    }
}

fn main() -> Result<(), Failure> {
    let mut words = env::args().skip(1);
    let (locator, folder) =
        words.next().zip(words.next()).ok_or("usage: validate LOCATOR FOLDER [SECONDS SINCE 1970]")?;
    let seconds = words.next().map_or(Ok(Time::now().timestamp()), |word| word.parse())?;
    let now = Time::from_timestamp(seconds).ok_or("no time")?;
    let tal = Tal::read(&locator, &mut fs::File::open(&locator)?)?;
    let mut walk =
        Walk { folder: folder.into(), now, below: Vec::new(), lines: BTreeSet::new(), providers: BTreeMap::new() };
    walk.below.push(walk.anchor(&tal)?);
    let mut visited = HashSet::new();
    for _ in 0..=DEPTH {
        for by in std::mem::take(&mut walk.below) {
            if visited.insert(likeness(&by)) {
                let of =
                    by.rpki_manifest().map_or_else(|| by.subject_key_identifier().to_string(), |it| it.to_string());
                walk.visit(&by).unwrap_or_else(|error| tell(&of, &*error));
            }
        }
    }
    if !walk.below.is_empty() {
        eprintln!("{} authorities are too deep", walk.below.len());
    }
    for line in &walk.lines {
        println!("{line}");
    }
    for (customer, providers) in &walk.providers {
        let providers: Vec<String> = providers.iter().map(Asn::to_string).collect();
        println!("aspa {customer} {}", providers.join(" "));
    }
    Ok(())
}
