//! Lines as validators and certification authorities write them on the crate rpki, one test each, on the types that
//! this package has under its names. The repository is the one that tests/linked/repository/make makes with openssl.

/// A file of the repository.
macro_rules! file {
    ($name:literal) => {
        include_bytes!(concat!("../repository/", $name))
    };
}

mod certificates;
mod objects;
mod values;

use bytes::Bytes;
use rpki::repository::error::{InspectionError, ValidationError, VerificationError};
use rpki::repository::manifest::ManifestContent;
use rpki::repository::tal::Tal;
use rpki::repository::{Cert, Crl, Manifest, ResourceCert};
use rpki::uri;
use rpki_proved as rpki;
use std::str::FromStr;

const LOCATOR: &[u8] = file!("example.tal");
const ANCHOR: &[u8] = file!("rpki.example/repo/ta/ta.cer");
const AUTHORITY: &[u8] = file!("rpki.example/repo/ta/ca.cer");
const LIST: &[u8] = file!("rpki.example/repo/ca/ca.crl");
const MANIFEST: &[u8] = file!("rpki.example/repo/ca/ca.mft");
const ROA: &[u8] = file!("rpki.example/repo/ca/roa.roa");
const GONE: &[u8] = file!("rpki.example/repo/ca/gone.roa");
const ASPA: &[u8] = file!("aspa.asa");
const ROUTER: &[u8] = file!("router.cer");
const DETACHED: &[u8] = file!("detached.cer");

fn rsync(text: &str) -> uri::Rsync {
    uri::Rsync::from_str(text).unwrap()
}

fn tal() -> Tal {
    Tal::read("tals/example.tal", &mut &LOCATOR[..]).unwrap()
}

fn anchor() -> ResourceCert {
    Cert::decode(ANCHOR).unwrap().validate_ta(tal().info().clone(), true).unwrap()
}

fn authority() -> ResourceCert {
    Cert::decode(AUTHORITY).unwrap().validate_ca(&anchor(), true).unwrap()
}

fn manifest() -> (ResourceCert, ManifestContent) {
    Manifest::decode(MANIFEST, true).unwrap().validate(&authority(), true).unwrap()
}

/// What a validator keeps of an authority while it looks through what that publishes.
struct Point {
    issuer: ResourceCert,
    crl_uri: uri::Rsync,
    crl: Crl,
}

impl Point {
    fn new() -> Self {
        let (ee, _) = manifest();
        let mut crl = Crl::decode(LIST).unwrap();
        crl.cache_serials();
        Point { issuer: authority(), crl_uri: ee.crl_uri().unwrap().clone(), crl }
    }

    fn check_crl(&self, cert: &Cert) -> Result<(), ValidationError> {
        let crl_uri = match cert.crl_uri() {
            Some(some) => some,
            None => return Err(InspectionError::new("certificate has no CRL URI").into()),
        };
        if *crl_uri != self.crl_uri {
            return Err(InspectionError::new("certificate's CRL differs from manifest's").into());
        }
        if self.crl.contains(cert.serial_number()) {
            return Err(VerificationError::new("certificate has been revoked").into());
        }
        Ok(())
    }
}
