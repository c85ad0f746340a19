//! What is kept in repositories of the RPKI.

pub mod aspa;
pub mod cert;
pub mod crl;
pub mod error;
pub mod manifest;
pub mod resources;
pub mod roa;
pub mod sigobj;
pub mod tal;
pub mod x509;

pub use self::aspa::Aspa;
pub use self::cert::{Cert, ResourceCert};
pub use self::crl::{Crl, CurrentCrl};
pub use self::manifest::Manifest;
pub use self::resources::ResourceSet;
pub use self::roa::Roa;
pub use self::tal::Tal;
