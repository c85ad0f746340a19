//! Valid certificates (RFC 5280 6.1, RFC 6487 7.2, RFC 8360 4.2.4).

use super::Cert;
use crate::ffi;
use crate::repository::error::ValidationError;
use crate::repository::resources::{AddressFamily, AsBlocks, IpBlocks};
use crate::repository::tal::TalInfo;
use crate::repository::x509::Time;
use std::ops::Deref;
use std::sync::Arc;

/// A certificate that was valid when [Cert::validate_ta], [Cert::validate_ca], [Cert::validate_ee] or one of their kin
/// made this of it: nothing else does. Whether it is revoked is for [CurrentCrl](crate::repository::crl::CurrentCrl) to
/// say.
///
/// It derefs to its [Cert], of which each method speaks of what the certificate claims: what it has is what
/// [ResourceCert::v4_resources], [ResourceCert::v6_resources] and [ResourceCert::as_resources] return, and
/// [ResourceSet::from](crate::repository::resources::ResourceSet) of a `&ResourceCert`, not `try_from` of a `&Cert`.
#[derive(Clone, Debug)]
pub struct ResourceCert {
    cert: Cert,
    v4: IpBlocks,
    v6: IpBlocks,
    numbers: AsBlocks,
    is_authority: bool,
    tal: Arc<TalInfo>,
}

impl ResourceCert {
    /// The certificate.
    pub fn as_cert(&self) -> &Cert {
        &self.cert
    }

    /// The certificate.
    pub fn into_cert(self) -> Cert {
        self.cert
    }

    /// The addresses of IP version 4 that the certificate has: its own, or those of its issuer, where it inherits them.
    pub fn v4_resources(&self) -> &IpBlocks {
        &self.v4
    }

    /// The same of IP version 6.
    pub fn v6_resources(&self) -> &IpBlocks {
        &self.v6
    }

    /// The same of AS numbers.
    pub fn as_resources(&self) -> &AsBlocks {
        &self.numbers
    }

    /// Whether it is that of a trust anchor or of another certification authority: no other issues anything.
    pub fn is_authority(&self) -> bool {
        self.is_authority
    }

    /// The trust anchor at the end of its chain.
    pub fn tal(&self) -> &Arc<TalInfo> {
        &self.tal
    }

    /// The trust anchor at the end of its chain.
    pub fn into_tal(self) -> Arc<TalInfo> {
        self.tal
    }

    /// Its addresses as the library takes them.
    pub(crate) fn ip_entries(&self) -> Vec<ffi::IpBlock> {
        self.v4.entries(AddressFamily::Ipv4).chain(self.v6.entries(AddressFamily::Ipv6)).collect()
    }

    /// # Errors
    /// It is no authority's.
    pub(crate) fn must_be_authority(&self) -> Result<(), ValidationError> {
        if !self.is_authority {
            return Err(ValidationError::verification("issuer is no certification authority"));
        }
        Ok(())
    }
}

impl Deref for ResourceCert {
    type Target = Cert;

    fn deref(&self) -> &Cert {
        &self.cert
    }
}

impl AsRef<Cert> for ResourceCert {
    fn as_ref(&self) -> &Cert {
        &self.cert
    }
}

/// The addresses of each family in these entries, those of IP version 4 first.
fn families(entries: &[ffi::IpBlock]) -> (IpBlocks, IpBlocks) {
    let (v4, v6) = entries.split_at(entries.iter().filter(|entry| entry.family == ffi::IPV4).count());
    (IpBlocks::of_entries(AddressFamily::Ipv4, v4), IpBlocks::of_entries(AddressFamily::Ipv6, v6))
}

/// Each function without a moment is the one with `_at` at now, by the machine's clock. With
/// `strict` false names are not checked against their profile.
impl Cert {
    /// Checks that this is the certificate of the trust anchor: of its profile ([Cert::inspect_ta]), with the locator's
    /// key, signed by it, and valid now (RFC 8630 3).
    ///
    /// # Errors
    /// The first that doesn't hold.
    pub fn validate_ta(self, tal: Arc<TalInfo>, strict: bool) -> Result<ResourceCert, ValidationError> {
        self.validate_ta_at(tal, strict, Time::now())
    }

    /// The same at this moment.
    ///
    /// # Errors
    /// Those of [Cert::validate_ta].
    pub fn validate_ta_at(self, tal: Arc<TalInfo>, strict: bool, now: Time) -> Result<ResourceCert, ValidationError> {
        self.inspect_ta(strict)?;
        ffi::anchor_verify(&self.octets, tal.key_octets()).map_err(ValidationError::from_status)?;
        self.validity.verify_at(now)?;
        // The profile has it that they are of one version, in canonical form, and not inherited.
        let (v4, v6) = (self.v4_resources().to_blocks()?, self.v6_resources().to_blocks()?);
        let numbers = self.as_resources().to_blocks()?;
        Ok(ResourceCert { v4, v6, numbers, is_authority: true, tal, cert: self })
    }

    /// Checks that the authority has issued this certificate, but for revocation, and settles what it has (RFC 6487
    /// 7.2).
    fn validate_issued(
        self,
        issuer: &ResourceCert,
        profile: u8,
        strict: bool,
        now: Time,
    ) -> Result<ResourceCert, ValidationError> {
        issuer.must_be_authority()?;
        self.inspect(profile, strict)?;
        ffi::certificate_signed_by(&self.octets, &issuer.cert.octets).map_err(ValidationError::from_status)?;
        self.validity.verify_at(now)?;
        let ip = ffi::ip_settle(&self.octets, &issuer.ip_entries()).map_err(ValidationError::from_status)?;
        let numbers = ffi::as_settle(&self.octets, &issuer.numbers.entries()).map_err(ValidationError::from_status)?;
        let ((v4, v6), numbers) = (families(&ip), AsBlocks::of_entries(&numbers));
        let (is_authority, tal) = (profile == ffi::CERTIFICATE_CA, issuer.tal.clone());
        Ok(ResourceCert { v4, v6, numbers, is_authority, tal, cert: self })
    }

    /// Checks that the authority has issued this certificate of another authority: of its profile
    /// ([Cert::inspect_ca]), by the issuer's name and key, valid now, and of resources that the issuer has, or, by the
    /// policy of RFC 8360, cut down to them (RFC 6487 7.2). Whether it is revoked is not looked at.
    ///
    /// # Errors
    /// The first that doesn't hold; the issuer is no authority.
    pub fn validate_ca(self, issuer: &ResourceCert, strict: bool) -> Result<ResourceCert, ValidationError> {
        self.validate_ca_at(issuer, strict, Time::now())
    }

    /// The same at this moment.
    ///
    /// # Errors
    /// Those of [Cert::validate_ca].
    pub fn validate_ca_at(
        self,
        issuer: &ResourceCert,
        strict: bool,
        now: Time,
    ) -> Result<ResourceCert, ValidationError> {
        self.validate_issued(issuer, ffi::CERTIFICATE_CA, strict, now)
    }

    /// As [Cert::validate_ca], of an end entity that signs an object ([Cert::inspect_ee]).
    ///
    /// # Errors
    /// Those of [Cert::validate_ca].
    pub fn validate_ee(self, issuer: &ResourceCert, strict: bool) -> Result<ResourceCert, ValidationError> {
        self.validate_ee_at(issuer, strict, Time::now())
    }

    /// The same at this moment.
    ///
    /// # Errors
    /// Those of [Cert::validate_ca].
    pub fn validate_ee_at(
        self,
        issuer: &ResourceCert,
        strict: bool,
        now: Time,
    ) -> Result<ResourceCert, ValidationError> {
        self.validate_issued(issuer, ffi::CERTIFICATE_EE, strict, now)
    }

    /// As [Cert::validate_ca], of an end entity whose key signs what is in no repository ([Cert::inspect_detached_ee]).
    ///
    /// # Errors
    /// Those of [Cert::validate_ca].
    pub fn validate_detached_ee(self, issuer: &ResourceCert, strict: bool) -> Result<ResourceCert, ValidationError> {
        self.validate_detached_ee_at(issuer, strict, Time::now())
    }

    /// The same at this moment.
    ///
    /// # Errors
    /// Those of [Cert::validate_ca].
    pub fn validate_detached_ee_at(
        self,
        issuer: &ResourceCert,
        strict: bool,
        now: Time,
    ) -> Result<ResourceCert, ValidationError> {
        self.validate_issued(issuer, ffi::CERTIFICATE_DETACHED_EE, strict, now)
    }

    /// As [Cert::validate_ca], of a BGPsec router ([Cert::inspect_router]). The AS numbers that its key speaks for are
    /// those of what this returns: the certificate's own [Cert::as_resources] are its claim, of which the policy of RFC
    /// 8360 leaves what the issuer has.
    ///
    /// # Errors
    /// Those of [Cert::validate_ca].
    pub fn validate_router(&self, issuer: &ResourceCert, strict: bool) -> Result<ResourceCert, ValidationError> {
        self.validate_router_at(issuer, strict, Time::now())
    }

    /// The same at this moment.
    ///
    /// # Errors
    /// Those of [Cert::validate_ca].
    pub fn validate_router_at(
        &self,
        issuer: &ResourceCert,
        strict: bool,
        now: Time,
    ) -> Result<ResourceCert, ValidationError> {
        self.clone().validate_issued(issuer, ffi::CERTIFICATE_ROUTER, strict, now)
    }
}
