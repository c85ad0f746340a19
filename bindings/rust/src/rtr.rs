//! What a validator gives to routers, as types alone (RFC 8210): there is no protocol here.

pub mod payload {
    //! Payloads.

    pub use crate::repository::roa::RouteOrigin;

    use crate::crypto::KeyIdentifier;
    use crate::repository::resources::Asn;
    use crate::resources::SmallAsnSet;
    use bytes::Bytes;

    /// A router's key, and an AS number that it speaks for (RFC 8210 5.10).
    #[derive(Clone, Debug, PartialEq, Eq, Hash, PartialOrd, Ord)]
    pub struct RouterKey {
        /// The identifier of the key.
        pub key_identifier: KeyIdentifier,
        /// The AS number.
        pub asn: Asn,
        /// The octets of the SubjectPublicKeyInfo.
        pub key_info: Bytes,
    }

    impl RouterKey {
        /// The key of these parts.
        pub fn new(key_identifier: KeyIdentifier, asn: Asn, key_info: Bytes) -> Self {
            RouterKey { key_identifier, asn, key_info }
        }
    }

    /// A customer and its providers.
    #[derive(Clone, Debug, PartialEq, Eq)]
    pub struct Aspa {
        /// The customer.
        pub customer: Asn,
        /// The providers.
        pub providers: SmallAsnSet,
    }

    impl Aspa {
        /// The providers of the customer.
        pub fn new(customer: Asn, providers: SmallAsnSet) -> Self {
            Aspa { customer, providers }
        }
    }

    /// One of them.
    #[derive(Clone, Debug, PartialEq, Eq)]
    #[non_exhaustive]
    pub enum Payload {
        /// Who may announce a prefix.
        Origin(RouteOrigin),
        /// The key of a router.
        RouterKey(RouterKey),
        /// A customer and its providers.
        Aspa(Aspa),
    }

    /// Each is a payload.
    macro_rules! payload {
        ($($kind:ident($name:ident)),*) => {
            $(
                impl From<$name> for Payload {
                    fn from(payload: $name) -> Self {
                        Payload::$kind(payload)
                    }
                }
            )*
        };
    }

    payload!(Origin(RouteOrigin), RouterKey(RouterKey), Aspa(Aspa));
}
