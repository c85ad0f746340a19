//! The constants, structs and calls of `include/rpki.h`, by `bindings/declarations`: not to be changed by hand.

// All of the header is here, also what this package doesn't use.
#![allow(dead_code)]

use std::mem::size_of;

/// What a call returns: 0, or the number of what is wrong.
pub(crate) type Status = u8;

pub(crate) const VERSION_MAJOR: u32 = 0;
pub(crate) const VERSION_MINOR: u32 = 2;
pub(crate) const VERSION_PATCH: u32 = 0;
pub(crate) const NO_PARENT: usize = usize::MAX;
pub(crate) const MOST_EXTENSIONS: usize = 64;
pub(crate) const MOST_STEPS: usize = 32;
pub(crate) const OK: Status = 0;
pub(crate) const TRUNCATED: Status = 1;
pub(crate) const BAD_TAG: Status = 2;
pub(crate) const BAD_LENGTH: Status = 3;
pub(crate) const UNEXPECTED: Status = 4;
pub(crate) const CONTENT: Status = 5;
pub(crate) const TRAILING: Status = 6;
pub(crate) const OUT_OF_MEMORY: Status = 7;
pub(crate) const TOO_SMALL: Status = 9;
pub(crate) const NO_ANSWER: Status = 10;
pub(crate) const NO_PROFILE: Status = 12;
pub(crate) const OTHER_ALGORITHM: Status = 13;
pub(crate) const OTHER_PARTS: Status = 14;
pub(crate) const TOO_LONG: Status = 15;
pub(crate) const LOCATOR_URI: Status = 24;
pub(crate) const LOCATOR_NO_URI: Status = 25;
pub(crate) const LOCATOR_NO_KEY: Status = 26;
pub(crate) const LOCATOR_TEXT: Status = 27;
pub(crate) const LOCATOR_KEY: Status = 28;
pub(crate) const INVALID_SYMBOL: Status = 40;
pub(crate) const INVALID_LENGTH: Status = 41;
pub(crate) const INVALID_LAST_SYMBOL: Status = 42;
pub(crate) const INVALID_PADDING: Status = 43;
pub(crate) const TOO_DEEP: Status = 44;
pub(crate) const NO_LIST: Status = 45;
pub(crate) const SAME_NAMES: Status = 46;
pub(crate) const OTHER_LIST: Status = 47;
pub(crate) const NO_MANIFEST: Status = 48;
pub(crate) const OTHER_LIST_URI: Status = 49;
pub(crate) const TOO_NEW: Status = 50;
pub(crate) const TOO_OLD: Status = 51;
pub(crate) const KEY_NOT_ACCEPTED: Status = 52;
pub(crate) const BAD_SIGNATURE: Status = 53;
pub(crate) const OTHER_DIGEST: Status = 54;
pub(crate) const OTHER_TYPE: Status = 55;
pub(crate) const OTHER_SIGNER: Status = 56;
pub(crate) const OTHER_KEY: Status = 57;
pub(crate) const OTHER_RESOURCES: Status = 58;
pub(crate) const NOT_INHERITED: Status = 59;
pub(crate) const OTHER_ANCHOR: Status = 60;
pub(crate) const OTHER_KINDS: Status = 61;
pub(crate) const REVOKED: Status = 62;
pub(crate) const ON_PATH: Status = 63;
pub(crate) const PART_CERTIFICATE: Status = 64;
pub(crate) const PART_SIGNED: Status = 65;
pub(crate) const PART_ALGORITHM: Status = 66;
pub(crate) const PART_SIGNATURE: Status = 67;
pub(crate) const PART_TBS: Status = 68;
pub(crate) const PART_VERSION: Status = 69;
pub(crate) const PART_SERIAL_NUMBER: Status = 70;
pub(crate) const PART_TBS_ALGORITHM: Status = 71;
pub(crate) const PART_ISSUER: Status = 72;
pub(crate) const PART_VALIDITY: Status = 73;
pub(crate) const PART_SUBJECT: Status = 74;
pub(crate) const PART_PUBLIC_KEY: Status = 75;
pub(crate) const PART_EXTENSIONS: Status = 76;
pub(crate) const PART_EXTENSION_COUNT: Status = 77;
pub(crate) const PART_EXTENSION_IDENTIFIERS: Status = 78;
pub(crate) const PART_SAME_ALGORITHM: Status = 79;
pub(crate) const WRONG_BASIC_CONSTRAINTS: Status = 80;
pub(crate) const WRONG_SUBJECT_KEY_IDENTIFIER: Status = 81;
pub(crate) const WRONG_AUTHORITY_KEY_IDENTIFIER: Status = 82;
pub(crate) const WRONG_KEY_USAGE: Status = 83;
pub(crate) const WRONG_CERTIFICATE_POLICIES: Status = 84;
pub(crate) const RULE_SERIAL_NUMBER: Status = 85;
pub(crate) const RULE_CRITICAL_EXTENSIONS: Status = 86;
pub(crate) const RULE_ISSUER: Status = 87;
pub(crate) const RULE_SUBJECT: Status = 88;
pub(crate) const RULE_ROUTER_SUBJECT: Status = 89;
pub(crate) const RULE_RSA_KEY: Status = 90;
pub(crate) const RULE_ROUTER_KEY: Status = 91;
pub(crate) const RULE_BASIC_CONSTRAINTS: Status = 92;
pub(crate) const RULE_NO_BASIC_CONSTRAINTS: Status = 93;
pub(crate) const RULE_SUBJECT_KEY_IDENTIFIER: Status = 94;
pub(crate) const RULE_AUTHORITY_KEY_IDENTIFIER: Status = 95;
pub(crate) const RULE_AUTHORITY_USAGE: Status = 96;
pub(crate) const RULE_END_USAGE: Status = 97;
pub(crate) const RULE_NO_EXTENDED_KEY_USAGE: Status = 98;
pub(crate) const RULE_ROUTER_PURPOSE: Status = 99;
pub(crate) const RULE_REVOCATION_LIST: Status = 100;
pub(crate) const RULE_NO_REVOCATION_LIST: Status = 101;
pub(crate) const RULE_ISSUER_CERTIFICATE: Status = 102;
pub(crate) const RULE_NO_ISSUER_CERTIFICATE: Status = 103;
pub(crate) const RULE_REPOSITORY: Status = 104;
pub(crate) const RULE_MANIFEST: Status = 105;
pub(crate) const RULE_SIGNED_OBJECT: Status = 106;
pub(crate) const RULE_NO_SUBJECT_ACCESS: Status = 107;
pub(crate) const RULE_CERTIFICATE_POLICIES: Status = 108;
pub(crate) const RULE_RESOURCES: Status = 109;
pub(crate) const RULE_ROUTER_NUMBERS: Status = 110;
pub(crate) const RULE_OBJECT_ACCESS: Status = 111;
pub(crate) const RULE_VALIDITY: Status = 112;
pub(crate) const RULE_OWN_AUTHORITY: Status = 113;
pub(crate) const RULE_SELF_ISSUED: Status = 114;
pub(crate) const RULE_RESOURCE_VERSION: Status = 115;
pub(crate) const RULE_RESOURCE_BLOCKS: Status = 116;
pub(crate) const RULE_OWN_RESOURCES: Status = 117;
pub(crate) const RULE_MANIFEST_PLACE: Status = 118;
pub(crate) const RULE_NOTIFICATIONS: Status = 119;
pub(crate) const RULE_ISSUER_SIZE: Status = 156;
pub(crate) const RULE_SUBJECT_SIZE: Status = 157;
pub(crate) const RULE_ROUTER_SERIAL_NUMBER: Status = 158;
pub(crate) const PART_THIS_UPDATE: Status = 120;
pub(crate) const PART_NEXT_UPDATE: Status = 121;
pub(crate) const PART_OBJECT: Status = 123;
pub(crate) const PART_OBJECT_TYPE: Status = 124;
pub(crate) const PART_SIGNED_DATA: Status = 125;
pub(crate) const PART_OBJECT_VERSION: Status = 126;
pub(crate) const PART_DIGEST_ALGORITHMS: Status = 127;
pub(crate) const PART_CONTENT: Status = 128;
pub(crate) const PART_CERTIFICATES: Status = 129;
pub(crate) const PART_SIGNERS: Status = 130;
pub(crate) const PART_SIGNER: Status = 131;
pub(crate) const PART_SIGNER_VERSION: Status = 132;
pub(crate) const PART_SIGNER_IDENTIFIER: Status = 133;
pub(crate) const PART_SIGNER_DIGEST: Status = 134;
pub(crate) const PART_SIGNED_ATTRIBUTES: Status = 135;
pub(crate) const PART_SIGNATURE_ALGORITHM: Status = 136;
pub(crate) const PART_OBJECT_SIGNATURE: Status = 137;
pub(crate) const PART_MANIFEST: Status = 138;
pub(crate) const PART_MANIFEST_NUMBER: Status = 139;
pub(crate) const PART_MANIFEST_THIS_UPDATE: Status = 140;
pub(crate) const PART_MANIFEST_NEXT_UPDATE: Status = 141;
pub(crate) const PART_HASH_ALGORITHM: Status = 142;
pub(crate) const PART_FILE_LIST: Status = 143;
pub(crate) const PART_UPDATE_ORDER: Status = 144;
pub(crate) const PART_ROA: Status = 145;
pub(crate) const PART_AS_ID: Status = 146;
pub(crate) const PART_ADDRESS_BLOCKS: Status = 147;
pub(crate) const PART_ASPA: Status = 148;
pub(crate) const PART_ASPA_VERSION: Status = 149;
pub(crate) const PART_CUSTOMER: Status = 150;
pub(crate) const PART_PROVIDERS: Status = 151;
pub(crate) const PART_CHECKLIST: Status = 184;
pub(crate) const PART_CHECKLIST_VERSION: Status = 185;
pub(crate) const PART_CHECKLIST_RESOURCES: Status = 186;
pub(crate) const PART_CHECKLIST_ALGORITHM: Status = 187;
pub(crate) const PART_CHECKLIST_FILES: Status = 188;
pub(crate) const PART_TAK: Status = 192;
pub(crate) const PART_TAK_VERSION: Status = 193;
pub(crate) const PART_TAK_CURRENT: Status = 194;
pub(crate) const PART_TAK_PREDECESSOR: Status = 195;
pub(crate) const PART_TAK_SUCCESSOR: Status = 196;
pub(crate) const NO_ISSUER: Status = 152;
pub(crate) const OTHER_ISSUER: Status = 153;
pub(crate) const OTHER_AUTHORITY: Status = 154;
pub(crate) const URI_INVALID_CHARACTERS: Status = 160;
pub(crate) const URI_BAD_URI: Status = 161;
pub(crate) const URI_LONG_URI: Status = 162;
pub(crate) const URI_BAD_SCHEME: Status = 163;
pub(crate) const URI_DOT_SEGMENTS: Status = 164;
pub(crate) const URI_EMPTY_SEGMENTS: Status = 165;
pub(crate) const URI_LONG_SEGMENTS: Status = 166;
pub(crate) const SECOND: Status = 16;
pub(crate) const MISSING_COMMON_NAME: Status = 32;
pub(crate) const SECOND_COMMON_NAME: Status = 33;
pub(crate) const SECOND_SERIAL_NUMBER: Status = 34;
pub(crate) const SECOND_ORGANIZATION_NAME: Status = 35;
pub(crate) const STRING_NOT_PERMITTED: Status = 36;
pub(crate) const ATTRIBUTE_NOT_PERMITTED: Status = 37;
pub(crate) const UNIVERSAL: u8 = 0;
pub(crate) const APPLICATION: u8 = 1;
pub(crate) const CONTEXT: u8 = 2;
pub(crate) const PRIVATE: u8 = 3;
pub(crate) const BOOLEAN: u8 = 0x01;
pub(crate) const INTEGER: u8 = 0x02;
pub(crate) const BIT_STRING: u8 = 0x03;
pub(crate) const OCTET_STRING: u8 = 0x04;
pub(crate) const NULL: u8 = 0x05;
pub(crate) const OBJECT_IDENTIFIER: u8 = 0x06;
pub(crate) const UTF8_STRING: u8 = 0x0C;
pub(crate) const PRINTABLE_STRING: u8 = 0x13;
pub(crate) const IA5_STRING: u8 = 0x16;
pub(crate) const UTC_TIME: u8 = 0x17;
pub(crate) const GENERALIZED_TIME: u8 = 0x18;
pub(crate) const SEQUENCE: u8 = 0x30;
pub(crate) const SET: u8 = 0x31;
pub(crate) const CONTEXT_PRIMITIVE: u8 = 0x80;
pub(crate) const CONTEXT_CONSTRUCTED: u8 = 0xA0;
pub(crate) const RSA: u8 = 0;
pub(crate) const ECDSA_P256: u8 = 1;
pub(crate) const PROFILE_RPKI: u8 = 0;
pub(crate) const PROFILE_ROUTER: u8 = 1;
pub(crate) const CERTIFICATE_TA: u8 = 0;
pub(crate) const CERTIFICATE_CA: u8 = 1;
pub(crate) const CERTIFICATE_EE: u8 = 2;
pub(crate) const CERTIFICATE_ROUTER: u8 = 3;
pub(crate) const CERTIFICATE_DETACHED_EE: u8 = 4;
pub(crate) const EXTENSION_BASIC_CONSTRAINTS: u8 = 0;
pub(crate) const EXTENSION_SUBJECT_KEY_IDENTIFIER: u8 = 1;
pub(crate) const EXTENSION_AUTHORITY_KEY_IDENTIFIER: u8 = 2;
pub(crate) const EXTENSION_KEY_USAGE: u8 = 3;
pub(crate) const EXTENSION_EXTENDED_KEY_USAGE: u8 = 4;
pub(crate) const EXTENSION_CRL_DISTRIBUTION_POINTS: u8 = 5;
pub(crate) const EXTENSION_AUTHORITY_INFO_ACCESS: u8 = 6;
pub(crate) const EXTENSION_SUBJECT_INFO_ACCESS: u8 = 7;
pub(crate) const EXTENSION_CERTIFICATE_POLICIES: u8 = 8;
pub(crate) const EXTENSION_IP_RESOURCES: u8 = 9;
pub(crate) const EXTENSION_IP_RESOURCES_V2: u8 = 10;
pub(crate) const EXTENSION_AS_RESOURCES: u8 = 11;
pub(crate) const EXTENSION_AS_RESOURCES_V2: u8 = 12;
pub(crate) const USAGE_NONE: u8 = 0;
pub(crate) const USAGE_CA: u8 = 1;
pub(crate) const USAGE_EE: u8 = 2;
pub(crate) const POLICY_NONE: u8 = 0;
pub(crate) const POLICY_REFUSE: u8 = 1;
pub(crate) const POLICY_TRIM: u8 = 2;
pub(crate) const ACCESS_OTHER: u8 = 0;
pub(crate) const ACCESS_CA_ISSUERS: u8 = 1;
pub(crate) const ACCESS_CA_REPOSITORY: u8 = 2;
pub(crate) const ACCESS_RPKI_MANIFEST: u8 = 3;
pub(crate) const ACCESS_SIGNED_OBJECT: u8 = 4;
pub(crate) const ACCESS_RPKI_NOTIFY: u8 = 5;
pub(crate) const TYPE_OTHER: u8 = 0;
pub(crate) const TYPE_ROA: u8 = 1;
pub(crate) const TYPE_MANIFEST: u8 = 2;
pub(crate) const TYPE_ASPA: u8 = 3;
pub(crate) const TYPE_GHOSTBUSTERS: u8 = 4;
pub(crate) const TYPE_CHECKLIST: u8 = 5;
pub(crate) const TYPE_TRUST_ANCHOR_KEYS: u8 = 6;
pub(crate) const IPV4: u8 = 4;
pub(crate) const IPV6: u8 = 6;
pub(crate) const BASE64_XML: u8 = 0;
pub(crate) const BASE64_SERDE: u8 = 1;
pub(crate) const BASE64_SLURM: u8 = 2;

const _: () = assert!(size_of::<usize>() == 8 && size_of::<bool>() == 1);

#[repr(C)]
#[derive(Clone, Copy)]
pub(crate) struct Span {
    pub(crate) data: *const u8,
    pub(crate) size: usize,
}
const _: () = assert!(size_of::<Span>() == 16);

#[repr(C)]
#[derive(Clone, Copy, Default)]
pub(crate) struct Place {
    pub(crate) start: usize,
    pub(crate) length: usize,
}
const _: () = assert!(size_of::<Place>() == 16);

#[repr(C)]
#[derive(Clone, Copy, Default)]
pub(crate) struct HeaderParts {
    pub(crate) tag_class: u8,
    pub(crate) constructed: bool,
    pub(crate) number: u32,
    pub(crate) length: u32,
    pub(crate) size: usize,
}
const _: () = assert!(size_of::<HeaderParts>() == 24);

#[repr(C)]
#[derive(Clone, Copy, Default)]
pub(crate) struct Walked {
    pub(crate) headers: u64,
    pub(crate) size: usize,
}
const _: () = assert!(size_of::<Walked>() == 16);

#[repr(C)]
#[derive(Clone, Copy, Default)]
pub(crate) struct Entry {
    pub(crate) start: usize,
    pub(crate) contents: usize,
    pub(crate) end: usize,
    pub(crate) parent: usize,
    pub(crate) number: u32,
    pub(crate) tag_class: u8,
    pub(crate) constructed: bool,
}
const _: () = assert!(size_of::<Entry>() == 40);

#[repr(C)]
#[derive(Clone, Copy, Default)]
pub(crate) struct SignedParts {
    pub(crate) data: Span,
    pub(crate) algorithm: Span,
    pub(crate) signature: Span,
    pub(crate) unused: u8,
    pub(crate) has_parameters: bool,
}
const _: () = assert!(size_of::<SignedParts>() == 56);

#[repr(C)]
#[derive(Clone, Copy, Default)]
pub(crate) struct KeyParts {
    pub(crate) format: u8,
    pub(crate) unused: u8,
    pub(crate) bits: Span,
}
const _: () = assert!(size_of::<KeyParts>() == 24);

#[repr(C)]
#[derive(Clone, Copy, Default)]
pub(crate) struct Moment {
    pub(crate) seconds: i64,
    pub(crate) year: i32,
    pub(crate) month: u32,
    pub(crate) day: u32,
    pub(crate) hour: u32,
    pub(crate) minute: u32,
    pub(crate) second: u32,
}
const _: () = assert!(size_of::<Moment>() == 32);

#[repr(C)]
#[derive(Clone, Copy, Default)]
pub(crate) struct Period {
    pub(crate) not_before: Moment,
    pub(crate) not_after: Moment,
}
const _: () = assert!(size_of::<Period>() == 64);

#[repr(C)]
#[derive(Clone, Copy, Default)]
pub(crate) struct ExtensionParts {
    pub(crate) id: Span,
    pub(crate) octets: Span,
    pub(crate) critical: bool,
}
const _: () = assert!(size_of::<ExtensionParts>() == 40);

#[repr(C)]
#[derive(Clone, Copy, Default)]
pub(crate) struct CertificateParts {
    pub(crate) data: Span,
    pub(crate) algorithm: Span,
    pub(crate) signature: Span,
    pub(crate) issuer: Span,
    pub(crate) subject: Span,
    pub(crate) public_key: Span,
    pub(crate) extensions: Span,
    pub(crate) validity: Period,
    pub(crate) serial_number: [u8; 20],
    pub(crate) key_format: u8,
    pub(crate) key_unused: u8,
    pub(crate) has_parameters: bool,
}
const _: () = assert!(size_of::<CertificateParts>() == 200);

#[repr(C)]
#[derive(Clone, Copy, Default)]
pub(crate) struct KnownExtension {
    pub(crate) octets: Span,
    pub(crate) is_there: bool,
    pub(crate) critical: bool,
}
const _: () = assert!(size_of::<KnownExtension>() == 24);

#[repr(C)]
#[derive(Clone, Copy, Default)]
pub(crate) struct KnownExtensions {
    pub(crate) basic_constraints: KnownExtension,
    pub(crate) subject_key_identifier: KnownExtension,
    pub(crate) authority_key_identifier: KnownExtension,
    pub(crate) key_usage: KnownExtension,
    pub(crate) extended_key_usage: KnownExtension,
    pub(crate) crl_distribution_points: KnownExtension,
    pub(crate) authority_info_access: KnownExtension,
    pub(crate) subject_info_access: KnownExtension,
    pub(crate) certificate_policies: KnownExtension,
    pub(crate) ip_resources: KnownExtension,
    pub(crate) ip_resources_v2: KnownExtension,
    pub(crate) as_resources: KnownExtension,
    pub(crate) as_resources_v2: KnownExtension,
    pub(crate) subject_key: [u8; 20],
    pub(crate) authority_key: [u8; 20],
    pub(crate) is_ca: bool,
    pub(crate) usage: u8,
    pub(crate) policy: u8,
}
const _: () = assert!(size_of::<KnownExtensions>() == 360);

#[repr(C)]
#[derive(Clone, Copy, Default)]
pub(crate) struct AccessParts {
    pub(crate) id: Span,
    pub(crate) uri: Span,
    pub(crate) method: u8,
    pub(crate) is_uri: bool,
}
const _: () = assert!(size_of::<AccessParts>() == 40);

#[repr(C)]
#[derive(Clone, Copy, Default)]
pub(crate) struct GeneralNameParts {
    pub(crate) uri: Span,
    pub(crate) is_uri: bool,
}
const _: () = assert!(size_of::<GeneralNameParts>() == 24);

#[repr(C)]
#[derive(Clone, Copy, Default)]
pub(crate) struct CrlParts {
    pub(crate) data: Span,
    pub(crate) algorithm: Span,
    pub(crate) signature: Span,
    pub(crate) issuer: Span,
    pub(crate) revoked_certs: Span,
    pub(crate) this_update: Moment,
    pub(crate) next_update: Moment,
    pub(crate) crl_number: [u8; 20],
    pub(crate) authority_key_identifier: [u8; 20],
    pub(crate) has_parameters: bool,
}
const _: () = assert!(size_of::<CrlParts>() == 192);

#[repr(C)]
#[derive(Clone, Copy, Default)]
pub(crate) struct RevokedCertificate {
    pub(crate) serial_number: [u8; 20],
    pub(crate) revocation_date: Moment,
}
const _: () = assert!(size_of::<RevokedCertificate>() == 56);

#[repr(C)]
#[derive(Clone, Copy, Default)]
pub(crate) struct SerialNumber {
    pub(crate) octets: [u8; 20],
}
const _: () = assert!(size_of::<SerialNumber>() == 20);

#[repr(C)]
#[derive(Clone, Copy, Default)]
pub(crate) struct SignedObjectParts {
    pub(crate) content_type: Span,
    pub(crate) content: Span,
    pub(crate) certificate: Span,
    pub(crate) signed_attributes: Span,
    pub(crate) signature: Span,
    pub(crate) signing_time: Moment,
    pub(crate) binary_signing_time: u64,
    pub(crate) message_digest: [u8; 32],
    pub(crate) signer_identifier: [u8; 20],
    pub(crate) is_type_signed: bool,
    pub(crate) has_signing_time: bool,
    pub(crate) has_binary_signing_time: bool,
    pub(crate) has_parameters: bool,
}
const _: () = assert!(size_of::<SignedObjectParts>() == 176);

#[repr(C)]
#[derive(Clone, Copy, Default)]
pub(crate) struct ManifestParts {
    pub(crate) files: Span,
    pub(crate) count: usize,
    pub(crate) this_update: Moment,
    pub(crate) next_update: Moment,
    pub(crate) manifest_number: [u8; 20],
}
const _: () = assert!(size_of::<ManifestParts>() == 112);

#[repr(C)]
#[derive(Clone, Copy, Default)]
pub(crate) struct ManifestFileParts {
    pub(crate) name: Span,
    pub(crate) digest: [u8; 32],
}
const _: () = assert!(size_of::<ManifestFileParts>() == 48);

#[repr(C)]
#[derive(Clone, Copy, Default)]
pub(crate) struct RoaParts {
    pub(crate) v4: Span,
    pub(crate) v6: Span,
    pub(crate) v4_count: usize,
    pub(crate) v6_count: usize,
    pub(crate) as_id: u32,
}
const _: () = assert!(size_of::<RoaParts>() == 56);

#[repr(C)]
#[derive(Clone, Copy, Default)]
pub(crate) struct RoaAddressParts {
    pub(crate) address: [u8; 16],
    pub(crate) length: u8,
    pub(crate) max_length: u8,
    pub(crate) has_max_length: bool,
}
const _: () = assert!(size_of::<RoaAddressParts>() == 19);

#[repr(C)]
#[derive(Clone, Copy, Default)]
pub(crate) struct AspaParts {
    pub(crate) providers: Span,
    pub(crate) count: usize,
    pub(crate) customer: u32,
}
const _: () = assert!(size_of::<AspaParts>() == 32);

#[repr(C)]
#[derive(Clone, Copy, Default)]
pub(crate) struct ChecklistParts {
    pub(crate) as_numbers: Span,
    pub(crate) addresses: Span,
    pub(crate) files: Span,
    pub(crate) count: usize,
    pub(crate) has_as_numbers: bool,
    pub(crate) has_addresses: bool,
}
const _: () = assert!(size_of::<ChecklistParts>() == 64);

#[repr(C)]
#[derive(Clone, Copy, Default)]
pub(crate) struct ChecklistFileParts {
    pub(crate) name: Span,
    pub(crate) digest: [u8; 32],
    pub(crate) has_name: bool,
}
const _: () = assert!(size_of::<ChecklistFileParts>() == 56);

#[repr(C)]
#[derive(Clone, Copy, Default)]
pub(crate) struct AnchorKeyParts {
    pub(crate) comments: Span,
    pub(crate) comment_count: usize,
    pub(crate) uris: Span,
    pub(crate) uri_count: usize,
    pub(crate) key: Span,
}
const _: () = assert!(size_of::<AnchorKeyParts>() == 64);

#[repr(C)]
#[derive(Clone, Copy, Default)]
pub(crate) struct TakParts {
    pub(crate) current: AnchorKeyParts,
    pub(crate) predecessor: AnchorKeyParts,
    pub(crate) successor: AnchorKeyParts,
    pub(crate) has_predecessor: bool,
    pub(crate) has_successor: bool,
}
const _: () = assert!(size_of::<TakParts>() == 200);

#[repr(C)]
#[derive(Clone, Copy, Default)]
pub(crate) struct IpBlock {
    pub(crate) low: [u8; 16],
    pub(crate) high: [u8; 16],
    pub(crate) family: u8,
    pub(crate) is_inherited: bool,
}
const _: () = assert!(size_of::<IpBlock>() == 34);

#[repr(C)]
#[derive(Clone, Copy, Default)]
pub(crate) struct AsBlock {
    pub(crate) low: u32,
    pub(crate) high: u32,
    pub(crate) is_inherited: bool,
}
const _: () = assert!(size_of::<AsBlock>() == 12);

#[repr(C)]
#[derive(Clone, Copy)]
pub(crate) struct Resources {
    pub(crate) ip_blocks: *const IpBlock,
    pub(crate) ip_count: usize,
    pub(crate) as_blocks: *const AsBlock,
    pub(crate) as_count: usize,
}
const _: () = assert!(size_of::<Resources>() == 32);

#[repr(C)]
#[derive(Clone, Copy, Default)]
pub(crate) struct KeyOctets {
    pub(crate) octets: [u8; 20],
}
const _: () = assert!(size_of::<KeyOctets>() == 20);

#[repr(C)]
#[derive(Clone, Copy)]
pub(crate) struct Authority {
    pub(crate) certificate: Span,
    pub(crate) revoked_certs: Span,
    pub(crate) files: Span,
    pub(crate) ip_blocks: *const IpBlock,
    pub(crate) ip_count: usize,
    pub(crate) as_blocks: *const AsBlock,
    pub(crate) as_count: usize,
    pub(crate) moment: Moment,
    pub(crate) list_digest: [u8; 32],
    pub(crate) keys: [KeyOctets; 33],
    pub(crate) depth: u32,
    pub(crate) has_list: bool,
    pub(crate) has_manifest: bool,
}
const _: () = assert!(size_of::<Authority>() == 816);

#[repr(C)]
#[derive(Clone, Copy, Default)]
pub(crate) struct RsyncParts {
    pub(crate) authority: Place,
    pub(crate) module_name: Place,
    pub(crate) path: Place,
}
const _: () = assert!(size_of::<RsyncParts>() == 48);

#[repr(C)]
#[derive(Clone, Copy, Default)]
pub(crate) struct HttpsParts {
    pub(crate) authority: Place,
    pub(crate) path: Place,
}
const _: () = assert!(size_of::<HttpsParts>() == 32);

extern "C" {
    pub(super) fn rpki_version() -> u32;
    pub(super) fn rpki_header(octets: *const u8, size: usize, out: *mut HeaderParts) -> Status;
    pub(super) fn rpki_take(rest: *mut Span, identifier: u8, contents: *mut Span) -> Status;
    pub(super) fn rpki_take_optional(
        rest: *mut Span,
        identifier: u8,
        contents: *mut Span,
        is_there: *mut bool,
    ) -> Status;
    pub(super) fn rpki_walk(octets: *const u8, size: usize, out: *mut Walked) -> Status;
    pub(super) fn rpki_index(
        octets: *const u8,
        size: usize,
        entries: *mut Entry,
        capacity: usize,
        count: *mut usize,
    ) -> Status;
    pub(super) fn rpki_fault(octets: *const u8, size: usize, at: *mut usize) -> Status;
    pub(super) fn rpki_value(
        rest: *mut Span,
        header: *mut HeaderParts,
        contents: *mut Span,
        whole: *mut Span,
    ) -> Status;
    pub(super) fn rpki_boolean(rest: *mut Span, out: *mut bool) -> Status;
    pub(super) fn rpki_unsigned(rest: *mut Span, out: *mut Span) -> Status;
    pub(super) fn rpki_bit_string(rest: *mut Span, bits: *mut Span, unused: *mut u8) -> Status;
    pub(super) fn rpki_object_identifier(rest: *mut Span, out: *mut Span) -> Status;
    pub(super) fn rpki_signed_data(octets: *const u8, size: usize, out: *mut SignedParts) -> Status;
    pub(super) fn rpki_public_key(octets: *const u8, size: usize, out: *mut KeyParts) -> Status;
    pub(super) fn rpki_key_identifier(octets: *const u8, size: usize, out: *mut [u8; 20]) -> Status;
    pub(super) fn rpki_verify(
        key: *const u8,
        key_size: usize,
        message: *const u8,
        message_size: usize,
        signature: *const u8,
        signature_size: usize,
    ) -> Status;
    pub(super) fn rpki_sha256(octets: *const u8, size: usize, out: *mut [u8; 32]);
    pub(super) fn rpki_name_inspect(octets: *const u8, size: usize, profile: u8, strict: bool) -> Status;
    pub(super) fn rpki_serial(octets: *const u8, size: usize, out: *mut [u8; 20]) -> Status;
    pub(super) fn rpki_time(octets: *const u8, size: usize, out: *mut Moment) -> Status;
    pub(super) fn rpki_validity(octets: *const u8, size: usize, out: *mut Period) -> Status;
    pub(super) fn rpki_extension(octets: *const u8, size: usize, out: *mut ExtensionParts) -> Status;
    pub(super) fn rpki_certificate(octets: *const u8, size: usize, out: *mut CertificateParts) -> Status;
    pub(super) fn rpki_certificate_error(octets: *const u8, size: usize, error: *mut Status) -> Status;
    pub(super) fn rpki_certificate_extensions(octets: *const u8, size: usize, out: *mut KnownExtensions) -> Status;
    pub(super) fn rpki_certificate_extension(
        octets: *const u8,
        size: usize,
        number: u8,
        out: *mut KnownExtension,
    ) -> Status;
    pub(super) fn rpki_certificate_inspect(octets: *const u8, size: usize, profile: u8, strict: bool) -> Status;
    pub(super) fn rpki_certificate_of_profile(
        octets: *const u8,
        size: usize,
        profile: u8,
        strict: bool,
        parts: *mut CertificateParts,
        extensions: *mut KnownExtensions,
    ) -> Status;
    pub(super) fn rpki_certificate_issued_by(
        octets: *const u8,
        size: usize,
        issuer: *const u8,
        issuer_size: usize,
    ) -> Status;
    pub(super) fn rpki_certificate_kind(octets: *const u8, size: usize, kind: *mut u8) -> Status;
    pub(super) fn rpki_access_description(rest: *mut Span, out: *mut AccessParts) -> Status;
    pub(super) fn rpki_general_name(rest: *mut Span, out: *mut GeneralNameParts) -> Status;
    pub(super) fn rpki_distribution_point(octets: *const u8, size: usize, out: *mut Span) -> Status;
    pub(super) fn rpki_crl(octets: *const u8, size: usize, out: *mut CrlParts) -> Status;
    pub(super) fn rpki_crl_error(octets: *const u8, size: usize, error: *mut Status) -> Status;
    pub(super) fn rpki_crl_entry(rest: *mut Span, out: *mut RevokedCertificate) -> Status;
    pub(super) fn rpki_crl_contains(octets: *const u8, size: usize, serial: *const [u8; 20], out: *mut bool) -> Status;
    pub(super) fn rpki_crl_revokes(octets: *const u8, size: usize, serial: *const [u8; 20]) -> Status;
    pub(super) fn rpki_serials(
        octets: *const u8,
        size: usize,
        serials: *mut SerialNumber,
        capacity: usize,
        count: *mut usize,
    ) -> Status;
    pub(super) fn rpki_serials_have(serials: *const SerialNumber, count: usize, serial: *const [u8; 20]) -> bool;
    pub(super) fn rpki_signed_object(
        octets: *const u8,
        size: usize,
        strict: bool,
        out: *mut SignedObjectParts,
    ) -> Status;
    pub(super) fn rpki_signed_object_error(octets: *const u8, size: usize, strict: bool, error: *mut Status) -> Status;
    pub(super) fn rpki_signed_object_of_profile(
        octets: *const u8,
        size: usize,
        attributes: bool,
        names: bool,
        object: *mut SignedObjectParts,
        certificate: *mut CertificateParts,
        extensions: *mut KnownExtensions,
    ) -> Status;
    pub(super) fn rpki_manifest(octets: *const u8, size: usize, out: *mut ManifestParts) -> Status;
    pub(super) fn rpki_manifest_error(octets: *const u8, size: usize, error: *mut Status) -> Status;
    pub(super) fn rpki_manifest_file(rest: *mut Span, out: *mut ManifestFileParts) -> Status;
    pub(super) fn rpki_manifest_names(
        octets: *const u8,
        size: usize,
        room: *mut Span,
        capacity: usize,
        out: *mut bool,
    ) -> Status;
    pub(super) fn rpki_roa(octets: *const u8, size: usize, strict: bool, out: *mut RoaParts) -> Status;
    pub(super) fn rpki_roa_error(octets: *const u8, size: usize, strict: bool, error: *mut Status) -> Status;
    pub(super) fn rpki_roa_address(rest: *mut Span, family: u8, out: *mut RoaAddressParts) -> Status;
    pub(super) fn rpki_aspa(octets: *const u8, size: usize, out: *mut AspaParts) -> Status;
    pub(super) fn rpki_aspa_error(octets: *const u8, size: usize, error: *mut Status) -> Status;
    pub(super) fn rpki_aspa_provider(rest: *mut Span, out: *mut u32) -> Status;
    pub(super) fn rpki_checklist(octets: *const u8, size: usize, out: *mut ChecklistParts) -> Status;
    pub(super) fn rpki_checklist_error(octets: *const u8, size: usize, error: *mut Status) -> Status;
    pub(super) fn rpki_checklist_file(rest: *mut Span, out: *mut ChecklistFileParts) -> Status;
    pub(super) fn rpki_tak(octets: *const u8, size: usize, out: *mut TakParts) -> Status;
    pub(super) fn rpki_tak_error(octets: *const u8, size: usize, error: *mut Status) -> Status;
    pub(super) fn rpki_ip_blocks(
        octets: *const u8,
        size: usize,
        blocks: *mut IpBlock,
        capacity: usize,
        count: *mut usize,
    ) -> Status;
    pub(super) fn rpki_as_blocks(
        octets: *const u8,
        size: usize,
        blocks: *mut AsBlock,
        capacity: usize,
        count: *mut usize,
    ) -> Status;
    pub(super) fn rpki_ip_blocks_encompass(
        outer: *const u8,
        outer_size: usize,
        inner: *const u8,
        inner_size: usize,
        out: *mut bool,
    ) -> Status;
    pub(super) fn rpki_as_blocks_encompass(
        outer: *const u8,
        outer_size: usize,
        inner: *const u8,
        inner_size: usize,
        out: *mut bool,
    ) -> Status;
    pub(super) fn rpki_ip_block_text(
        block: *const IpBlock,
        out: *mut u8,
        capacity: usize,
        written: *mut usize,
    ) -> Status;
    pub(super) fn rpki_as_block_text(
        block: *const AsBlock,
        out: *mut u8,
        capacity: usize,
        written: *mut usize,
    ) -> Status;
    pub(super) fn rpki_anchor_verify(octets: *const u8, size: usize, key: *const u8, key_size: usize) -> Status;
    pub(super) fn rpki_certificate_signed_by(
        octets: *const u8,
        size: usize,
        issuer: *const u8,
        issuer_size: usize,
    ) -> Status;
    pub(super) fn rpki_crl_issued_by(
        octets: *const u8,
        size: usize,
        issuer: *const u8,
        issuer_size: usize,
        moment: *const Moment,
    ) -> Status;
    pub(super) fn rpki_object_verify(octets: *const u8, size: usize, strict: bool) -> Status;
    pub(super) fn rpki_content_type(octets: *const u8, size: usize) -> u8;
    pub(super) fn rpki_ip_settle(
        octets: *const u8,
        size: usize,
        issuer: *const IpBlock,
        issuer_count: usize,
        blocks: *mut IpBlock,
        capacity: usize,
        count: *mut usize,
    ) -> Status;
    pub(super) fn rpki_as_settle(
        octets: *const u8,
        size: usize,
        issuer: *const AsBlock,
        issuer_count: usize,
        blocks: *mut AsBlock,
        capacity: usize,
        count: *mut usize,
    ) -> Status;
    pub(super) fn rpki_roa_is_within(
        octets: *const u8,
        size: usize,
        strict: bool,
        blocks: *const IpBlock,
        count: usize,
    ) -> Status;
    pub(super) fn rpki_aspa_is_within(octets: *const u8, size: usize, blocks: *const AsBlock, count: usize) -> Status;
    pub(super) fn rpki_roa_signer(octets: *const u8, size: usize) -> Status;
    pub(super) fn rpki_aspa_signer(octets: *const u8, size: usize) -> Status;
    pub(super) fn rpki_manifest_inherits(octets: *const u8, size: usize) -> Status;
    pub(super) fn rpki_manifest_file_is(digest: *const [u8; 32], octets: *const u8, size: usize) -> Status;
    pub(super) fn rpki_authority_anchor(
        octets: *const u8,
        size: usize,
        key: *const u8,
        key_size: usize,
        moment: *const Moment,
        ip_room: *mut IpBlock,
        ip_capacity: usize,
        as_room: *mut AsBlock,
        as_capacity: usize,
        out: *mut Authority,
    ) -> Status;
    pub(super) fn rpki_authority_list(
        by: *const Authority,
        octets: *const u8,
        size: usize,
        out: *mut Authority,
    ) -> Status;
    pub(super) fn rpki_authority_under(
        by: *const Authority,
        octets: *const u8,
        size: usize,
        ip_room: *mut IpBlock,
        ip_capacity: usize,
        as_room: *mut AsBlock,
        as_capacity: usize,
        out: *mut Authority,
    ) -> Status;
    pub(super) fn rpki_authority_end(
        by: *const Authority,
        octets: *const u8,
        size: usize,
        profile: u8,
        ip_room: *mut IpBlock,
        ip_capacity: usize,
        as_room: *mut AsBlock,
        as_capacity: usize,
        out: *mut Resources,
    ) -> Status;
    pub(super) fn rpki_authority_origin(
        by: *const Authority,
        octets: *const u8,
        size: usize,
        strict: bool,
        out: *mut RoaParts,
    ) -> Status;
    pub(super) fn rpki_authority_providers(
        by: *const Authority,
        octets: *const u8,
        size: usize,
        strict: bool,
        out: *mut AspaParts,
    ) -> Status;
    pub(super) fn rpki_authority_manifest(
        by: *const Authority,
        octets: *const u8,
        size: usize,
        strict: bool,
        room: *mut Span,
        capacity: usize,
        out: *mut Authority,
    ) -> Status;
    pub(super) fn rpki_locator(text: *const u8, size: usize, count: *mut usize, line: *mut usize) -> Status;
    pub(super) fn rpki_locator_uri(
        text: *const u8,
        size: usize,
        number: usize,
        out: *mut u8,
        capacity: usize,
        written: *mut usize,
    ) -> Status;
    pub(super) fn rpki_locator_key(
        text: *const u8,
        size: usize,
        out: *mut u8,
        capacity: usize,
        written: *mut usize,
    ) -> Status;
    pub(super) fn rpki_rsync_parse(text: *const u8, size: usize, out: *mut RsyncParts) -> Status;
    pub(super) fn rpki_rsync_relative_to(
        uri: *const u8,
        uri_size: usize,
        base: *const u8,
        base_size: usize,
        out: *mut Place,
    ) -> Status;
    pub(super) fn rpki_rsync_join(
        base: *const u8,
        base_size: usize,
        path: *const u8,
        path_size: usize,
        out: *mut u8,
        capacity: usize,
        written: *mut usize,
    ) -> Status;
    pub(super) fn rpki_rsync_parent(text: *const u8, size: usize, out: *mut usize) -> Status;
    pub(super) fn rpki_https_parse(text: *const u8, size: usize, out: *mut HttpsParts) -> Status;
    pub(super) fn rpki_rsync_parts_relative_to(
        uri: *const u8,
        uri_size: usize,
        parts: *const RsyncParts,
        base: *const u8,
        base_size: usize,
        base_parts: *const RsyncParts,
        out: *mut Place,
    ) -> Status;
    pub(super) fn rpki_rsync_parts_equal(
        uri: *const u8,
        uri_size: usize,
        parts: *const RsyncParts,
        other: *const u8,
        other_size: usize,
        other_parts: *const RsyncParts,
        out: *mut bool,
    ) -> Status;
    pub(super) fn rpki_rsync_parts_is_parent_of(
        uri: *const u8,
        uri_size: usize,
        parts: *const RsyncParts,
        other: *const u8,
        other_size: usize,
        other_parts: *const RsyncParts,
        out: *mut bool,
    ) -> Status;
    pub(super) fn rpki_rsync_parts_is_identical_to(
        uri: *const u8,
        uri_size: usize,
        parts: *const RsyncParts,
        other: *const u8,
        other_size: usize,
        other_parts: *const RsyncParts,
        out: *mut bool,
    ) -> Status;
    pub(super) fn rpki_rsync_parts_canonical(
        text: *const u8,
        size: usize,
        parts: *const RsyncParts,
        out: *mut u8,
        capacity: usize,
        written: *mut usize,
    ) -> Status;
    pub(super) fn rpki_rsync_parts_parent(
        text: *const u8,
        size: usize,
        parts: *const RsyncParts,
        out: *mut usize,
    ) -> Status;
    pub(super) fn rpki_rsync_parts_join(
        base: *const u8,
        base_size: usize,
        parts: *const RsyncParts,
        path: *const u8,
        path_size: usize,
        out: *mut u8,
        capacity: usize,
        written: *mut usize,
    ) -> Status;
    pub(super) fn rpki_rsync_parts_into_dir(
        text: *const u8,
        size: usize,
        parts: *const RsyncParts,
        out: *mut u8,
        capacity: usize,
        written: *mut usize,
    ) -> Status;
    pub(super) fn rpki_https_parts_equal(
        uri: *const u8,
        uri_size: usize,
        parts: *const HttpsParts,
        other: *const u8,
        other_size: usize,
        other_parts: *const HttpsParts,
        out: *mut bool,
    ) -> Status;
    pub(super) fn rpki_https_parts_canonical(
        text: *const u8,
        size: usize,
        parts: *const HttpsParts,
        out: *mut u8,
        capacity: usize,
        written: *mut usize,
    ) -> Status;
    pub(super) fn rpki_https_parts_parent(
        text: *const u8,
        size: usize,
        parts: *const HttpsParts,
        out: *mut usize,
    ) -> Status;
    pub(super) fn rpki_https_parts_join(
        base: *const u8,
        base_size: usize,
        parts: *const HttpsParts,
        path: *const u8,
        path_size: usize,
        out: *mut u8,
        capacity: usize,
        written: *mut usize,
    ) -> Status;
    pub(super) fn rpki_https_parts_into_dir(
        text: *const u8,
        size: usize,
        parts: *const HttpsParts,
        out: *mut u8,
        capacity: usize,
        written: *mut usize,
    ) -> Status;
    pub(super) fn rpki_hex(
        octets: *const u8,
        size: usize,
        out: *mut u8,
        capacity: usize,
        written: *mut usize,
    ) -> Status;
    pub(super) fn rpki_serial_write(
        serial: *const [u8; 20],
        out: *mut u8,
        capacity: usize,
        written: *mut usize,
    ) -> Status;
    pub(super) fn rpki_time_write(moment: *const Moment, out: *mut u8, capacity: usize, written: *mut usize) -> Status;
    pub(super) fn rpki_time_years_on(moment: *const Moment, years: i32, out: *mut Moment) -> Status;
    pub(super) fn rpki_base64_write(
        octets: *const u8,
        size: usize,
        url_safe: bool,
        out: *mut u8,
        capacity: usize,
        written: *mut usize,
    ) -> Status;
    pub(super) fn rpki_base64_read(
        text: *const u8,
        size: usize,
        flavour: u8,
        out: *mut u8,
        capacity: usize,
        written: *mut usize,
        at: *mut usize,
    ) -> Status;
    pub(super) fn rpki_signed_data_write(
        octets: *const u8,
        size: usize,
        out: *mut u8,
        capacity: usize,
        written: *mut usize,
    ) -> Status;
    pub(super) fn rpki_signed_data_make(
        value: *const u8,
        size: usize,
        signature: *const u8,
        signature_size: usize,
        out: *mut u8,
        capacity: usize,
        written: *mut usize,
    ) -> Status;
    pub(super) fn rpki_public_key_write(
        octets: *const u8,
        size: usize,
        out: *mut u8,
        capacity: usize,
        written: *mut usize,
    ) -> Status;
    pub(super) fn rpki_rsa_key_write(
        modulus: *const u8,
        modulus_size: usize,
        exponent: *const u8,
        exponent_size: usize,
        out: *mut u8,
        capacity: usize,
        written: *mut usize,
    ) -> Status;
    pub(super) fn rpki_rsa_key_of_bits(
        bits: *const u8,
        size: usize,
        out: *mut u8,
        capacity: usize,
        written: *mut usize,
    ) -> Status;
    pub(super) fn rpki_name_of_key(
        octets: *const u8,
        size: usize,
        out: *mut u8,
        capacity: usize,
        written: *mut usize,
    ) -> Status;
    pub(super) fn rpki_extension_write(
        id: *const u8,
        id_size: usize,
        critical: bool,
        octets: *const u8,
        size: usize,
        out: *mut u8,
        capacity: usize,
        written: *mut usize,
    ) -> Status;
    pub(super) fn rpki_serial_decimal(
        serial: *const [u8; 20],
        out: *mut u8,
        capacity: usize,
        written: *mut usize,
    ) -> Status;
    pub(super) fn rpki_serial_of_decimal(text: *const u8, size: usize, out: *mut [u8; 20]) -> Status;
    pub(super) fn rpki_serial_of_octets(octets: *const u8, size: usize, out: *mut [u8; 20]) -> Status;
    pub(super) fn rpki_key_identifier_read(octets: *const u8, size: usize, out: *mut [u8; 20]) -> Status;
    pub(super) fn rpki_key_identifier_of_hex(text: *const u8, size: usize, out: *mut [u8; 20]) -> Status;
    pub(super) fn rpki_time_write_utc(
        moment: *const Moment,
        out: *mut u8,
        capacity: usize,
        written: *mut usize,
    ) -> Status;
    pub(super) fn rpki_time_write_generalized(
        moment: *const Moment,
        out: *mut u8,
        capacity: usize,
        written: *mut usize,
    ) -> Status;
    pub(super) fn rpki_time_seconds_on(moment: *const Moment, seconds: i64, out: *mut Moment) -> Status;
    pub(super) fn rpki_time_of_seconds(seconds: i64, out: *mut Moment) -> Status;
    pub(super) fn rpki_validity_write(
        period: *const Period,
        out: *mut u8,
        capacity: usize,
        written: *mut usize,
    ) -> Status;
    pub(super) fn rpki_validity_at(period: *const Period, moment: *const Moment) -> Status;
    pub(super) fn rpki_validity_trim(period: *const Period, other: *const Period, out: *mut Period) -> Status;
}
