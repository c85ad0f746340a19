//! The calls of `include/rpki.h`, and a safe function over each.
//!
//! This is the only module with `unsafe`. Each call is given slices, whose pointer is never null and whose octets
//! nobody writes to while they are borrowed, and places to write to that are borrowed for the call alone and so apart
//! from everything else: that is all that the header asks for. Before the first of them the version of the library is
//! compared with the header's. Miri runs no foreign functions, and so none of this.

mod declarations;

// Links the library.
extern crate rpki_proved_sys as _;

use bytes::Bytes;
pub(crate) use declarations::*;
use std::mem::MaybeUninit;
use std::sync::atomic::{AtomicBool, Ordering};

impl Default for Span {
    /// No octets.
    fn default() -> Self {
        Span { data: std::ptr::null(), size: 0 }
    }
}

impl Span {
    /// The span of these octets, which lasts as long as they do.
    fn over(octets: &[u8]) -> Self {
        Span { data: octets.as_ptr(), size: octets.len() }
    }

    /// The part of the octets that a call has found it in.
    pub(crate) fn of<'a>(&self, octets: &'a [u8]) -> &'a [u8] {
        &octets[self.range(octets)]
    }

    /// Where it is in the octets that a call has found it in; one without octets may be elsewhere.
    pub(crate) fn range(&self, octets: &[u8]) -> std::ops::Range<usize> {
        match (self.data as usize).wrapping_sub(octets.as_ptr() as usize) {
            start if self.size == 0 && start > octets.len() => 0..0,
            start => start..start + self.size,
        }
    }
}

impl Place {
    /// The octets at this place, as a range.
    pub(crate) fn range(&self) -> std::ops::Range<usize> {
        self.start..self.start + self.length
    }

    /// The part of the text that is at this place.
    pub(crate) fn of_text<'a>(&self, text: &'a str) -> &'a str {
        &text[self.start..][..self.length]
    }
}

/// The version of the library that is linked: the major number times 65,536, the minor number times 256, and the patch
/// number.
pub(crate) fn version() -> u32 {
    // SAFETY: the call takes nothing and writes nothing.
    unsafe { rpki_version() }
}

/// Whether the declarations are those of a library of this version: of the header's major number, and of its minor
/// number or, from 1.0 on, a later one.
pub(crate) fn fits(version: u32) -> bool {
    let (major, minor) = (version >> 16, version >> 8 & 0xFF);
    major == VERSION_MAJOR && (minor == VERSION_MINOR || major > 0 && minor > VERSION_MINOR)
}

/// Whether the version of the library was compared.
static COMPARED: AtomicBool = AtomicBool::new(false);

/// Panics where a library of another version is linked. Every function below asks this before its call.
#[inline]
fn compared() {
    if !COMPARED.load(Ordering::Relaxed) {
        compare();
    }
}

#[cold]
fn compare() {
    let version = version();
    let (major, minor, patch) = (version >> 16, version >> 8 & 0xFF, version & 0xFF);
    assert!(
        fits(version),
        "the library that is linked is of version {major}.{minor}.{patch}, and not of {VERSION_MAJOR}.{VERSION_MINOR} \
         or, from 1.0 on, a later one"
    );
    COMPARED.store(true, Ordering::Relaxed);
}

/// What a function below panics with where a call of the library says that it has written more than there is room for.
const TOO_MANY: &str = "the library has written more than there is room for";

/// A call that takes octets and has one place to write to.
type Reader<T> = unsafe extern "C" fn(*const u8, usize, *mut T) -> Status;

/// What a reader writes, or its status.
///
/// # Safety
/// The reader is one of the header's, and `T` is the type that it writes.
#[inline]
unsafe fn read<T: Default>(reader: Reader<T>, octets: &[u8]) -> Result<T, Status> {
    // SAFETY: pointer and size are those of one slice, which is borrowed for the call.
    told(|out| unsafe { reader(octets.as_ptr(), octets.len(), out) })
}

/// A safe function over each call that takes octets and has one place to write to.
macro_rules! readers {
    ($($name:ident($call:ident) -> $found:ty;)*) => {
        $(pub(crate) fn $name(octets: &[u8]) -> Result<$found, Status> {
            // SAFETY: the call is one of the header's, and it writes that type.
            unsafe { read($call, octets) }
        })*
    };
}

readers! {
    header(rpki_header) -> HeaderParts;
    walk(rpki_walk) -> Walked;
    fault(rpki_fault) -> usize;
    signed_data(rpki_signed_data) -> SignedParts;
    public_key(rpki_public_key) -> KeyParts;
    key_identifier(rpki_key_identifier) -> [u8; 20];
    serial(rpki_serial) -> [u8; 20];
    time(rpki_time) -> Moment;
    validity(rpki_validity) -> Period;
    extension(rpki_extension) -> ExtensionParts;
    serial_of_decimal(rpki_serial_of_decimal) -> [u8; 20];
    serial_of_octets(rpki_serial_of_octets) -> [u8; 20];
    key_identifier_read(rpki_key_identifier_read) -> [u8; 20];
    key_identifier_of_hex(rpki_key_identifier_of_hex) -> [u8; 20];
    certificate(rpki_certificate) -> CertificateParts;
    certificate_extensions(rpki_certificate_extensions) -> KnownExtensions;
    distribution_point(rpki_distribution_point) -> Span;
    crl(rpki_crl) -> CrlParts;
    manifest(rpki_manifest) -> ManifestParts;
    aspa(rpki_aspa) -> AspaParts;
    rsync_parse(rpki_rsync_parse) -> RsyncParts;
    rsync_parent(rpki_rsync_parent) -> usize;
    https_parse(rpki_https_parse) -> HttpsParts;
}

/// Whether the signature is one of the message by the public key that the octets are; else why not.
pub(crate) fn verify(key: &[u8], message: &[u8], signature: &[u8]) -> Result<(), Status> {
    compared();
    // SAFETY: the pointers and sizes are those of slices, which are borrowed for the call.
    done(unsafe {
        rpki_verify(key.as_ptr(), key.len(), message.as_ptr(), message.len(), signature.as_ptr(), signature.len())
    })
}

/// A safe function over each call that decides something of octets, and of nothing else.
macro_rules! deciders {
    ($($name:ident($call:ident);)*) => {
        $(pub(crate) fn $name(octets: &[u8]) -> Result<(), Status> {
            compared();
            // SAFETY: pointer and size are those of one slice, which is borrowed for the call.
            done(unsafe { $call(octets.as_ptr(), octets.len()) })
        })*
    };
}

deciders! {
    manifest_inherits(rpki_manifest_inherits);
    roa_signer(rpki_roa_signer);
    aspa_signer(rpki_aspa_signer);
}

/// Whether the certificate is that of the trust anchor with this key.
pub(crate) fn anchor_verify(octets: &[u8], key: &[u8]) -> Result<(), Status> {
    compared();
    // SAFETY: both pointers and sizes are those of slices, which are borrowed for the call.
    done(unsafe { rpki_anchor_verify(octets.as_ptr(), octets.len(), key.as_ptr(), key.len()) })
}

/// Whether the certificate was issued by the other, but for periods, resources, revocation and profiles.
pub(crate) fn certificate_signed_by(octets: &[u8], issuer: &[u8]) -> Result<(), Status> {
    compared();
    // SAFETY: both pointers and sizes are those of slices, which are borrowed for the call.
    done(unsafe { rpki_certificate_signed_by(octets.as_ptr(), octets.len(), issuer.as_ptr(), issuer.len()) })
}

/// Whether the revocation list was issued by the subject of the certificate, and is in force at the moment.
pub(crate) fn crl_issued_by(octets: &[u8], issuer: &[u8], now: &Moment) -> Result<(), Status> {
    compared();
    // SAFETY: both pointers and sizes are those of slices, which are borrowed for the call, as is the moment.
    done(unsafe { rpki_crl_issued_by(octets.as_ptr(), octets.len(), issuer.as_ptr(), issuer.len(), now) })
}

/// The type of a content, by the contents octets of its identifier.
pub(crate) fn content_type(octets: &[u8]) -> u8 {
    compared();
    // SAFETY: pointer and size are those of one slice, which is borrowed for the call.
    unsafe { rpki_content_type(octets.as_ptr(), octets.len()) }
}

/// The addresses that a certificate has under these of its issuer.
pub(crate) fn ip_settle(octets: &[u8], issuer: &[IpBlock]) -> Result<Vec<IpBlock>, Status> {
    let (start, size, own, count) = (octets.as_ptr(), octets.len(), issuer.as_ptr(), issuer.len());
    // SAFETY: both pointers and sizes are those of slices, which are borrowed for the call, and the vector that is
    // written to is apart from them; the rest is of `listed`.
    unsafe { listed(16, |blocks, capacity, found| rpki_ip_settle(start, size, own, count, blocks, capacity, found)) }
}

/// The same of AS numbers.
pub(crate) fn as_settle(octets: &[u8], issuer: &[AsBlock]) -> Result<Vec<AsBlock>, Status> {
    let (start, size, own, count) = (octets.as_ptr(), octets.len(), issuer.as_ptr(), issuer.len());
    // SAFETY: as above.
    unsafe { listed(16, |blocks, capacity, found| rpki_as_settle(start, size, own, count, blocks, capacity, found)) }
}

/// Whether all addresses of a route origin attestation are among the blocks.
pub(crate) fn roa_is_within(octets: &[u8], strict: bool, blocks: &[IpBlock]) -> Result<(), Status> {
    compared();
    // SAFETY: both pointers and sizes are those of slices, which are borrowed for the call.
    done(unsafe { rpki_roa_is_within(octets.as_ptr(), octets.len(), strict, blocks.as_ptr(), blocks.len()) })
}

/// Whether the customer of an attestation of providers is among the blocks.
pub(crate) fn aspa_is_within(octets: &[u8], blocks: &[AsBlock]) -> Result<(), Status> {
    compared();
    // SAFETY: both pointers and sizes are those of slices, which are borrowed for the call.
    done(unsafe { rpki_aspa_is_within(octets.as_ptr(), octets.len(), blocks.as_ptr(), blocks.len()) })
}

/// Whether the octets have this digest by SHA-256.
pub(crate) fn manifest_file_is(digest: &[u8; 32], octets: &[u8]) -> Result<(), Status> {
    compared();
    // SAFETY: pointer and size are those of one slice, which is borrowed for the call, as is the digest.
    done(unsafe { rpki_manifest_file_is(digest, octets.as_ptr(), octets.len()) })
}

/// Whether the signed object was signed by the key of the certificate in it; else the first that doesn't hold.
pub(crate) fn object_verify(octets: &[u8], strict: bool) -> Result<(), Status> {
    compared();
    // SAFETY: pointer and size are those of one slice, which is borrowed for the call.
    done(unsafe { rpki_object_verify(octets.as_ptr(), octets.len(), strict) })
}

/// The digest of the octets by SHA-256.
pub(crate) fn sha256(octets: &[u8]) -> [u8; 32] {
    compared();
    let mut digest = [0; 32];
    // SAFETY: the pointer and the size are those of a slice, which is borrowed for the call; `digest` is this
    // function's own.
    unsafe { rpki_sha256(octets.as_ptr(), octets.len(), &mut digest) };
    digest
}

/// The entries of the value at the front of the octets. `OUT_OF_MEMORY` also where there is no room for them.
pub(crate) fn index(octets: &[u8]) -> Result<Vec<Entry>, Status> {
    compared();
    // As many as certificates have, which are then found in one call.
    let mut few = [MaybeUninit::<Entry>::uninit(); 128];
    let mut entries: Vec<Entry> = Vec::new();
    let mut count = 0;
    // SAFETY: both pointers and sizes are those of slices, which are borrowed for the call, the second for writing
    // alone; `count` is this function's own.
    let status = unsafe { rpki_index(octets.as_ptr(), octets.len(), few.as_mut_ptr().cast(), few.len(), &mut count) };
    if status != OK && status != TOO_SMALL {
        return Err(status);
    }
    entries.try_reserve_exact(count).map_err(|_| OUT_OF_MEMORY)?;
    if status == OK {
        assert!(count <= few.len(), "{TOO_MANY}");
        // SAFETY: so many entries of `few` were written, and there is room for as many.
        unsafe { few.as_ptr().cast::<Entry>().copy_to_nonoverlapping(entries.as_mut_ptr(), count) };
    } else {
        // SAFETY: as above; the capacity is what was reserved.
        let capacity = count;
        done(unsafe { rpki_index(octets.as_ptr(), octets.len(), entries.as_mut_ptr(), capacity, &mut count) })?;
        assert!(count <= capacity, "{TOO_MANY}");
    }
    // SAFETY: so many entries were written.
    unsafe { entries.set_len(count) };
    Ok(entries)
}

/// Entries that a call writes to an array, which is told the array and its capacity, and tells how many they are; first
/// with room for `guess` entries.
///
/// # Safety
/// Where the call returns 0, it has written to the front of the array as many entries as it tells, and no more than the
/// capacity; where it returns `TOO_SMALL`, it tells more than the capacity.
unsafe fn listed<T>(guess: usize, call: impl Fn(*mut T, usize, *mut usize) -> Status) -> Result<Vec<T>, Status> {
    compared();
    let mut entries = Vec::with_capacity(guess);
    loop {
        let mut count = 0;
        match call(entries.as_mut_ptr(), entries.capacity(), &mut count) {
            OK => {
                assert!(count <= entries.capacity(), "{TOO_MANY}");
                // SAFETY: so many entries of the array were written, which has at least that capacity.
                unsafe { entries.set_len(count) };
                return Ok(entries);
            }
            TOO_SMALL => entries.reserve_exact(count),
            status => return Err(status),
        }
    }
}

/// How many entries contents of this size have room in at first: as many as most certificates have.
fn few(size: usize) -> usize {
    (size / 4).min(64)
}

/// The entries of the contents of an extension of addresses.
pub(crate) fn ip_blocks(octets: &[u8]) -> Result<Vec<IpBlock>, Status> {
    let (start, size) = (octets.as_ptr(), octets.len());
    // SAFETY: pointer and size are those of one slice, which is borrowed for the call; the rest is of `listed`.
    unsafe { listed(few(size), |entries, capacity, count| rpki_ip_blocks(start, size, entries, capacity, count)) }
}

/// The entries of the contents of an extension of AS numbers.
pub(crate) fn as_blocks(octets: &[u8]) -> Result<Vec<AsBlock>, Status> {
    let (start, size) = (octets.as_ptr(), octets.len());
    // SAFETY: pointer and size are those of one slice, which is borrowed for the call; the rest is of `listed`.
    unsafe { listed(few(size), |entries, capacity, count| rpki_as_blocks(start, size, entries, capacity, count)) }
}

/// Writes the text of a block of addresses to the front of the buffer, and says how many octets it has.
pub(crate) fn ip_block_text(block: &IpBlock, out: &mut [u8; 79]) -> Result<usize, Status> {
    // SAFETY: the block is borrowed for the call; pointer and size are those of a slice.
    placed(out, |out, capacity, written| unsafe { rpki_ip_block_text(block, out, capacity, written) })
}

/// Whether the addresses of the second contents are within those of the first.
pub(crate) fn ip_blocks_encompass(outer: &[u8], inner: &[u8]) -> Result<bool, Status> {
    // SAFETY: both pointers and sizes are those of slices, which are borrowed for the call.
    told(|out| unsafe { rpki_ip_blocks_encompass(outer.as_ptr(), outer.len(), inner.as_ptr(), inner.len(), out) })
}

/// Whether the AS numbers of the second contents are within those of the first.
pub(crate) fn as_blocks_encompass(outer: &[u8], inner: &[u8]) -> Result<bool, Status> {
    // SAFETY: both pointers and sizes are those of slices, which are borrowed for the call.
    told(|out| unsafe { rpki_as_blocks_encompass(outer.as_ptr(), outer.len(), inner.as_ptr(), inner.len(), out) })
}

/// A status as a `Result`.
fn done(status: Status) -> Result<(), Status> {
    match status {
        OK => Ok(()),
        status => Err(status),
    }
}

pub(crate) fn name_inspect(octets: &[u8], profile: u8, strict: bool) -> Result<(), Status> {
    compared();
    // SAFETY: pointer and size are those of one slice, which is borrowed for the call.
    done(unsafe { rpki_name_inspect(octets.as_ptr(), octets.len(), profile, strict) })
}

pub(crate) fn certificate_inspect(octets: &[u8], profile: u8, strict: bool) -> Result<(), Status> {
    compared();
    // SAFETY: pointer and size are those of one slice, which is borrowed for the call.
    done(unsafe { rpki_certificate_inspect(octets.as_ptr(), octets.len(), profile, strict) })
}

/// The parts of a certificate that keeps the profile of this number, and its extensions.
pub(crate) fn certificate_of_profile(
    octets: &[u8],
    profile: u8,
    strict: bool,
) -> Result<(CertificateParts, KnownExtensions), Status> {
    let mut extensions = KnownExtensions::default();
    // SAFETY: pointer and size are those of one slice, which is borrowed for the call; `extensions` is this function's
    // own.
    let parts = told(|out| unsafe {
        rpki_certificate_of_profile(octets.as_ptr(), octets.len(), profile, strict, out, &mut extensions)
    })?;
    Ok((parts, extensions))
}

/// The malformed part, and what is wrong with it, as statuses, by a call that writes the second.
fn faulted(call: impl FnOnce(&mut Status) -> Status) -> Result<(), (Status, Status)> {
    compared();
    let mut error = OK;
    let status = call(&mut error);
    done(status).map_err(|part| (part, error))
}

/// The malformed part of a certificate, and what is wrong with it.
pub(crate) fn certificate_error(octets: &[u8]) -> Result<(), (Status, Status)> {
    // SAFETY: pointer and size are those of one slice, which is borrowed for the call.
    faulted(|error| unsafe { rpki_certificate_error(octets.as_ptr(), octets.len(), error) })
}

/// The same of a revocation list.
pub(crate) fn crl_error(octets: &[u8]) -> Result<(), (Status, Status)> {
    // SAFETY: pointer and size are those of one slice, which is borrowed for the call.
    faulted(|error| unsafe { rpki_crl_error(octets.as_ptr(), octets.len(), error) })
}

/// The same of a signed object.
pub(crate) fn signed_object_error(octets: &[u8], strict: bool) -> Result<(), (Status, Status)> {
    // SAFETY: pointer and size are those of one slice, which is borrowed for the call.
    faulted(|error| unsafe { rpki_signed_object_error(octets.as_ptr(), octets.len(), strict, error) })
}

pub(crate) fn signed_object(octets: &[u8], strict: bool) -> Result<SignedObjectParts, Status> {
    // SAFETY: pointer and size are those of one slice, which is borrowed for the call.
    told(|out| unsafe { rpki_signed_object(octets.as_ptr(), octets.len(), strict, out) })
}

/// The parts of a signed object, and those and the extensions of its certificate, which has the profile of an end
/// entity.
pub(crate) fn signed_object_of_profile(
    octets: &[u8],
    attributes: bool,
    names: bool,
) -> Result<(SignedObjectParts, CertificateParts, KnownExtensions), Status> {
    let (mut certificate, mut extensions) = Default::default();
    // SAFETY: pointer and size are those of one slice, which is borrowed for the call; what is written is this
    // function's own.
    let object = told(|out| unsafe {
        let (start, size) = (octets.as_ptr(), octets.len());
        rpki_signed_object_of_profile(start, size, attributes, names, out, &mut certificate, &mut extensions)
    })?;
    Ok((object, certificate, extensions))
}

pub(crate) fn roa(octets: &[u8], strict: bool) -> Result<RoaParts, Status> {
    // SAFETY: pointer and size are those of one slice, which is borrowed for the call.
    told(|out| unsafe { rpki_roa(octets.as_ptr(), octets.len(), strict, out) })
}

/// The malformed part of a manifest, and what is wrong with it.
pub(crate) fn manifest_error(octets: &[u8]) -> Result<(), (Status, Status)> {
    // SAFETY: pointer and size are those of one slice, which is borrowed for the call.
    faulted(|error| unsafe { rpki_manifest_error(octets.as_ptr(), octets.len(), error) })
}

/// The malformed part of a route origin attestation, and what is wrong with it.
pub(crate) fn roa_error(octets: &[u8], strict: bool) -> Result<(), (Status, Status)> {
    // SAFETY: pointer and size are those of one slice, which is borrowed for the call.
    faulted(|error| unsafe { rpki_roa_error(octets.as_ptr(), octets.len(), strict, error) })
}

/// The same of an attestation of providers.
pub(crate) fn aspa_error(octets: &[u8]) -> Result<(), (Status, Status)> {
    // SAFETY: pointer and size are those of one slice, which is borrowed for the call.
    faulted(|error| unsafe { rpki_aspa_error(octets.as_ptr(), octets.len(), error) })
}

/// What a call takes off the front of the octets, and the octets that follow it.
#[inline]
fn taken<T: Default>(octets: &[u8], call: impl FnOnce(*mut Span, *mut T) -> Status) -> Result<(T, &[u8]), Status> {
    let mut rest = Span::over(octets);
    let found = told(|out| call(&mut rest, out))?;
    Ok((found, &octets[octets.len() - rest.size..]))
}

/// A safe function over each call that takes a value off the front of a span.
macro_rules! takers {
    ($($name:ident($call:ident) -> $found:ty;)*) => {
        $(pub(crate) fn $name(octets: &[u8]) -> Result<($found, &[u8]), Status> {
            // SAFETY: the span is of one slice, which is borrowed for the call, and the call writes that type.
            taken(octets, |rest, out| unsafe { $call(rest, out) })
        })*
    };
}

takers! {
    access_description(rpki_access_description) -> AccessParts;
    general_name(rpki_general_name) -> GeneralNameParts;
    crl_entry(rpki_crl_entry) -> RevokedCertificate;
    manifest_file(rpki_manifest_file) -> ManifestFileParts;
    aspa_provider(rpki_aspa_provider) -> u32;
}

pub(crate) fn roa_address(octets: &[u8], family: u8) -> Result<(RoaAddressParts, &[u8]), Status> {
    // SAFETY: the span is of one slice, which is borrowed for the call.
    taken(octets, |rest, out| unsafe { rpki_roa_address(rest, family, out) })
}

/// Whether no two of the files of a manifest have the same name: octets of a manifest of so many files.
pub(crate) fn manifest_names_differ(octets: &[u8], count: usize) -> bool {
    let mut room = vec![Span::default(); count];
    let (start, capacity) = (room.as_mut_ptr(), room.len());
    // SAFETY: the first pointer and size are those of a slice, which is borrowed for the call; the second those of a
    // vector of this function's own, of spans without octets.
    let found = told(|out| unsafe { rpki_manifest_names(octets.as_ptr(), octets.len(), start, capacity, out) });
    found.expect("a manifest that was read, and room for its files")
}

/// Whether one of the entries of a revocation list has this serial number.
pub(crate) fn crl_contains(entries: &[u8], serial: &[u8; 20]) -> Result<bool, Status> {
    // SAFETY: pointer and size are those of one slice, which is borrowed for the call, as is the serial number.
    told(|out| unsafe { rpki_crl_contains(entries.as_ptr(), entries.len(), serial, out) })
}

pub(crate) fn rsync_relative_to(uri: &[u8], base: &[u8]) -> Result<Place, Status> {
    // SAFETY: both pointers and sizes are those of slices, which are borrowed for the call.
    told(|out| unsafe { rpki_rsync_relative_to(uri.as_ptr(), uri.len(), base.as_ptr(), base.len(), out) })
}

/// Writes the joined text to the buffer, and says how many octets it has.
pub(crate) fn rsync_join(base: &[u8], path: &[u8], out: &mut [u8]) -> Result<usize, Status> {
    // SAFETY: the pointers and sizes are those of slices, which are borrowed for the call.
    placed(out, |out, capacity, written| unsafe {
        rpki_rsync_join(base.as_ptr(), base.len(), path.as_ptr(), path.len(), out, capacity, written)
    })
}

/// Octets that a call stores, which is told a buffer and its capacity, and tells how many they are; first with room for
/// `guess` octets.
///
/// # Safety
/// Where the call returns 0, it has written to the front of the buffer as many octets as it tells, and no more than the
/// capacity; where it returns `TOO_SMALL`, it tells more than the capacity.
unsafe fn stored(guess: usize, call: impl Fn(*mut u8, usize, *mut usize) -> Status) -> Result<Vec<u8>, Status> {
    compared();
    let mut octets = Vec::with_capacity(guess);
    loop {
        let mut written = 0;
        match call(octets.as_mut_ptr(), octets.capacity(), &mut written) {
            OK => {
                assert!(written <= octets.capacity(), "{TOO_MANY}");
                // SAFETY: so many octets of the buffer were written, which has at least that capacity.
                unsafe { octets.set_len(written) };
                return Ok(octets);
            }
            TOO_SMALL => octets.reserve_exact(written),
            status => return Err(status),
        }
    }
}

/// How many octets a call stores at the front of the buffer, which is told the buffer and its capacity.
#[inline]
fn placed(out: &mut [u8], call: impl FnOnce(*mut u8, usize, *mut usize) -> Status) -> Result<usize, Status> {
    let (start, capacity) = (out.as_mut_ptr(), out.len());
    let size = told(|written| call(start, capacity, written))?;
    assert!(size <= capacity, "{TOO_MANY}");
    Ok(size)
}

/// A value that a call tells by one place to write to.
#[inline]
fn told<T: Default>(call: impl FnOnce(&mut T) -> Status) -> Result<T, Status> {
    compared();
    let mut out = T::default();
    match call(&mut out) {
        OK => Ok(out),
        status => Err(status),
    }
}

/// Where the parts of a URI are, of a text that was read.
pub(crate) trait Parts: Copy {
    /// Where the parts of a text are; a text is refused that has other octets than those of ASCII.
    fn of(text: &[u8]) -> Result<Self, Status>;
}

/// Where the scheme and the authority of a text end, and whether they are in lower case: in one number, since a struct of
/// few numbers is copied at once.
#[derive(Clone, Copy)]
struct Front(usize);

impl Front {
    #[inline]
    fn of(text: &[u8], end: usize) -> Self {
        // All are looked at, several at a time.
        let is_lower = !text[..end].iter().fold(false, |found, octet| found | octet.is_ascii_uppercase());
        Front(end << 1 | usize::from(is_lower))
    }

    #[inline]
    fn end(self) -> usize {
        self.0 >> 1
    }

    #[inline]
    fn is_lower(self) -> bool {
        self.0 & 1 == 1
    }
}

/// Where the first parts of an rsync URI end, `rsync://AUTHORITY/MODULE/PATH`: the rest is the
/// path.
#[derive(Clone, Copy)]
pub(crate) struct RsyncEnds {
    front: Front,
    module_name: usize,
}

/// How many octets are before the authority: `rsync://` or `https://`.
const SCHEME: usize = 8;

impl RsyncEnds {
    /// The end of the authority.
    #[inline]
    pub(crate) fn authority(self) -> usize {
        self.front.end()
    }

    /// Whether the scheme and the authority are in lower case.
    #[inline]
    pub(crate) fn is_lower(self) -> bool {
        self.front.is_lower()
    }

    /// Where the authority and the name of the module end.
    #[inline]
    pub(crate) fn places_of_module(self) -> (usize, usize) {
        (self.authority(), self.module_name)
    }

    /// The end of the name of the module.
    #[inline]
    pub(crate) fn module_name(self) -> usize {
        self.module_name
    }

    /// The places of the parts of a text of this size.
    fn places(self, size: usize) -> RsyncParts {
        let (authority, module_name) = (self.authority(), self.module_name());
        RsyncParts {
            authority: place(SCHEME, authority),
            module_name: place(authority + 1, module_name),
            path: place(module_name + 1, size),
        }
    }
}

/// The place from the one octet to the other.
fn place(start: usize, end: usize) -> Place {
    Place { start, length: end - start }
}

impl Parts for RsyncEnds {
    fn of(text: &[u8]) -> Result<Self, Status> {
        let RsyncParts { authority, module_name, .. } = rsync_parse(text)?;
        let (authority, module_name) = (authority.range().end, module_name.range().end);
        Ok(RsyncEnds { front: Front::of(text, authority), module_name })
    }
}

/// Where the authority of an https URI ends: the rest is the path.
#[derive(Clone, Copy)]
pub(crate) struct HttpsEnds {
    front: Front,
}

impl HttpsEnds {
    /// The end of the authority.
    #[inline]
    pub(crate) fn authority(self) -> usize {
        self.front.end()
    }

    /// Whether the scheme and the authority are in lower case.
    #[inline]
    pub(crate) fn is_lower(self) -> bool {
        self.front.is_lower()
    }

    /// The places of the parts of a text of this size.
    fn places(self, size: usize) -> HttpsParts {
        let authority = self.authority();
        HttpsParts { authority: place(SCHEME, authority), path: place(authority, size) }
    }
}

impl Parts for HttpsEnds {
    fn of(text: &[u8]) -> Result<Self, Status> {
        let authority = https_parse(text)?.authority.range().end;
        Ok(HttpsEnds { front: Front::of(text, authority) })
    }
}

/// A text that a call has made of one that was read: its octets are characters of ASCII.
pub(crate) struct Made(Vec<u8>);

/// A text that a call has accepted, and where it found the parts; or one that a call has made of such a text.
pub(crate) struct Parsed<P> {
    text: Bytes,
    ends: P,
}

/// Not derived: the text is made first, so that it need not be moved.
impl<P: Copy> Clone for Parsed<P> {
    #[inline]
    fn clone(&self) -> Self {
        let text = self.text.clone();
        Parsed { text, ends: self.ends }
    }
}

impl<P: Parts> Parsed<P> {
    /// Reads a text, and shares it.
    pub(crate) fn read(text: Bytes) -> Result<Self, Status> {
        let ends = P::of(&text)?;
        Ok(Parsed { text, ends })
    }

    /// Reads a text, and keeps a copy of it.
    pub(crate) fn read_copy(text: &[u8]) -> Result<Self, Status> {
        let ends = P::of(text)?;
        Ok(Parsed { text: Bytes::copy_from_slice(text), ends })
    }

    pub(crate) fn bytes(&self) -> &Bytes {
        &self.text
    }

    /// Where the parts end.
    #[inline]
    pub(crate) fn ends(&self) -> P {
        self.ends
    }

    #[inline]
    pub(crate) fn as_str(&self) -> &str {
        // SAFETY: each octet is a character of ASCII. The calls that read a text refuse all others, those that join a
        // path to it too; what else they make is the front of a text that was read, or that text and a slash.
        unsafe { std::str::from_utf8_unchecked(&self.text) }
    }

    /// The scheme, the authority, and what is between them.
    #[inline]
    pub(crate) fn up_to(&self, end: usize) -> &str {
        &self.as_str()[..end]
    }

    /// The authority, which ends here.
    #[inline]
    pub(crate) fn authority(&self, end: usize) -> &str {
        &self.as_str()[SCHEME..end]
    }

    /// Moves the text to memory that nothing else shares.
    pub(crate) fn unshare(&mut self) {
        self.text = Bytes::copy_from_slice(&self.text);
    }

    /// The first octets of the text, which a call has found to be a URI.
    #[inline]
    pub(crate) fn front(&self, size: usize) -> Self {
        let text = self.text.slice(..size);
        Parsed { text, ends: self.ends }
    }

    /// The text that a call has made of this one: its parts are the same, but the path, which ends with it.
    #[inline]
    pub(crate) fn with_text(&self, text: Made) -> Self {
        let text = Bytes::from(text.0);
        Parsed { text, ends: self.ends }
    }
}

// SAFETY of the calls below: pointers and sizes are those of slices, which are borrowed for the call, as are the parts;
// what is written to is the function's own. A buffer has the capacity that is passed, and `written` is apart from it.
// Each call stores as `stored` asks, by its contract. No call trusts the parts.

/// The calls on texts with places of their parts.
macro_rules! calls_on {
    ($ends:ident: canonical($canonical:ident), parent($(#[$if:meta])* $parent:ident), join($join:ident),
     into_dir($into_dir:ident);
     $($(#[$when:meta])* $tell:ident($two:ident) -> $told:ty),*) => {
        impl Parsed<$ends> {
            $($(#[$when])*
            pub(crate) fn $tell(&self, other: &Self) -> Result<$told, Status> {
                let (u, v) = (&self.text, &other.text);
                let (parts, others) = (self.ends.places(u.len()), other.ends.places(v.len()));
                // SAFETY: as above.
                told(|out| unsafe { $two(u.as_ptr(), u.len(), &parts, v.as_ptr(), v.len(), &others, out) })
            })*

            /// The text with its scheme and its authority in lower case.
            #[cfg(test)]
            pub(crate) fn canonical(&self) -> Result<Vec<u8>, Status> {
                let (text, parts) = (&self.text, self.ends.places(self.text.len()));
                // SAFETY: as above.
                unsafe {
                    stored(text.len(), |out, capacity, written| {
                        $canonical(text.as_ptr(), text.len(), &parts, out, capacity, written)
                    })
                }
            }

            /// How many octets of the text are its parent's.
            $(#[$if])*
            pub(crate) fn parent(&self) -> Result<usize, Status> {
                let (text, parts) = (&self.text, self.ends.places(self.text.len()));
                // SAFETY: as above.
                told(|out| unsafe { $parent(text.as_ptr(), text.len(), &parts, out) })
            }

            /// The text with the path joined to it; `guess` is how many octets that has.
            pub(crate) fn join(&self, path: &[u8], guess: usize) -> Result<Made, Status> {
                let (base, parts) = (&self.text, self.ends.places(self.text.len()));
                // SAFETY: as above.
                let text = unsafe {
                    stored(guess, |out, capacity, written| {
                        let (path, size) = (path.as_ptr(), path.len());
                        $join(base.as_ptr(), base.len(), &parts, path, size, out, capacity, written)
                    })
                };
                text.map(Made)
            }

            /// The text with a slash last.
            pub(crate) fn as_dir(&self) -> Result<Made, Status> {
                let (text, parts) = (&self.text, self.ends.places(self.text.len()));
                // SAFETY: as above.
                let text = unsafe {
                    stored(text.len() + 1, |out, capacity, written| {
                        $into_dir(text.as_ptr(), text.len(), &parts, out, capacity, written)
                    })
                };
                text.map(Made)
            }
        }
    };
}

calls_on! {
    RsyncEnds: canonical(rpki_rsync_parts_canonical), parent(#[cfg(test)] rpki_rsync_parts_parent),
    join(rpki_rsync_parts_join), into_dir(rpki_rsync_parts_into_dir);
    #[cfg(test)]
    relative_to(rpki_rsync_parts_relative_to) -> Place,
    #[cfg(test)]
    equal(rpki_rsync_parts_equal) -> bool,
    #[cfg(test)]
    is_parent_of(rpki_rsync_parts_is_parent_of) -> bool,
    #[cfg(test)]
    is_identical_to(rpki_rsync_parts_is_identical_to) -> bool
}

calls_on! {
    HttpsEnds: canonical(rpki_https_parts_canonical), parent(rpki_https_parts_parent), join(rpki_https_parts_join),
    into_dir(rpki_https_parts_into_dir);
    #[cfg(test)]
    equal(rpki_https_parts_equal) -> bool
}

/// A call that takes octets and stores others.
type Writer = unsafe extern "C" fn(*const u8, usize, *mut u8, usize, *mut usize) -> Status;

/// What a writer stores; first with room for `guess` octets.
///
/// # Safety
/// The writer is one of those above.
unsafe fn write(writer: Writer, octets: &[u8], guess: usize) -> Result<Vec<u8>, Status> {
    // SAFETY: pointer and size are those of one slice, which is borrowed for the call; the rest is of `stored`.
    unsafe { stored(guess, |out, capacity, written| writer(octets.as_ptr(), octets.len(), out, capacity, written)) }
}

/// Writes the octets in hexadecimal digits to the front of the buffer, and says how many they are.
#[cfg(test)]
pub(crate) fn hex_into(octets: &[u8], out: &mut [u8]) -> Result<usize, Status> {
    // SAFETY: pointers and sizes are those of slices, which are borrowed for the call.
    placed(out, |out, capacity, written| unsafe { rpki_hex(octets.as_ptr(), octets.len(), out, capacity, written) })
}

/// The text of the octets in base 64.
pub(crate) fn base64_write(octets: &[u8], url_safe: bool) -> Result<Vec<u8>, Status> {
    // SAFETY: pointer and size are those of one slice, which is borrowed for the call; the rest is of `stored`.
    unsafe {
        stored(octets.len().div_euclid(3) * 4 + 4, |out, capacity, written| {
            rpki_base64_write(octets.as_ptr(), octets.len(), url_safe, out, capacity, written)
        })
    }
}

/// The octets of a text in base 64 of this flavour; else why it is none, and where.
pub(crate) fn base64_read(text: &[u8], flavour: u8) -> Result<Vec<u8>, (Status, usize)> {
    let at = std::cell::Cell::new(0);
    // SAFETY: pointer and size are those of one slice, which is borrowed for the call; `at` is this function's own, and
    // nothing else looks at it during the call; the rest is of `stored`.
    let octets = unsafe {
        stored(text.len().div_euclid(4) * 3 + 3, |out, capacity, written| {
            rpki_base64_read(text.as_ptr(), text.len(), flavour, out, capacity, written, at.as_ptr())
        })
    };
    octets.map_err(|status| (status, at.get()))
}

/// The same, written to the front of the buffer; how many octets they are.
pub(crate) fn base64_read_into(text: &[u8], flavour: u8, out: &mut [u8]) -> Result<usize, (Status, usize)> {
    let mut at = 0;
    // SAFETY: pointers and sizes are those of slices, which are borrowed for the call; `at` is this function's own.
    let size = placed(out, |out, capacity, written| unsafe {
        rpki_base64_read(text.as_ptr(), text.len(), flavour, out, capacity, written, &mut at)
    });
    size.map_err(|status| (status, at))
}

/// The INTEGER of a serial number, which has at most 22 octets.
pub(crate) fn serial_write(serial: &[u8; 20]) -> Result<Vec<u8>, Status> {
    // SAFETY: the octets are borrowed for the call; the rest is of `stored`.
    unsafe { stored(22, |out, capacity, written| rpki_serial_write(serial, out, capacity, written)) }
}

/// The value of a time, which has at most 17 octets.
pub(crate) fn time_write(moment: &Moment) -> Result<Vec<u8>, Status> {
    // SAFETY: the moment is borrowed for the call; the rest is of `stored`.
    unsafe { stored(17, |out, capacity, written| rpki_time_write(moment, out, capacity, written)) }
}

/// The moment so many years on.
pub(crate) fn time_years_on(moment: &Moment, years: i32) -> Result<Moment, Status> {
    // SAFETY: the moment is borrowed for the call, and apart from `out`, which is the function's own.
    told(|out| unsafe { rpki_time_years_on(moment, years, out) })
}

/// The signed data that the octets are, in its normal form: at most two octets more, and the headers'.
pub(crate) fn signed_data_write(octets: &[u8]) -> Result<Vec<u8>, Status> {
    // SAFETY: the call is one of those above.
    unsafe { write(rpki_signed_data_write, octets, octets.len()) }
}

/// The signed data of a value and a signature, of which the algorithm and the headers have at most 28 octets.
pub(crate) fn signed_data_make(value: &[u8], signature: &[u8]) -> Result<Vec<u8>, Status> {
    // SAFETY: pointers and sizes are those of slices, which are borrowed for the call; the rest is of `stored`.
    unsafe {
        stored(value.len() + signature.len() + 28, |out, capacity, written| {
            let (v, s) = (value.as_ptr(), signature.as_ptr());
            rpki_signed_data_make(v, value.len(), s, signature.len(), out, capacity, written)
        })
    }
}

/// The public key that the octets are, as it is written: at most two octets more, and the headers'.
pub(crate) fn public_key_write(octets: &[u8]) -> Result<Vec<u8>, Status> {
    // SAFETY: the call is one of those above.
    unsafe { write(rpki_public_key_write, octets, octets.len()) }
}

/// The RSA key of two numbers.
pub(crate) fn rsa_key_write(modulus: &[u8], exponent: &[u8]) -> Result<Vec<u8>, Status> {
    // SAFETY: pointers and sizes are those of slices, which are borrowed for the call; the rest is of `stored`.
    unsafe {
        stored(modulus.len().saturating_add(exponent.len()).min(1 << 16) + 40, |out, capacity, written| {
            let (m, e) = (modulus.as_ptr(), exponent.as_ptr());
            rpki_rsa_key_write(m, modulus.len(), e, exponent.len(), out, capacity, written)
        })
    }
}

/// The RSA key with these bits.
pub(crate) fn rsa_key_of_bits(bits: &[u8]) -> Result<Vec<u8>, Status> {
    // SAFETY: the call is one of those above.
    unsafe { write(rpki_rsa_key_of_bits, bits, bits.len().min(1 << 16) + 24) }
}

/// The name of the subject with the key that the octets are, which has 53 octets.
pub(crate) fn name_of_key(octets: &[u8]) -> Result<Vec<u8>, Status> {
    // SAFETY: the call is one of those above.
    unsafe { write(rpki_name_of_key, octets, 53) }
}

/// The extension of these parts, of which the headers have at most 24 octets.
pub(crate) fn extension_write(id: &[u8], critical: bool, octets: &[u8]) -> Result<Vec<u8>, Status> {
    // SAFETY: pointers and sizes are those of slices, which are borrowed for the call; the rest is of `stored`.
    unsafe {
        stored(id.len() + octets.len() + 24, |out, capacity, written| {
            let (i, o) = (id.as_ptr(), octets.as_ptr());
            rpki_extension_write(i, id.len(), critical, o, octets.len(), out, capacity, written)
        })
    }
}

/// Writes the decimal digits of a serial number to the front of the buffer, and says how many they are.
pub(crate) fn serial_decimal(serial: &[u8; 20], out: &mut [u8; 48]) -> Result<usize, Status> {
    // SAFETY: the octets are borrowed for the call; pointer and size are those of a slice.
    placed(out, |out, capacity, written| unsafe { rpki_serial_decimal(serial, out, capacity, written) })
}

/// The value of a time as UTC time, which has 15 octets.
pub(crate) fn time_write_utc(moment: &Moment) -> Result<Vec<u8>, Status> {
    // SAFETY: the moment is borrowed for the call; the rest is of `stored`.
    unsafe { stored(15, |out, capacity, written| rpki_time_write_utc(moment, out, capacity, written)) }
}

/// The value of a time as generalized time, which has 17 octets.
pub(crate) fn time_write_generalized(moment: &Moment) -> Result<Vec<u8>, Status> {
    // SAFETY: the moment is borrowed for the call; the rest is of `stored`.
    unsafe { stored(17, |out, capacity, written| rpki_time_write_generalized(moment, out, capacity, written)) }
}

/// The moment so many seconds on.
#[cfg(test)]
pub(crate) fn time_seconds_on(moment: &Moment, seconds: i64) -> Result<Moment, Status> {
    // SAFETY: the moment is borrowed for the call, and apart from `out`, which is the function's own.
    told(|out| unsafe { rpki_time_seconds_on(moment, seconds, out) })
}

/// The value of a period, which has at most 36 octets.
pub(crate) fn validity_write(period: &Period) -> Result<Vec<u8>, Status> {
    // SAFETY: the period is borrowed for the call; the rest is of `stored`.
    unsafe { stored(36, |out, capacity, written| rpki_validity_write(period, out, capacity, written)) }
}

/// Whether the period holds at the moment, or why it does not.
#[cfg(test)]
pub(crate) fn validity_at(period: &Period, moment: &Moment) -> Result<(), Status> {
    compared();
    // SAFETY: both are borrowed for the call, which writes nothing.
    done(unsafe { rpki_validity_at(period, moment) })
}

/// The period that both have in common.
#[cfg(test)]
pub(crate) fn validity_trim(period: &Period, other: &Period) -> Result<Period, Status> {
    // SAFETY: both are borrowed for the call, and apart from `out`, which is the function's own.
    told(|out| unsafe { rpki_validity_trim(period, other, out) })
}

#[cfg(test)]
mod tests {
    use super::{aspa_is_within, fits, version, AsBlock, OTHER_RESOURCES, VERSION_MAJOR, VERSION_MINOR};

    /// The customer, AS4096, may be in any of the blocks.
    #[test]
    fn customers_of_later_blocks() {
        let octets = b"\x30\x11\xa0\x03\x02\x01\x01\x02\x02\x10\x00\x30\x06\x02\x01\x05\x02\x01\x07";
        let blocks = [(1, 9), (4096, 4096)].map(|(low, high)| AsBlock { low, high, is_inherited: false });
        assert_eq!(aspa_is_within(octets, &blocks), Ok(()));
        assert_eq!(aspa_is_within(octets, &blocks[..1]), Err(OTHER_RESOURCES));
    }

    /// A library fits that has every call of the header, and each as it is there: what rpki.h says of its versions.
    #[test]
    fn versions() {
        let number = |major: u32, minor: u32, patch: u32| major << 16 | minor << 8 | patch;
        assert!(fits(version()));
        assert!(fits(number(VERSION_MAJOR, VERSION_MINOR, 0)) && fits(number(VERSION_MAJOR, VERSION_MINOR, 255)));
        let is_stable = number(VERSION_MAJOR, 0, 0) >= number(1, 0, 0);
        assert_eq!(fits(number(VERSION_MAJOR, VERSION_MINOR + 1, 0)), is_stable);
        assert!(!fits(number(VERSION_MAJOR, VERSION_MINOR - 1, 255)));
        assert!(!fits(number(VERSION_MAJOR + 1, VERSION_MINOR, 0)) && !fits(number(7, 255, 0)));
    }
}
