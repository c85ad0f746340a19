//! URIs as the crate rpki 0.20 has them: read with a pass for each thing that is tested, and then used by where their
//! module and their path start.

use bytes::{Bytes, BytesMut};
use std::borrow::Cow;
use std::hash::{Hash, Hasher};

#[derive(Clone)]
pub struct Rsync {
    bytes: Bytes,
    module_start: usize,
    path_start: usize,
}

fn is_uri_octet(octet: u8) -> bool {
    matches!(octet, b'!' | b'$'..=b';' | b'=' | b'A'..=b'Z' | b'_' | b'a'..=b'z' | b'~')
}

/// Whether no segment but the last is empty, and each is short and not of dots.
fn has_good_segments(path: &[u8]) -> bool {
    if path.len() >= 3_072 {
        return false;
    }
    let mut was_empty = false;
    path.split(|octet| *octet == b'/').all(|segment| {
        let good = !was_empty && segment != b"." && segment != b".." && segment.len() < 256;
        was_empty = segment.is_empty();
        good
    })
}

/// The authority in lower case, borrowed where it is that.
fn in_lower_case(authority: &str) -> Cow<'_, str> {
    if authority.bytes().any(|octet| octet.is_ascii_uppercase()) {
        Cow::Owned(authority.to_ascii_lowercase())
    } else {
        Cow::Borrowed(authority)
    }
}

impl Rsync {
    pub fn from_bytes(bytes: Bytes) -> Option<Rsync> {
        if !bytes.iter().all(|octet| is_uri_octet(*octet)) {
            return None;
        }
        if bytes.len() < 8 || !bytes[..8].eq_ignore_ascii_case(b"rsync://") || !has_good_segments(&bytes[8..]) {
            return None;
        }
        let mut parts = bytes[8..].splitn(3, |octet| *octet == b'/');
        let authority = parts.next().filter(|part| !part.is_empty())?.len();
        let module = parts.next().filter(|part| !part.is_empty())?.len();
        parts.next()?;
        let module_start = 8 + authority + 1;
        Some(Rsync { bytes, module_start, path_start: module_start + module + 1 })
    }

    pub fn as_str(&self) -> &str {
        // SAFETY: each octet is a character of ASCII, as `from_bytes` and `join` test.
        unsafe { std::str::from_utf8_unchecked(&self.bytes) }
    }

    fn path(&self) -> &str {
        &self.as_str()[self.path_start..]
    }

    pub fn path_is_dir(&self) -> bool {
        self.path().is_empty() || self.path().ends_with('/')
    }

    pub fn path_into_dir(&mut self) {
        if !self.path_is_dir() {
            let mut bytes = BytesMut::with_capacity(self.bytes.len() + 1);
            bytes.extend_from_slice(&self.bytes);
            bytes.extend_from_slice(b"/");
            self.bytes = bytes.freeze();
        }
    }

    fn authority(&self) -> &str {
        &self.as_str()[8..self.module_start - 1]
    }

    fn module(&self) -> &str {
        &self.as_str()[..self.path_start]
    }

    pub fn canonical_authority(&self) -> Cow<'_, str> {
        in_lower_case(self.authority())
    }

    pub fn canonical_module(&self) -> Cow<'_, str> {
        match self.canonical_authority() {
            Cow::Borrowed(_) => Cow::Borrowed(self.module()),
            Cow::Owned(authority) => {
                Cow::Owned(format!("rsync://{authority}/{}", &self.as_str()[self.module_start..self.path_start]))
            }
        }
    }

    pub fn parent(&self) -> Option<Rsync> {
        let path = self.path();
        if path.is_empty() {
            return None;
        }
        let size = path.strip_suffix('/').unwrap_or(path).rfind('/').map_or(0, |at| at + 1);
        Some(Rsync { bytes: self.bytes.slice(..self.path_start + size), ..*self })
    }

    pub fn join(&self, path: &[u8]) -> Option<Rsync> {
        if path.is_empty() {
            return Some(self.clone());
        }
        if !path.iter().all(|octet| is_uri_octet(*octet)) || !has_good_segments(path) {
            return None;
        }
        let slash = !self.path_is_dir();
        let size = self.bytes.len() + usize::from(slash) + path.len();
        if size >= 3_072 {
            return None;
        }
        let mut bytes = BytesMut::with_capacity(size);
        bytes.extend_from_slice(&self.bytes);
        if slash {
            bytes.extend_from_slice(b"/");
        }
        bytes.extend_from_slice(path);
        Some(Rsync { bytes: bytes.freeze(), ..*self })
    }

    fn has_module_of(&self, other: &Rsync) -> bool {
        self.path_start == other.path_start
            && self.bytes[self.module_start..self.path_start] == other.bytes[other.module_start..other.path_start]
            && self.bytes[8..self.module_start].eq_ignore_ascii_case(&other.bytes[8..other.module_start])
    }

    pub fn relative_to(&self, base: &Rsync) -> Option<&str> {
        if !self.has_module_of(base) {
            return None;
        }
        let below = &base.bytes[base.path_start..];
        let below = below.strip_suffix(b"/").unwrap_or(below);
        let rest = self.bytes[self.path_start..].strip_prefix(below)?;
        let at = self.bytes.len() - rest.len();
        match rest.first() {
            None => Some(""),
            Some(_) if below.is_empty() => Some(self.path()),
            Some(b'/') => Some(&self.as_str()[at + 1..]),
            Some(_) => None,
        }
    }

    pub fn is_parent_of(&self, other: &Rsync) -> bool {
        other.relative_to(self).map_or(false, |path| !path.is_empty())
    }

    pub fn is_identical_to(&self, other: &Rsync) -> bool {
        fn without_slash(path: &str) -> &str {
            path.strip_suffix('/').unwrap_or(path)
        }
        self.has_module_of(other) && without_slash(self.path()) == without_slash(other.path())
    }
}

impl AsRef<[u8]> for Rsync {
    fn as_ref(&self) -> &[u8] {
        &self.bytes
    }
}

/// The front without case, and the rest exactly.
impl<T: AsRef<[u8]>> PartialEq<T> for Rsync {
    fn eq(&self, other: &T) -> bool {
        let other = other.as_ref();
        if self.bytes.len() != other.len() {
            return false;
        }
        let (front, rest) = self.bytes.split_at(self.module_start);
        let (others_front, others_rest) = other.split_at(self.module_start);
        front.eq_ignore_ascii_case(others_front) && rest == others_rest
    }
}

impl Eq for Rsync {}

/// Of the module one octet alone is hashed, and nothing of the path.
impl Hash for Rsync {
    fn hash<H: Hasher>(&self, state: &mut H) {
        for octet in &self.bytes[..self.module_start] {
            state.write_u8(octet.to_ascii_lowercase());
        }
        self.bytes[self.module_start].hash(state);
    }
}

#[derive(Clone)]
pub struct Https {
    bytes: Bytes,
    path_start: usize,
}

impl Https {
    pub fn from_bytes(bytes: Bytes) -> Option<Https> {
        if !bytes.iter().all(|octet| is_uri_octet(*octet)) {
            return None;
        }
        if bytes.len() < 8 || !bytes[..8].eq_ignore_ascii_case(b"https://") {
            return None;
        }
        let size = bytes[8..].iter().position(|octet| *octet == b'/').unwrap_or(bytes.len() - 8);
        (size < 256).then(|| Https { path_start: 8 + size, bytes })
    }

    pub fn as_str(&self) -> &str {
        // SAFETY: each octet is a character of ASCII, as `from_bytes` and `join` test.
        unsafe { std::str::from_utf8_unchecked(&self.bytes) }
    }

    fn authority(&self) -> &[u8] {
        &self.bytes[8..self.path_start]
    }

    pub fn join(&self, path: &[u8]) -> Option<Https> {
        if !path.iter().all(|octet| is_uri_octet(*octet)) {
            return None;
        }
        let slash = !self.bytes.ends_with(b"/") && !path.starts_with(b"/");
        let mut bytes = BytesMut::with_capacity(self.bytes.len() + usize::from(slash) + path.len());
        bytes.extend_from_slice(&self.bytes);
        if slash {
            bytes.extend_from_slice(b"/");
        }
        bytes.extend_from_slice(path);
        Some(Https { bytes: bytes.freeze(), ..*self })
    }

    pub fn eq_authority(&self, other: &Https) -> bool {
        self.authority().eq_ignore_ascii_case(other.authority())
    }
}

impl PartialEq for Https {
    fn eq(&self, other: &Https) -> bool {
        self.path_start == other.path_start
            && self.bytes[..self.path_start].eq_ignore_ascii_case(&other.bytes[..other.path_start])
            && self.bytes[self.path_start..] == other.bytes[other.path_start..]
    }
}

impl Hash for Https {
    fn hash<H: Hasher>(&self, state: &mut H) {
        for octet in &self.bytes[..self.path_start] {
            state.write_u8(octet.to_ascii_lowercase());
        }
        self.bytes[self.path_start..].hash(state);
    }
}
