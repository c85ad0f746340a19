//! Texts in serialized values. A text is read while the format is at its place, so that an error of a format that tells
//! places has that of the text.

use serde::de::{Deserializer, Error, Visitor};
use std::fmt;

/// Reads the texts of one kind of values, as this function does.
struct Reading<F> {
    expected: &'static str,
    read: F,
}

impl<T, E: fmt::Display, F: FnOnce(String) -> Result<T, E>> Visitor<'_> for Reading<F> {
    type Value = T;

    fn expecting(&self, f: &mut fmt::Formatter) -> fmt::Result {
        f.write_str(self.expected)
    }

    fn visit_str<D: Error>(self, text: &str) -> Result<T, D> {
        self.visit_string(text.into())
    }

    fn visit_string<D: Error>(self, text: String) -> Result<T, D> {
        (self.read)(text).map_err(D::custom)
    }
}

/// The value of a serialized text, in any form that the format hands it out; `expected` says what is read.
pub(crate) fn owned<'de, T, E: fmt::Display, D: Deserializer<'de>>(
    deserializer: D,
    expected: &'static str,
    read: impl FnOnce(String) -> Result<T, E>,
) -> Result<T, D::Error> {
    deserializer.deserialize_string(Reading { expected, read })
}

/// The same by a function that borrows the text.
pub(crate) fn borrowed<'de, T, E: fmt::Display, D: Deserializer<'de>>(
    deserializer: D,
    expected: &'static str,
    read: impl FnOnce(&str) -> Result<T, E>,
) -> Result<T, D::Error> {
    owned(deserializer, expected, |text| read(&text))
}

/// The value of a serialized text of octets in base 64.
pub(crate) fn octets<'de, T, E: fmt::Display, D: Deserializer<'de>>(
    deserializer: D,
    expected: &'static str,
    read: impl FnOnce(Vec<u8>) -> Result<T, E>,
) -> Result<T, D::Error> {
    borrowed(deserializer, expected, |text| {
        let octets = crate::util::base64::Serde.decode(text).map_err(|error| error.to_string())?;
        read(octets).map_err(|error| error.to_string())
    })
}

/// Serialized as its text, and read from it.
macro_rules! serialized_as_text {
    ($($name:ty, $expected:literal;)*) => {
        $(
            impl serde::Serialize for $name {
                /// Writes the text.
                fn serialize<S: serde::Serializer>(&self, serializer: S) -> Result<S::Ok, S::Error> {
                    serializer.collect_str(self)
                }
            }

            impl<'de> serde::Deserialize<'de> for $name {
                /// Reads the text.
                fn deserialize<D: serde::Deserializer<'de>>(deserializer: D) -> Result<Self, D::Error> {
                    crate::texts::borrowed(deserializer, $expected, str::parse)
                }
            }
        )*
    };
}
pub(crate) use serialized_as_text;

/// Serialized as its octets in base 64, and read from them.
macro_rules! serialized_as_octets {
    ($name:ty, $expected:literal) => {
        impl serde::Serialize for $name {
            /// Writes the octets in base 64. Panics if allocation fails.
            fn serialize<S: serde::Serializer>(&self, serializer: S) -> Result<S::Ok, S::Error> {
                serializer.serialize_str(&crate::util::base64::Serde.encode(&self.to_bytes()))
            }
        }

        impl<'de> serde::Deserialize<'de> for $name {
            /// Reads octets in base 64.
            fn deserialize<D: serde::Deserializer<'de>>(deserializer: D) -> Result<Self, D::Error> {
                crate::texts::octets(deserializer, $expected, <$name>::decode)
            }
        }
    };
}
pub(crate) use serialized_as_octets;
