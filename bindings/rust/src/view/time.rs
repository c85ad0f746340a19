//! Times and periods of validity.

use crate::ffi;
use crate::view::error::DecodeError;
use std::fmt;

/// A time of a certificate, to the second, in UTC: of a year from 0 to 9999. Times are ordered as they follow each
/// other, and shown as in RFC 3339.
#[derive(Clone, Copy, Debug, PartialEq, Eq, PartialOrd, Ord, Hash)]
pub struct Time {
    seconds: i64,
    year: i32,
    month: u32,
    day: u32,
    hour: u32,
    minute: u32,
    second: u32,
}

impl Time {
    /// Reads a time that is all of the octets: UTC time, of the years 1950 to 2049, or generalized time (RFC 5280
    /// 4.1.2.5).
    ///
    /// ```
    /// # use rpki_proved::view::Time;
    /// let time = Time::decode(b"\x17\x0d801001163015Z")?;
    /// assert_eq!(time.to_string(), "1980-10-01T16:30:15Z");
    /// assert_eq!(time.seconds(), 339_265_815);
    /// # Ok::<(), rpki_proved::view::DecodeError>(())
    /// ```
    ///
    /// # Errors
    /// `Content` where it is another primitive value, or a date or time of day that there is not; `Unexpected` where it
    /// is constructed; `Trailing` where octets follow it; and else why no beginning of the octets is a value.
    pub fn decode(octets: &[u8]) -> Result<Time, DecodeError> {
        ffi::time(octets).map(Time::from).map_err(DecodeError::from_status)
    }

    /// Seconds since 1970-01-01 00:00:00, every day with 86,400; negative before.
    pub fn seconds(&self) -> i64 {
        self.seconds
    }

    /// The year, 0 to 9999.
    pub fn year(&self) -> i32 {
        self.year
    }

    /// The month, 1 to 12.
    pub fn month(&self) -> u32 {
        self.month
    }

    /// The day of the month, 1 to 31.
    pub fn day(&self) -> u32 {
        self.day
    }

    /// The hour, 0 to 23.
    pub fn hour(&self) -> u32 {
        self.hour
    }

    /// The minute, 0 to 59.
    pub fn minute(&self) -> u32 {
        self.minute
    }

    /// The second, 0 to 59.
    pub fn second(&self) -> u32 {
        self.second
    }
}

impl From<ffi::Moment> for Time {
    fn from(moment: ffi::Moment) -> Time {
        let ffi::Moment { seconds, year, month, day, hour, minute, second } = moment;
        Time { seconds, year, month, day, hour, minute, second }
    }
}

/// The same time, which is shown as in RFC 3339 then.
impl From<crate::repository::x509::Time> for Time {
    fn from(time: crate::repository::x509::Time) -> Time {
        time.moment().into()
    }
}

impl fmt::Display for Time {
    fn fmt(&self, f: &mut fmt::Formatter) -> fmt::Result {
        let Time { year, month, day, hour, minute, second, .. } = self;
        write!(f, "{year:04}-{month:02}-{day:02}T{hour:02}:{minute:02}:{second:02}Z")
    }
}

/// A period of validity (RFC 5280 4.1.2.5). Nothing is said of which of its times is earlier.
#[derive(Clone, Copy, Debug, PartialEq, Eq, Hash)]
pub struct Validity {
    not_before: Time,
    not_after: Time,
}

impl Validity {
    /// Reads a period that is all of the octets.
    ///
    /// # Errors
    /// `Trailing` where octets follow a period, and else why no beginning of the octets is one.
    pub fn decode(octets: &[u8]) -> Result<Validity, DecodeError> {
        let found = ffi::validity(octets).map_err(DecodeError::from_status)?;
        Ok(Validity { not_before: found.not_before.into(), not_after: found.not_after.into() })
    }

    /// The first moment of the period.
    pub fn not_before(&self) -> Time {
        self.not_before
    }

    /// The last moment of the period.
    pub fn not_after(&self) -> Time {
        self.not_after
    }

    /// Whether a moment, in seconds since 1970-01-01 00:00:00, is in the period; both of its ends are.
    #[must_use]
    pub fn contains(&self, seconds: i64) -> bool {
        (self.not_before.seconds..=self.not_after.seconds).contains(&seconds)
    }
}
