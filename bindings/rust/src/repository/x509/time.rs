//! Times and periods of validity.

mod calendar;
mod text;

use crate::crypto::keys::known;
use crate::ffi::{self, Moment, Period};
use crate::view::DecodeError;
use bytes::Bytes;
use std::error::Error;
use std::fmt;
use std::ops::{Add, Sub};
use std::time::{Duration, SystemTime};

pub use text::TimeParseError;

/// The seconds of a day.
const DAY: i64 = 86_400;

/// A time in UTC, to the second, of a year from 0 to 9999. Times are ordered as they follow each other, and shown as
/// chrono shows them; Debug and what is serialized are of RFC 3339, as is the text of
/// [`view::Time`](crate::view::Time).
///
/// ```
/// use rpki_proved::{repository::x509::Time, view};
///
/// let time = Time::utc(2020, 2, 29, 16, 39, 57);
/// assert_eq!(Time::years_from_date(4, time).to_string(), "2024-02-28 16:39:57 UTC");
/// assert_eq!(view::Time::from(time).to_string(), "2020-02-29T16:39:57Z");
/// assert_eq!(time.encode_varied(), &b"\x17\x0d200229163957Z"[..]);
/// assert_eq!("2020-02-29T17:39:57+01:00".parse(), Ok(time));
/// ```
#[derive(Clone, Copy, PartialEq, Eq, PartialOrd, Ord, Hash)]
pub struct Time {
    /// The seconds since 1970-01-01 00:00:00, of a year from 0 to 9999.
    seconds: i64,
}

impl Time {
    /// The time of these parts; `None` where the calendar or a clock has none, or the year is not of 0 to 9999.
    pub fn checked_utc(year: i32, month: u32, day: u32, hour: u32, minute: u32, second: u32) -> Option<Self> {
        calendar::seconds_of(year, month, day, hour, minute, second).map(|seconds| Time { seconds })
    }

    /// The time of these parts.
    ///
    /// # Panics
    /// If there is none, as of [`Time::checked_utc`].
    pub fn utc(year: i32, month: u32, day: u32, hour: u32, minute: u32, second: u32) -> Self {
        Time::checked_utc(year, month, day, hour, minute, second).expect("a time of the years 0 to 9999")
    }

    /// The time so many seconds after 1970-01-01 00:00:00, every day with 86,400; `None` where its year is not of 0 to
    /// 9999.
    pub fn from_timestamp(seconds: i64) -> Option<Self> {
        calendar::SECONDS.contains(&seconds).then_some(Time { seconds })
    }

    /// The time of the machine's clock, without parts of a second.
    ///
    /// # Panics
    /// If its year is not of 0 to 9999.
    pub fn now() -> Self {
        SystemTime::now().into()
    }

    /// Five minutes before now.
    pub fn five_minutes_ago() -> Self {
        Time::now() - Duration::from_secs(300)
    }

    /// Five minutes after now.
    pub fn five_minutes_from_now() -> Self {
        Time::now() + Duration::from_secs(300)
    }

    /// A day, 24 hours, after now.
    pub fn tomorrow() -> Self {
        Time::now() + Duration::from_secs(DAY as u64)
    }

    /// Seven days, of 24 hours each, after now.
    pub fn next_week() -> Self {
        Time::now() + Duration::from_secs(7 * DAY as u64)
    }

    /// A year after now, on the same day.
    pub fn next_year() -> Self {
        Time::years_from_now(1)
    }

    /// So many years after now, as [`Time::years_from_date`].
    ///
    /// # Panics
    /// If the year is not of 0 to 9999.
    pub fn years_from_now(years: i32) -> Self {
        Time::years_from_date(years, Time::now())
    }

    /// So many years after the date, or before it, on the same day at the same time; 29 February becomes 28 February.
    ///
    /// # Panics
    /// If the year is not of 0 to 9999.
    pub fn years_from_date(years: i32, date: impl Into<Time>) -> Self {
        date.into().checked_add_years(years).expect("a year of 0 to 9999")
    }

    /// The same, and `None` where the year is not of 0 to 9999.
    pub fn checked_add_years(self, years: i32) -> Option<Self> {
        match ffi::time_years_on(&self.moment(), years) {
            Ok(moment) => Some(moment.into()),
            Err(ffi::NO_ANSWER) => None,
            Err(status) => known(Err(status)),
        }
    }

    /// The time later by whole seconds; `None` where its year is not of 0 to 9999.
    pub fn checked_add_secs(self, seconds: i64) -> Option<Self> {
        self.seconds.checked_add(seconds).and_then(Time::from_timestamp)
    }

    /// Reads a time that is all of the octets: UTC time, of the years 1950 to 2049, or generalized time (RFC 5280
    /// 4.1.2.5).
    ///
    /// # Errors
    /// `Content` where it is another primitive value, or a date or time of day that there is not; `Unexpected` where it
    /// is constructed; `Trailing` where octets follow it; and else why no beginning of the octets is a value.
    pub fn decode(octets: &[u8]) -> Result<Self, DecodeError> {
        ffi::time(octets).map(Time::from).map_err(DecodeError::from_status)
    }

    /// The value of the time as certificates have it: UTC time in the years 1950 to 2049, generalized time in the
    /// others.
    ///
    /// # Panics
    /// If allocation fails.
    pub fn encode_varied(self) -> Bytes {
        known(ffi::time_write(&self.moment())).into()
    }

    /// The value of the time as UTC time, with the last two digits of its year.
    ///
    /// # Panics
    /// If allocation fails.
    pub fn encode_utc_time(self) -> Bytes {
        known(ffi::time_write_utc(&self.moment())).into()
    }

    /// The value of the time as generalized time.
    ///
    /// # Panics
    /// If allocation fails.
    pub fn encode_generalized_time(self) -> Bytes {
        known(ffi::time_write_generalized(&self.moment())).into()
    }

    /// The seconds since 1970-01-01 00:00:00, every day with 86,400; negative before.
    pub fn to_binary_time(self) -> i64 {
        self.seconds
    }

    /// The same.
    pub fn timestamp(self) -> i64 {
        self.seconds
    }

    /// The year, 0 to 9999.
    pub fn year(self) -> i32 {
        self.moment().year
    }

    /// The month, 1 to 12.
    pub fn month(self) -> u32 {
        self.moment().month
    }

    /// The day of the month, 1 to 31.
    pub fn day(self) -> u32 {
        self.moment().day
    }

    /// The hour, 0 to 23.
    pub fn hour(self) -> u32 {
        self.moment().hour
    }

    /// The minute, 0 to 59.
    pub fn minute(self) -> u32 {
        self.moment().minute
    }

    /// The second, 0 to 59.
    pub fn second(self) -> u32 {
        self.moment().second
    }

    /// The time as the library has it.
    #[inline]
    pub(crate) fn moment(self) -> Moment {
        calendar::moment_at(self.seconds)
    }

    /// Checks that the moment is not before this time.
    ///
    /// # Errors
    /// It is: too new.
    pub fn verify_not_before(self, now: Self) -> Result<(), ValidityPeriodError> {
        if now < self {
            return Err(ValidityPeriodError { too_new: true });
        }
        Ok(())
    }

    /// Checks that the moment is not after this time.
    ///
    /// # Errors
    /// It is: too old.
    pub fn verify_not_after(self, now: Self) -> Result<(), ValidityPeriodError> {
        if now > self {
            return Err(ValidityPeriodError { too_new: false });
        }
        Ok(())
    }
}

impl From<Moment> for Time {
    fn from(moment: Moment) -> Self {
        Time { seconds: moment.seconds }
    }
}

/// The whole seconds of a duration.
fn whole(duration: Duration) -> i64 {
    i64::try_from(duration.as_secs()).expect("a time of the years 0 to 9999")
}

/// Later by the whole seconds of the duration. Panics where the year is not of 0 to 9999.
impl Add<Duration> for Time {
    type Output = Time;

    fn add(self, duration: Duration) -> Time {
        self.checked_add_secs(whole(duration)).expect("a time of the years 0 to 9999")
    }
}

/// Earlier by the whole seconds of the duration. Panics where the year is not of 0 to 9999.
impl Sub<Duration> for Time {
    type Output = Time;

    fn sub(self, duration: Duration) -> Time {
        self.checked_add_secs(-whole(duration)).expect("a time of the years 0 to 9999")
    }
}

/// Panics where the year is not of 0 to 9999.
impl From<SystemTime> for Time {
    fn from(time: SystemTime) -> Self {
        let seconds = match time.duration_since(SystemTime::UNIX_EPOCH) {
            Ok(after) => whole(after),
            Err(before) => {
                let before = before.duration();
                -whole(before) - i64::from(before.subsec_nanos() > 0)
            }
        };
        Time::from_timestamp(seconds).expect("a time of the years 0 to 9999")
    }
}

impl From<Time> for SystemTime {
    fn from(time: Time) -> Self {
        let size = Duration::from_secs(time.seconds.unsigned_abs());
        if time.seconds < 0 {
            SystemTime::UNIX_EPOCH - size
        } else {
            SystemTime::UNIX_EPOCH + size
        }
    }
}

/// Conversions from and to the types of the crate chrono.
#[cfg(feature = "chrono")]
mod with_chrono {
    use super::Time;
    use chrono::{DateTime, TimeZone, Utc};
    use std::ops::{Add, Sub};

    impl Time {
        /// The time of this date-time, without parts of a second.
        ///
        /// # Panics
        /// If its year is not of 0 to 9999.
        pub fn new(dt: DateTime<Utc>) -> Self {
            dt.into()
        }
    }

    /// Without parts of a second. Panics where the year is not of 0 to 9999.
    impl From<DateTime<Utc>> for Time {
        fn from(dt: DateTime<Utc>) -> Self {
            Time::from_timestamp(dt.timestamp()).expect("a time of the years 0 to 9999")
        }
    }

    impl From<Time> for DateTime<Utc> {
        fn from(time: Time) -> Self {
            Utc.timestamp_opt(time.timestamp(), 0).single().expect("years 0 to 9999 are in range")
        }
    }

    /// Later by the whole seconds of the duration. Panics where the year is not of 0 to 9999.
    impl Add<chrono::Duration> for Time {
        type Output = Time;

        fn add(self, duration: chrono::Duration) -> Time {
            self.checked_add_secs(duration.num_seconds()).expect("a time of the years 0 to 9999")
        }
    }

    /// Earlier by the whole seconds of the duration. Panics where the year is not of 0 to 9999.
    impl Sub<chrono::Duration> for Time {
        type Output = Time;

        fn sub(self, duration: chrono::Duration) -> Time {
            self.checked_add_secs(-duration.num_seconds()).expect("a time of the years 0 to 9999")
        }
    }
}

/// A period of validity (RFC 5280 4.1.2.5), which lasts to the end of its last second. Nothing is said of which of its
/// times is earlier.
#[derive(Clone, Copy, Debug, PartialEq, Eq, Hash)]
#[cfg_attr(feature = "serde", derive(serde::Serialize, serde::Deserialize))]
pub struct Validity {
    not_before: Time,
    not_after: Time,
}

impl Validity {
    /// The period from the one time to the other.
    pub fn new(not_before: Time, not_after: Time) -> Self {
        Validity { not_before, not_after }
    }

    /// The period of so many seconds from now on, or up to now where they are negative.
    ///
    /// # Panics
    /// If the year is not of 0 to 9999.
    pub fn from_secs(secs: i64) -> Self {
        let now = Time::now();
        let other = now.checked_add_secs(secs).expect("a time of the years 0 to 9999");
        Validity::new(now.min(other), now.max(other))
    }

    /// The period of this duration from now on.
    ///
    /// # Panics
    /// If the year is not of 0 to 9999.
    pub fn from_duration(duration: Duration) -> Self {
        Validity::from_secs(whole(duration))
    }

    /// The first moment of the period.
    pub fn not_before(self) -> Time {
        self.not_before
    }

    /// The last moment of the period.
    pub fn not_after(self) -> Time {
        self.not_after
    }

    /// The period that both have in common: the later start and the earlier end.
    #[must_use]
    pub fn trim(self, other: Self) -> Self {
        Validity::new(self.not_before.max(other.not_before), self.not_after.min(other.not_after))
    }

    /// Reads a period that is all of the octets.
    ///
    /// # Errors
    /// `Trailing` where octets follow a period, and else why no beginning of the octets is one.
    pub fn decode(octets: &[u8]) -> Result<Self, DecodeError> {
        ffi::validity(octets).map(Validity::from).map_err(DecodeError::from_status)
    }

    /// The value of the period: a SEQUENCE of two times.
    ///
    /// # Panics
    /// If allocation fails.
    pub fn encode(self) -> Bytes {
        known(ffi::validity_write(&self.parts())).into()
    }

    /// Checks that now is in the period.
    ///
    /// # Errors
    /// Too new, or too old.
    pub fn verify(self) -> Result<(), ValidityPeriodError> {
        self.verify_at(Time::now())
    }

    /// Checks that the moment is in the period; both of its ends are, so a time that is cut down to the second is in it
    /// up to the end of its last second.
    ///
    /// # Errors
    /// Too new; else too old.
    pub fn verify_at(self, now: Time) -> Result<(), ValidityPeriodError> {
        self.not_before.verify_not_before(now)?;
        self.not_after.verify_not_after(now)
    }

    /// The period as the library has it.
    fn parts(self) -> Period {
        Period { not_before: self.not_before.moment(), not_after: self.not_after.moment() }
    }
}

impl From<Period> for Validity {
    fn from(period: Period) -> Self {
        Validity::new(period.not_before.into(), period.not_after.into())
    }
}

/// A moment is outside a period of validity.
#[derive(Clone, Copy, Debug, PartialEq, Eq)]
pub struct ValidityPeriodError {
    too_new: bool,
}

impl ValidityPeriodError {
    /// Whether the moment is before the period.
    pub fn is_too_new(self) -> bool {
        self.too_new
    }
}

impl fmt::Display for ValidityPeriodError {
    fn fmt(&self, f: &mut fmt::Formatter) -> fmt::Result {
        f.write_str(if self.too_new { "object is not yet valid" } else { "object has expired" })
    }
}

impl Error for ValidityPeriodError {}

#[cfg(test)]
mod tests {
    use super::{Time, Validity};
    use crate::ffi;

    /// What is said of moments and periods in plain Rust is what the library's calls say.
    #[test]
    fn periods_are_those_of_the_library() {
        let seconds = [i64::MIN, -62_167_219_200, -1, 0, 1, 951_782_399, 253_402_300_799, i64::MAX];
        let times: Vec<Time> = seconds.iter().filter_map(|at| Time::from_timestamp(*at)).collect();
        assert_eq!(times.len(), 6);
        let periods = times.iter().flat_map(|from| times.iter().map(|to| Validity::new(*from, *to)));
        let periods: Vec<Validity> = periods.collect();
        for period in &periods {
            for now in &times {
                let told = match ffi::validity_at(&period.parts(), &now.moment()) {
                    Ok(()) => None,
                    Err(status) => Some(status == ffi::TOO_NEW),
                };
                assert_eq!(period.verify_at(*now).err().map(|error| error.is_too_new()), told, "{period:?} {now:?}");
            }
            for other in &periods {
                let told = Validity::from(ffi::validity_trim(&period.parts(), &other.parts()).unwrap());
                assert_eq!(period.trim(*other), told, "{period:?} {other:?}");
            }
        }
    }
}
