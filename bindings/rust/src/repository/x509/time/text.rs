//! Times as texts, as the crate chrono shows and reads them.

use super::{calendar, Time};
use crate::ffi::Moment;
use std::error::Error;
use std::fmt;
use std::str::FromStr;

/// A text is no time of the years 0 to 9999.
#[derive(Clone, Copy, Debug, PartialEq, Eq)]
pub struct TimeParseError(());

impl fmt::Display for TimeParseError {
    fn fmt(&self, f: &mut fmt::Formatter) -> fmt::Result {
        f.write_str("malformed time value")
    }
}

impl Error for TimeParseError {}

/// The rest of a text.
struct Reader<'a>(&'a str);

impl Reader<'_> {
    /// Passes white space.
    fn space(&mut self) {
        self.0 = self.0.trim_start();
    }

    /// Passes this character, or refuses the rest.
    fn pass(&mut self, character: char) -> Option<()> {
        self.0 = self.0.strip_prefix(character)?;
        Some(())
    }

    /// The number that the first digits write, one at least and so many at most.
    fn digits(&mut self, most: usize) -> Option<i64> {
        let count = self.0.bytes().take(most).take_while(u8::is_ascii_digit).count();
        let (digits, rest) = self.0.split_at(count);
        self.0 = rest;
        digits.parse().ok()
    }

    /// A number of one digit or two, with white space before it.
    fn number(&mut self) -> Option<u32> {
        self.space();
        self.digits(2).map(|number| number as u32)
    }

    /// The same after white space and this character.
    fn number_after(&mut self, character: char) -> Option<u32> {
        self.space();
        self.pass(character)?;
        self.number()
    }

    /// A year: one to four digits, or any number of them after a sign.
    fn year(&mut self) -> Option<i64> {
        self.space();
        if self.pass('-').is_some() {
            return self.digits(usize::MAX).map(|year| -year);
        }
        let most = if self.pass('+').is_some() { usize::MAX } else { 4 };
        self.digits(most)
    }

    /// Passes parts of a second: a point, and one digit at least.
    fn fraction(&mut self) -> Option<()> {
        if self.pass('.').is_some() {
            let rest = self.0.trim_start_matches(|character: char| character.is_ascii_digit());
            if rest.len() == self.0.len() {
                return None;
            }
            self.0 = rest;
        }
        Some(())
    }

    /// The seconds that the clocks of a zone are ahead: `Z`, `UTC` in any case, or a sign, two
    /// digits of hours, and two of minutes after any number of colons and white space.
    fn zone(&mut self) -> Option<i64> {
        self.space();
        let first = self.0.chars().next()?;
        if matches!(first, 'Z' | 'z') {
            self.0 = &self.0[1..];
            return Some(0);
        }
        if self.0.get(..3).map_or(false, |name| name.eq_ignore_ascii_case("UTC")) {
            self.0 = &self.0[3..];
            return Some(0);
        }
        let sign = match first {
            '+' => 1,
            '-' => -1,
            _ => return None,
        };
        self.0 = &self.0[1..];
        let hours = self.two_digits()?;
        self.0 = self.0.trim_start_matches(|character: char| character == ':' || character.is_whitespace());
        let minutes = self.two_digits()?;
        (hours < 24 && minutes < 60).then(|| sign * (3_600 * hours + 60 * minutes))
    }

    /// The number that exactly two digits write.
    fn two_digits(&mut self) -> Option<i64> {
        let length = self.0.len();
        let number = self.digits(2)?;
        (length - self.0.len() == 2).then_some(number)
    }
}

/// The seconds of the moment that the text names, of any year near those that are read.
fn seconds_of(text: &str) -> Option<i64> {
    let mut text = Reader(text);
    let year = text.year().filter(|year| (-1..=10_000).contains(year))?;
    let month = text.number_after('-')?;
    let day = text.number_after('-')?;
    text.pass('T').or_else(|| text.pass(' '))?;
    let hour = text.number()?;
    let minute = text.number_after(':')?;
    let second = text.number_after(':')?;
    text.fraction()?;
    let ahead = text.zone()?;
    text.space();
    let is_day = day >= 1 && day <= calendar::days_of(year, month);
    if !is_day || hour > 23 || minute > 59 || second > 60 || !text.0.is_empty() {
        return None;
    }
    // A leap second belongs to the second before it.
    let clock = i64::from(3_600 * hour + 60 * minute + second.min(59));
    Some(86_400 * calendar::days_to(year, month, day) + clock - ahead)
}

/// What the crate chrono (0.4.23) reads: a date, `T` or a space, a time of day, and a zone, as of RFC 3339, with white
/// space between numbers; the zone may be `UTC`, and need not have a colon. Parts of a second are dropped, and second
/// 60 is read as 59.
impl FromStr for Time {
    type Err = TimeParseError;

    fn from_str(s: &str) -> Result<Self, TimeParseError> {
        seconds_of(s).and_then(Time::from_timestamp).ok_or(TimeParseError(()))
    }
}

/// The digits of a time, with this octet between the date and the time of day.
fn digits(moment: &Moment, between: u8) -> [u8; 19] {
    let mut text = *b"0000-00-00 00:00:00";
    text[10] = between;
    let mut put = |at: usize, number: u32| {
        text[at] += (number / 10) as u8;
        text[at + 1] += (number % 10) as u8;
    };
    let year = moment.year as u32;
    put(0, year / 100);
    put(2, year % 100);
    put(5, moment.month);
    put(8, moment.day);
    put(11, moment.hour);
    put(14, moment.minute);
    put(17, moment.second);
    text
}

/// Hands the text of a time to a function, as RFC 3339 has it.
pub(super) fn with_rfc3339<T>(moment: &Moment, take: impl FnOnce(&str) -> T) -> T {
    let mut text = [b'Z'; 20];
    text[..19].copy_from_slice(&digits(moment, b'T'));
    take(std::str::from_utf8(&text).expect("characters of ASCII"))
}

impl fmt::Display for Time {
    /// The text that chrono shows, as `2020-02-29 16:39:57 UTC`, whatever width and precision are asked for.
    fn fmt(&self, f: &mut fmt::Formatter) -> fmt::Result {
        let mut text = *b"0000-00-00 00:00:00 UTC";
        text[..19].copy_from_slice(&digits(&self.moment(), b' '));
        f.write_str(std::str::from_utf8(&text).expect("characters of ASCII"))
    }
}

impl fmt::Debug for Time {
    fn fmt(&self, f: &mut fmt::Formatter) -> fmt::Result {
        with_rfc3339(&self.moment(), |text| write!(f, "Time({text})"))
    }
}

#[cfg(feature = "serde")]
impl serde::Serialize for Time {
    /// The text of RFC 3339.
    fn serialize<S: serde::Serializer>(&self, serializer: S) -> Result<S::Ok, S::Error> {
        with_rfc3339(&self.moment(), |text| serializer.serialize_str(text))
    }
}

#[cfg(feature = "serde")]
impl<'de> serde::Deserialize<'de> for Time {
    fn deserialize<D: serde::Deserializer<'de>>(deserializer: D) -> Result<Self, D::Error> {
        crate::texts::borrowed(deserializer, "an RFC 3339 formatted date and time string", str::parse)
    }
}
