//! Moments by the parts of their dates, and by seconds: the Gregorian calendar of the years 0 to 9999, and days of
//! 86,400 seconds.

use crate::ffi::Moment;
use std::ops::RangeInclusive;

/// The seconds of a day.
const DAY: i64 = 86_400;

/// The days from 0000-03-01 to 1970-01-01.
const BEFORE_1970: i64 = 719_468;

/// The seconds of the first moment and of the last, from 1970-01-01 00:00:00 on.
pub(super) const SECONDS: RangeInclusive<i64> = -62_167_219_200..=253_402_300_799;

/// The days from 1970-01-01 to this date.
pub(super) fn days_to(year: i64, month: u32, day: u32) -> i64 {
    // Years that begin in March, so that a leap day is the last of its year.
    let (year, month) = if month > 2 { (year, month - 3) } else { (year - 1, month + 9) };
    let leap_days = year.div_euclid(4) - year.div_euclid(100) + year.div_euclid(400);
    // From March on, five months have 153 days.
    365 * year + leap_days + i64::from((153 * month + 2) / 5 + day - 1) - BEFORE_1970
}

/// How many days the month has; none where there is no such month.
pub(super) fn days_of(year: i64, month: u32) -> u32 {
    let is_leap = year % 4 == 0 && (year % 100 != 0 || year % 400 == 0);
    match month {
        1 | 3 | 5 | 7 | 8 | 10 | 12 => 31,
        4 | 6 | 9 | 11 => 30,
        2 if is_leap => 29,
        2 => 28,
        _ => 0,
    }
}

/// The seconds of the moment of these parts; `None` where the calendar or a clock has none, or the year is not of 0 to
/// 9999.
#[inline]
pub(super) fn seconds_of(year: i32, month: u32, day: u32, hour: u32, minute: u32, second: u32) -> Option<i64> {
    let is_day = (0..=9_999).contains(&year) && day >= 1 && day <= days_of(year.into(), month);
    if !is_day || hour > 23 || minute > 59 || second > 59 {
        return None;
    }
    Some(DAY * days_to(year.into(), month, day) + i64::from(3_600 * hour + 60 * minute + second))
}

/// The moment so many seconds after 1970-01-01 00:00:00, which are among `SECONDS`.
#[inline]
pub(super) fn moment_at(seconds: i64) -> Moment {
    // Both are positive: there are 60 days of the year 0 before March.
    let days = (seconds.div_euclid(DAY) + BEFORE_1970 + 146_097) as u32;
    let clock = seconds.rem_euclid(DAY) as u32;
    // 400 years have 146,097 days; of these four hundred years, the day, the year, and its day from March on.
    let (cycle, day) = (days / 146_097, days % 146_097);
    let year = (day - day / 1_460 + day / 36_524 - day / 146_096) / 365;
    let day = day - (365 * year + year / 4 - year / 100);
    let month = (5 * day + 2) / 153;
    let (is_next, month, day) = (month > 9, month, day - (153 * month + 2) / 5 + 1);
    Moment {
        seconds,
        year: (400 * cycle + year + u32::from(is_next)) as i32 - 400,
        month: if is_next { month - 9 } else { month + 3 },
        day,
        hour: clock / 3_600,
        minute: clock / 60 % 60,
        second: clock % 60,
    }
}

#[cfg(test)]
mod tests {
    use super::{days_of, moment_at, seconds_of, DAY, SECONDS};
    use crate::ffi::{self, Moment};

    fn parts(moment: Moment) -> (i64, i32, [u32; 5]) {
        let Moment { seconds, year, month, day, hour, minute, second } = moment;
        (seconds, year, [month, day, hour, minute, second])
    }

    /// The moment as the library counts from 1970 on.
    fn counted(seconds: i64) -> Option<Moment> {
        ffi::time_seconds_on(&Moment { year: 1970, month: 1, day: 1, ..Moment::default() }, seconds).ok()
    }

    /// Each day of the calendar, at a time of day of its own, is that of the library, and so are both ends.
    #[test]
    fn every_day_is_that_of_the_library() {
        let days = SECONDS.start().div_euclid(DAY)..=SECONDS.end().div_euclid(DAY);
        assert_eq!(days.end() - days.start() + 1, 3_652_425);
        for day in days {
            let seconds = day * DAY + (day * 7_919).rem_euclid(DAY);
            let (told, found) = (counted(seconds).unwrap(), moment_at(seconds));
            assert_eq!(parts(found), parts(told));
            let Moment { year, month, day, hour, minute, second, .. } = found;
            assert_eq!(seconds_of(year, month, day, hour, minute, second), Some(seconds));
        }
        for seconds in [*SECONDS.start(), *SECONDS.end(), -1, 0, 59, 60, 3_599, 3_600] {
            assert_eq!(parts(moment_at(seconds)), parts(counted(seconds).unwrap()), "{seconds}");
        }
        for seconds in [SECONDS.start() - 1, SECONDS.end() + 1, i64::MIN, i64::MAX] {
            assert!(counted(seconds).is_none(), "{seconds}");
        }
    }

    /// What has no moment in the library has none here (`rpki_time_write` refuses it), and the same the other way.
    #[test]
    fn parts_that_are_refused() {
        let numbers = [0, 1, 2, 3, 12, 13, 23, 24, 28, 29, 30, 31, 32, 59, 60, u32::MAX];
        for year in [i32::MIN, -1, 0, 1, 1900, 1999, 2000, 2004, 9999, 10_000, i32::MAX] {
            for month in numbers {
                for day in numbers {
                    let written = ffi::time_write(&Moment { year, month, day, ..Moment::default() });
                    assert_eq!(
                        seconds_of(year, month, day, 0, 0, 0).is_some(),
                        written.is_ok(),
                        "{year}-{month}-{day}"
                    );
                }
            }
        }
        for hour in numbers {
            for minute in numbers {
                for second in numbers {
                    let written =
                        ffi::time_write(&Moment { year: 2020, month: 2, day: 29, hour, minute, second, seconds: 0 });
                    let found = seconds_of(2020, 2, 29, hour, minute, second);
                    assert_eq!(found.is_some(), written.is_ok(), "{hour}:{minute}:{second}");
                }
            }
        }
        assert_eq!((days_of(2000, 2), days_of(1900, 2), days_of(2020, 0), days_of(2020, 13)), (29, 28, 0, 0));
    }
}
