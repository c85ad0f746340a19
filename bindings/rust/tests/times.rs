//! Times and periods: what is before 1970, both ends, texts beside the crate chrono, and the machine's clock.

use rpki::repository::error::{ContentError, InspectionError, ValidationError, VerificationError};
use rpki::repository::x509::{Serial, SerialSliceError, Time, Validity};
use rpki_proved as rpki;
use std::time::{Duration, SystemTime};

/// A time of a day around 1970, on both sides of it, and far from it.
fn times() -> Vec<Time> {
    let seconds = [-62_167_219_200, -1_000_000, -86_401, -1, 0, 1, 951_827_997, 4_102_444_800, 253_402_300_799];
    seconds.iter().map(|seconds| Time::from_timestamp(*seconds).unwrap()).collect()
}

/// Times follow each other as their seconds do; a period begins with its first and ends with its last.
#[test]
fn order_and_periods() {
    for one in times() {
        for other in times() {
            let (a, b) = (one.timestamp(), other.timestamp());
            assert_eq!((one.cmp(&other), one == other), (a.cmp(&b), a == b));
            // `other` is now.
            let (before, after) = (one.verify_not_before(other), one.verify_not_after(other));
            assert_eq!(before.is_err(), b < a, "{one} {other}");
            assert_eq!(after.is_err(), b > a, "{one} {other}");
            assert!(before.err().map_or(true, |error| error.is_too_new()));
            assert!(after.err().map_or(true, |error| !error.is_too_new()));
            for end in times() {
                let told = Validity::new(one, end).verify_at(other).err().map(|error| error.is_too_new());
                let wanted = if b < a { Some(true) } else { (b > end.timestamp()).then_some(false) };
                assert_eq!(told, wanted, "{one} {end} {other}");
                let common = Validity::new(one, end).trim(Validity::new(other, other));
                assert_eq!((common.not_before(), common.not_after()), (one.max(other), end.min(other)));
            }
        }
    }
}

/// Parts of a second are dropped, of a time before 1970 too: the second that a moment is in.
#[test]
fn times_of_the_system() {
    let epoch = SystemTime::UNIX_EPOCH;
    let rows = [
        (epoch, 0),
        (epoch + Duration::from_millis(1_999), 1),
        (epoch - Duration::from_millis(1), -1),
        (epoch - Duration::from_millis(1_000), -1),
        (epoch - Duration::from_millis(1_001), -2),
        (epoch - Duration::from_secs(86_400), -86_400),
    ];
    for (time, seconds) in rows {
        assert_eq!(Time::from(time).timestamp(), seconds, "{time:?}");
    }
    for time in times() {
        assert_eq!(Time::from(SystemTime::from(time)), time);
        let seconds = Duration::from_secs(time.timestamp().unsigned_abs());
        let wanted = if time.timestamp() < 0 { epoch - seconds } else { epoch + seconds };
        assert_eq!(SystemTime::from(time), wanted, "{time}");
    }
}

/// How many seconds after now a time is, which is told at about the same moment.
fn from_now(time: Time) -> i64 {
    time.timestamp() - Time::now().timestamp()
}

#[test]
fn times_from_now_on() {
    let day = 86_400;
    let rows = [
        (Time::five_minutes_ago(), -300),
        (Time::five_minutes_from_now(), 300),
        (Time::tomorrow(), day),
        (Time::next_week(), 7 * day),
    ];
    for (time, seconds) in rows {
        // The clock may go on between the two calls, and may be set.
        assert!((seconds - 120..=seconds).contains(&from_now(time)), "{seconds}");
    }
    for year in [Time::next_year(), Time::years_from_now(1)] {
        assert!((365 * day - 120..=366 * day).contains(&from_now(year)));
    }
    for seconds in [-3_600, 0, 3_600] {
        let period = Validity::from_secs(seconds);
        let (from, to) = (from_now(period.not_before()), from_now(period.not_after()));
        assert!((seconds.min(0) - 120..=seconds.min(0)).contains(&from), "{seconds}");
        assert!((seconds.max(0) - 120..=seconds.max(0)).contains(&to), "{seconds}");
    }
    let period = Validity::from_duration(Duration::from_secs(3_600));
    assert!((3_480..=3_600).contains(&from_now(period.not_after())));
}

/// Texts that are read, and the seconds that they name; others that are not.
const TEXTS: [(&str, Option<i64>); 63] = [
    ("1970-01-01T00:00:00Z", Some(0)),
    ("1970-01-01T00:00:00z", Some(0)),
    ("1970-01-01 00:00:00 UTC", Some(0)),
    ("1970-01-01T00:00:00utc", Some(0)),
    ("1970-01-01T00:00:00+00:00", Some(0)),
    ("1970-01-01T00:00:00-0000", Some(0)),
    ("1970-01-01T00:00:00 +00 : 00", Some(0)),
    ("1970-01-01T00:00:00+::00:00", None),
    ("1970-01-01T00:00:00+01:30", Some(-5_400)),
    ("1970-01-01T00:00:00-01:30", Some(5_400)),
    ("1970-01-01T00:00:00+23:59", Some(-86_340)),
    ("1970-01-01T00:00:00+24:00", None),
    ("1970-01-01T00:00:00+00:60", None),
    ("1970-01-01T00:00:00+1:00", None),
    ("1970-01-01T00:00:00+01", None),
    ("1970-01-01T00:00:00+01:0", None),
    ("1970-01-01T00:00:00+01:000", None),
    ("1970-01-01T00:00:00.5Z", Some(0)),
    ("1970-01-01T00:00:00.123456789012Z", Some(0)),
    ("1970-01-01T00:00:00.Z", None),
    ("1970-01-01T00:00:00 .5Z", None),
    ("1970-01-01T00:00:00,5Z", None),
    ("1970-01-01T00:00:00Z ", Some(0)),
    (" 1970-01-01T00:00:00Z", Some(0)),
    ("1970 - 1 - 1T0 : 0 : 0Z", Some(0)),
    ("1970-1-1T0:0:0Z", Some(0)),
    ("1970-01-01  00:00:00Z", Some(0)),
    ("1970-01-01t00:00:00Z", None),
    ("1970-01-01_00:00:00Z", None),
    ("1970-01-01T00:00:00Zx", None),
    ("1970-01-01T00:00:00Z+00:00", None),
    ("1970-01-01T00:00:00+00:00x", None),
    ("1970-01-01T00:00:00+00:00Z", None),
    ("1970-01-01T00:00:00", None),
    ("1970-01-01T00:00Z", None),
    ("1970-01-01", None),
    ("", None),
    ("x", None),
    ("1970-01-01T00:00:59Z", Some(59)),
    ("1970-01-01T00:00:60Z", Some(59)),
    ("1970-01-01T00:00:61Z", None),
    ("1970-01-01T00:60:00Z", None),
    ("1970-01-01T24:00:00Z", None),
    ("1970-00-01T00:00:00Z", None),
    ("1970-13-01T00:00:00Z", None),
    ("1970-01-00T00:00:00Z", None),
    ("1970-01-32T00:00:00Z", None),
    ("1970-02-29T00:00:00Z", None),
    ("2000-02-29T00:00:00Z", Some(951_782_400)),
    ("1900-02-29T00:00:00Z", None),
    ("+1970-01-01T00:00:00Z", Some(0)),
    ("+001970-01-01T00:00:00Z", Some(0)),
    ("001970-01-01T00:00:00Z", None),
    ("0000-01-01T00:00:00Z", Some(-62_167_219_200)),
    ("-0000-01-01T00:00:00Z", Some(-62_167_219_200)),
    ("9999-12-31T23:59:58Z", Some(253_402_300_798)),
    ("9999-12-31T23:59:59Z", Some(253_402_300_799)),
    ("9999-12-31T23:59:60Z", Some(253_402_300_799)),
    ("9999-12-31T23:59:59.999999999Z", Some(253_402_300_799)),
    ("+10000-01-01T00:00:00+00:01", Some(253_402_300_740)),
    ("-0001-12-31T23:59:00-00:01", Some(-62_167_219_200)),
    ("1970-01-01T00:00:00Ü", None),
    ("197é-01-01T00:00:00Z", None),
];

#[test]
fn texts_are_read() {
    for (text, seconds) in TEXTS {
        assert_eq!(text.parse::<Time>().ok().map(Time::timestamp), seconds, "{text}");
    }
    // Of years that no time has, whatever chrono says of them.
    for text in
        ["10000-01-01T00:00:00Z", "+10000-01-01T00:00:00Z", "-0001-12-31T23:59:59Z", "+99999999999-01-01T00:00:00Z"]
    {
        assert_eq!(text.parse::<Time>().unwrap_err().to_string(), "malformed time value", "{text}");
    }
}

/// The same texts are read by chrono, to the same seconds, and so is each text with one character changed.
#[cfg(feature = "chrono")]
#[test]
fn texts_are_read_as_chrono_reads_them() {
    use chrono::{DateTime, Datelike, Utc};
    let is_as_chronos = |text: &str| {
        let theirs = text.parse::<DateTime<Utc>>().ok().filter(|time| (0..=9_999).contains(&time.year()));
        assert_eq!(text.parse::<Time>().ok().map(Time::timestamp), theirs.map(|time| time.timestamp()), "{text}");
        theirs.is_some()
    };
    let mut count = 0;
    for (text, seconds) in TEXTS {
        assert_eq!(is_as_chronos(text), seconds.is_some(), "{text}");
        for (place, _) in text.char_indices() {
            for other in ["", " ", "0", "1", "9", ":", "-", "+", ".", "Z", "T", "u", "\u{a0}", "é"] {
                let rest: String = text[place..].chars().skip(1).collect();
                count += usize::from(is_as_chronos(&format!("{}{other}{rest}", &text[..place])));
                count += usize::from(is_as_chronos(&format!("{}{other}{}", &text[..place], &text[place..])));
            }
        }
    }
    assert!(count > 2_000, "{count} texts are read");
}

/// A time is shown as chrono shows it, and so is its Debug (of RFC 3339).
#[cfg(feature = "chrono")]
#[test]
fn texts_are_those_of_chrono() {
    use chrono::{DateTime, Utc};
    for time in times() {
        let theirs = DateTime::<Utc>::from(time);
        assert_eq!((time.to_string(), format!("{time:?}")), (theirs.to_string(), format!("Time({theirs:?})")));
        assert_eq!((Time::from(theirs), Time::new(theirs)), (time, time));
    }
}

/// Width, precision, sign and fill change nothing.
#[test]
fn texts_are_bare() {
    let time = Time::utc(2020, 2, 29, 16, 39, 57);
    let shown = [format!("{time:40}"), format!("{time:>40}"), format!("{time:.4}"), format!("{time:040}")];
    assert_eq!(shown, ["2020-02-29 16:39:57 UTC"; 4].map(String::from));
    let serial = Serial::from(7u64);
    let shown = [format!("{serial:8}"), format!("{serial:08}"), format!("{serial:+}"), format!("{serial:#}")];
    assert_eq!(shown, ["7"; 4].map(String::from));
    let uri: rpki::uri::Rsync = "rsync://host/m/".parse().unwrap();
    let shown = [format!("{uri:20}"), format!("{uri:>20}"), format!("{uri:.4}"), format!("{uri:#}")];
    assert_eq!(shown, ["rsync://host/m/"; 4].map(String::from));
    let uri: rpki::uri::Https = "https://host/".parse().unwrap();
    let shown = [format!("{uri:20}"), format!("{uri:>20}"), format!("{uri:.4}"), format!("{uri:#}")];
    assert_eq!(shown, ["https://host/"; 4].map(String::from));
    let key: rpki::crypto::KeyIdentifier = "A9993E364706816ABA3E25717850C26C9CD0D89D".parse().unwrap();
    assert_eq!(format!("{key:50}{key:.3}"), "A9993E364706816ABA3E25717850C26C9CD0D89D".repeat(2));
}

/// The texts of errors, and those that they become (tables of the crate rpki 0.20.1).
#[test]
fn errors_have_texts() {
    let (early, late) = (Time::utc(2020, 1, 1, 0, 0, 0), Time::utc(2021, 1, 1, 0, 0, 0));
    let rows = [
        (late.verify_not_before(early), "object is not yet valid", "certificate is not yet valid"),
        (early.verify_not_after(late), "object has expired", "certificate has expired"),
    ];
    for (told, text, of_certificate) in rows {
        let error = told.unwrap_err();
        assert_eq!(
            (error.to_string(), VerificationError::from(error).to_string()),
            (text.into(), of_certificate.into())
        );
        assert_eq!(ValidationError::from(VerificationError::from(error)).to_string(), of_certificate);
    }
    let slices = [
        (Serial::from_slice(&[]), SerialSliceError::Empty, "empty serial number"),
        (Serial::from_slice(&[0; 21]), SerialSliceError::Long, "serial number longer than 20 bytes"),
    ];
    for (told, error, text) in slices {
        assert_eq!((told, error.to_string()), (Err(error), text.into()));
        assert_eq!(ContentError::from(error).to_string(), text);
        assert_eq!(InspectionError::new(error).to_string(), text);
        assert_eq!(VerificationError::new(error), VerificationError::new(ContentError::from_static(text)));
    }
}
