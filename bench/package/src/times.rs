//! Times and periods, beside those of chrono.

use crate::{row, title};
use chrono::{DateTime, Datelike, TimeZone, Timelike, Utc};
use rpki_proved::repository::x509::{Time, Validity};
use std::hint::black_box;
use std::time::SystemTime;

/// Whether the moment is in the period, as an error where it isn't: too new, or not.
fn verify_at(period: &(DateTime<Utc>, DateTime<Utc>), now: DateTime<Utc>) -> Result<(), bool> {
    if now < period.0 {
        return Err(true);
    }
    if now > period.1 {
        return Err(false);
    }
    Ok(())
}

fn parts(time: &Time) -> (i32, u32, u32, u32, u32, u32) {
    (time.year(), time.month(), time.day(), time.hour(), time.minute(), time.second())
}

fn parts_of_chrono(time: &DateTime<Utc>) -> (i32, u32, u32, u32, u32, u32) {
    (time.year(), time.month(), time.day(), time.hour(), time.minute(), time.second())
}

pub fn measure() {
    title("times, beside chrono");
    let now = |seconds| (Time::from_timestamp(seconds).unwrap(), Utc.timestamp_opt(seconds, 0).unwrap());
    let (first, last, middle) = (now(1_577_836_800), now(2_524_608_000), now(1_800_000_000));
    let ymd = || black_box((2020, 2, 29, 16, 39, 57));
    row(
        "utc",
        || {
            let (year, month, day, hour, minute, second) = ymd();
            black_box(Time::utc(year, month, day, hour, minute, second));
        },
        || {
            let (year, month, day, hour, minute, second) = ymd();
            black_box(Utc.with_ymd_and_hms(year, month, day, hour, minute, second).unwrap());
        },
    );
    row(
        "from_timestamp",
        || _ = black_box(Time::from_timestamp(black_box(1_800_000_000))),
        || _ = black_box(Utc.timestamp_opt(black_box(1_800_000_000), 0).single()),
    );
    row(
        "parts",
        || _ = black_box(parts(black_box(&middle.0))),
        || _ = black_box(parts_of_chrono(black_box(&middle.1))),
    );
    row(
        "timestamp",
        || _ = black_box(black_box(&middle.0).timestamp()),
        || _ = black_box(black_box(&middle.1).timestamp()),
    );
    row("now", || _ = black_box(Time::now()), || _ = black_box(DateTime::<Utc>::from(SystemTime::now())));
    row(
        "cmp",
        || _ = black_box(black_box(&first.0).cmp(black_box(&last.0))),
        || _ = black_box(black_box(&first.1).cmp(black_box(&last.1))),
    );
    row(
        "==",
        || _ = black_box(black_box(&first.0) == black_box(&first.0)),
        || _ = black_box(black_box(&first.1) == black_box(&first.1)),
    );
    row(
        "to_string",
        || _ = black_box(black_box(&middle.0).to_string()),
        || {
            black_box(black_box(&middle.1).to_string());
        },
    );
    let text = "2020-02-29T16:39:57Z";
    assert_eq!(text.parse::<Time>().unwrap().timestamp(), text.parse::<DateTime<Utc>>().unwrap().timestamp());
    row(
        "from_str",
        || _ = black_box(black_box(text).parse::<Time>()),
        || _ = black_box(black_box(text).parse::<DateTime<Utc>>()),
    );
    measure_periods(first, last, middle);
}

type Both = (Time, DateTime<Utc>);

fn measure_periods(first: Both, last: Both, now: Both) {
    let (period, plain) = (Validity::new(first.0, last.0), (first.1, last.1));
    row(
        "verify_not_before",
        || _ = black_box(black_box(first.0).verify_not_before(black_box(now.0))),
        || _ = black_box(if black_box(now.1) < black_box(first.1) { Err(true) } else { Ok(()) }),
    );
    for (kind, now) in [
        ("inside", now),
        ("too new", (first.0 - std::time::Duration::from_secs(1), first.1 - chrono::Duration::seconds(1))),
    ] {
        assert_eq!(period.verify_at(now.0).is_ok(), verify_at(&plain, now.1).is_ok());
        row(
            &format!("verify_at, {kind}"),
            || _ = black_box(black_box(period).verify_at(black_box(now.0))),
            || _ = black_box(verify_at(&black_box(plain), black_box(now.1))),
        );
    }
    let (other, others) = (Validity::new(now.0, last.0), (now.1, last.1));
    row(
        "trim",
        || _ = black_box(black_box(period).trim(black_box(other))),
        || {
            let (one, other) = (black_box(plain), black_box(others));
            black_box((one.0.max(other.0), one.1.min(other.1)));
        },
    );
}
