//! Times of a capture, and dates.

use std::fmt;

/// Nanoseconds from 1970 on.
#[derive(Clone, Copy, Debug, PartialEq, Eq, PartialOrd, Ord)]
pub struct Time(pub i128);

const SECOND: i128 = 1_000_000_000;

impl Time {
    pub fn new(seconds: i64, nanoseconds: u64) -> Self {
        Time(i128::from(seconds) * SECOND + i128::from(nanoseconds))
    }

    /// The seconds from another time to this one.
    pub fn since(self, other: Time) -> f64 {
        (self.0 - other.0) as f64 / SECOND as f64
    }

    /// As RFC 3339 has it, to the nanosecond.
    pub fn rfc3339(self) -> String {
        self.to_string().replacen(' ', "T", 1).replace(" UTC", "Z")
    }
}

impl fmt::Display for Time {
    fn fmt(&self, f: &mut fmt::Formatter<'_>) -> fmt::Result {
        let seconds = self.0.div_euclid(SECOND) as i64;
        let nanoseconds = self.0.rem_euclid(SECOND);
        write!(f, "{}.{nanoseconds:09} UTC", utc(seconds))
    }
}

/// The date and the time of a second counted from 1970 on, in UTC.
pub fn utc(seconds: i64) -> String {
    let (days, second) = (seconds.div_euclid(86_400), seconds.rem_euclid(86_400));
    let (year, month, day) = date(days);
    let (hour, minute) = (second / 3600, second / 60 % 60);
    format!(
        "{year:04}-{month:02}-{day:02} {hour:02}:{minute:02}:{:02}",
        second % 60
    )
}

/// The date of a day counted from 1970-01-01 on, in the Gregorian calendar. Years
/// are taken from March on, so that a leap day is the last day of its year.
fn date(days: i64) -> (i64, i64, i64) {
    let days = days + 719_468; // from 0000-03-01 on
    let (era, day) = (days.div_euclid(146_097), days.rem_euclid(146_097));
    let year = (day - day / 1460 + day / 36_524 - day / 146_096) / 365;
    let day = day - (365 * year + year / 4 - year / 100);
    let month = (5 * day + 2) / 153;
    let day = day - (153 * month + 2) / 5 + 1;
    let month = if month < 10 { month + 3 } else { month - 9 };
    (400 * era + year + i64::from(month <= 2), month, day)
}
