//! Times and their texts, as document 02, order 7 has them: the calendar walked through day by day,
//! what is no text of a time, and what is outside the range.

use crate::common::{refusal, NONE};
use twin::builder::Generator;
use twin::{text_of_time, time_of_text, Time};

const MONTHS: [&str; 12] =
    ["JAN", "FEB", "MAR", "APR", "MAY", "JUN", "JUL", "AUG", "SEP", "OCT", "NOV", "DEC"];

/// A day of the Gregorian calendar; months count from 1.
#[derive(Clone, Copy, Debug, PartialEq, Eq)]
struct Date {
    year: u32,
    month: usize,
    day: u32,
}

const FIRST: Date = Date { year: 1980, month: 1, day: 1 };
const LAST: Date = Date { year: 2099, month: 12, day: 31 };

impl Date {
    fn month_length(&self) -> u32 {
        let divided = |by: u32| self.year.is_multiple_of(by);
        let leap = divided(4) && (!divided(100) || divided(400));
        match self.month {
            4 | 6 | 9 | 11 => 30,
            2 if leap => 29,
            2 => 28,
            _ => 31,
        }
    }

    fn tomorrow(self) -> Date {
        let Date { year, month, day } = self;
        if day < self.month_length() {
            Date { day: day + 1, ..self }
        } else if month < 12 {
            Date { year, month: month + 1, day: 1 }
        } else {
            Date { year: year + 1, month: 1, day: 1 }
        }
    }

    /// Its text at a time of the day.
    fn text(&self, seconds: u32, microseconds: u32) -> String {
        let Date { year, month, day } = self;
        let (hour, minute, second) = (seconds / 3600, seconds / 60 % 60, seconds % 60);
        let month = MONTHS[month - 1];
        format!("{day:02}-{month}-{year} {hour:02}:{minute:02}:{second:02}.{microseconds:06}")
    }
}

fn time(days: i32, seconds: u32, microseconds: u32) -> Time {
    Time { days, seconds, microseconds }
}

/// Each stands for the other.
fn are_each_others(time: Time, text: &str) {
    let written = text_of_time(time).map(|bytes| String::from_utf8_lossy(&bytes).into_owned());
    assert_eq!(written.as_deref(), Ok(text), "{time:?}");
    assert_eq!(time_of_text(text.as_bytes()), Ok(Some(time)), "{text}");
}

fn is_no_text(text: impl AsRef<[u8]>) {
    let text = text.as_ref();
    let shown = text.escape_ascii();
    assert_eq!(time_of_text(text), Err(refusal(30, 0, NONE)), "{shown}");
}

fn is_out_of_range(days: i32, seconds: u32, microseconds: u32) {
    let time = time(days, seconds, microseconds);
    assert_eq!(text_of_time(time), Err(refusal(31, 0, NONE)), "{time:?}");
}

#[test]
fn the_examples_of_document_02_are_answered() {
    are_each_others(time(0, 0, 0), "01-JAN-2000 00:00:00.000000");
    are_each_others(time(-1, 0, 0), "31-DEC-1999 00:00:00.000000");
    are_each_others(time(-7305, 0, 0), "01-JAN-1980 00:00:00.000000");
    are_each_others(time(36_524, 86_399, 999_999), "31-DEC-2099 23:59:59.999999");
    are_each_others(time(59, 45_296, 789_012), "29-FEB-2000 12:34:56.789012");
}

/// 43,830 days, at both ends of each and at a time between.
#[test]
fn every_day_is_the_one_after_yesterday() {
    let mut generator = Generator::new(27);
    let (mut date, mut days) = (FIRST, -7305);
    loop {
        are_each_others(time(days, 0, 0), &date.text(0, 0));
        are_each_others(time(days, 86_399, 999_999), &date.text(86_399, 999_999));
        let (seconds, microseconds) = (generator.below(86_400), generator.below(1_000_000));
        let (seconds, microseconds) = (seconds as u32, microseconds as u32);
        are_each_others(time(days, seconds, microseconds), &date.text(seconds, microseconds));
        if date == LAST {
            break;
        }
        (date, days) = (date.tomorrow(), days + 1);
    }
    assert_eq!(days, 36_524);
    assert_eq!((FIRST.tomorrow().day, LAST.tomorrow().year), (2, 2100));
}

#[test]
fn every_second_of_a_day_has_its_text() {
    let date = Date { year: 2024, month: 2, day: 29 };
    for seconds in 0..86_400 {
        are_each_others(time(8825, seconds, 31), &date.text(seconds, 31));
    }
}

#[test]
fn every_microsecond_of_a_second_has_its_text() {
    for microseconds in 0..1_000_000 {
        let time = time(-7305, 59, microseconds);
        let text = text_of_time(time).unwrap();
        assert_eq!(text[20..], *format!(".{microseconds:06}").as_bytes());
        assert_eq!(time_of_text(&text), Ok(Some(time)));
    }
}

/// Only 27 blanks are not given.
#[test]
fn a_blank_text_is_its_own_answer() {
    for length in (0..64).filter(|&length| length != 27) {
        is_no_text(vec![b' '; length]);
    }
    assert_eq!(time_of_text(&[b' '; 27]), Ok(None));
    for place in 0..27 {
        for byte in [0, b'\t', b'0', b'-', 160] {
            let mut text = [b' '; 27];
            text[place] = byte;
            is_no_text(text);
        }
    }
}

#[test]
fn days_that_are_in_no_calendar_are_refused() {
    for date in ["00-JAN-2000", "32-JAN-2000", "30-FEB-2000", "29-FEB-2001", "29-FEB-2098"] {
        is_no_text(format!("{date} 00:00:00.000000"));
    }
    for date in ["31-APR-2004", "31-JUN-1999", "31-SEP-1980", "31-NOV-2099", "99-DEC-2000"] {
        is_no_text(format!("{date} 00:00:00.000000"));
    }
}

#[test]
fn years_out_of_range_are_refused() {
    for year in (0..10_000).filter(|year| !(1980..=2099).contains(year)) {
        is_no_text(format!("01-MAR-{year:04} 00:00:00.000000"));
        is_no_text(format!("29-FEB-{year:04} 23:59:59.999999"));
    }
}

#[test]
fn a_clock_ends_before_24_60_and_60() {
    for clock in ["24:00:00", "25:00:00", "29:59:59", "30:00:00", "23:60:00", "23:59:60", "99:99:99"] {
        is_no_text(format!("31-DEC-2016 {clock}.000000"));
        is_no_text(format!("31-DEC-2016 {clock}.999999"));
    }
}

#[test]
fn months_are_three_capitals_of_their_own() {
    for name in ["Jan", "jan", "JAn", "jAN", "JAM", "NAJ", "QQQ", "   ", "\0\0\0", "001", "MRZ", "DEZ"]
    {
        is_no_text(format!("01-{name}-2000 00:00:00.000000"));
    }
    let is_answered = |index: &u32| {
        let letters = [index / 676, index / 26 % 26, index % 26];
        let mut text = *b"01-???-2000 00:00:00.000000";
        text[3..6].copy_from_slice(&letters.map(|letter| b'A' + letter as u8));
        time_of_text(&text).is_ok()
    };
    assert_eq!((0..26 * 26 * 26).filter(is_answered).count(), 12);
}

/// One byte of a text replaced by each of the 256.
#[test]
fn every_byte_at_every_place_is_told() {
    let good = *b"11-DEC-2011 11:11:11.111111";
    let lowest = b"00-DEC-2000 00:00:00.000000";
    let highest = b"39-DEC-2099 29:59:59.999999";
    for place in 0..27 {
        for byte in 0..=255 {
            let mut text = good;
            text[place] = byte;
            let answered = time_of_text(&text).is_ok();
            let allowed = (lowest[place]..=highest[place]).contains(&byte);
            assert_eq!(answered, allowed, "{}", text.escape_ascii());
        }
    }
}

#[test]
fn a_text_has_exactly_27_bytes() {
    let text = b"29-FEB-2000 12:34:56.789012";
    (0..27).for_each(|length| is_no_text(&text[..length]));
    for byte in [b' ', b'0', 0, b'\n'] {
        for more in 1..40 {
            is_no_text([&text[..], &vec![byte; more]].concat());
            is_no_text([&vec![byte; more], &text[..]].concat());
        }
    }
}

#[test]
fn times_out_of_range_are_refused() {
    for days in [-7306, 36_525, -7305 - 146_097, 1 << 16, i32::MIN, i32::MAX] {
        is_out_of_range(days, 0, 0);
        is_out_of_range(days, 86_399, 999_999);
        is_out_of_range(days, 86_400, 1_000_000);
    }
    for days in [-7305, -1, 0, 36_524] {
        for seconds in [86_400, 86_401, 1 << 31, u32::MAX] {
            is_out_of_range(days, seconds, 0);
        }
        for microseconds in [1_000_000, 1_000_001, 1 << 31, u32::MAX] {
            is_out_of_range(days, 0, microseconds);
        }
    }
}
