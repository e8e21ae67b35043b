//! Times that people can read (document 02, order 7): `01-JAN-2000 00:00:00.000000` and the time that
//! it stands for, either way, from 1 January 1980 to 31 December 2099. Refusals 30 and 31.

use std::array;

use crate::fields::Time;
use crate::refusal::Refusal;
use crate::text::eight_digits;

/// Bytes of a time's text.
pub const TIME_TEXT: usize = 27;

/// The text that is not given.
const BLANKS: [u8; TIME_TEXT] = [b' '; TIME_TEXT];
const NO_TIME: Refusal = Refusal::without_entry(30, 0);
const OUT_OF_RANGE: Refusal = Refusal::without_entry(31, 0);

const FIRST_YEAR: u32 = 1980;
const YEARS: u32 = 120;
/// 1 January 1980, counted from 1 January 2000.
const FIRST_DAY: i32 = -7305;
const DAYS: u32 = 43_830;
const SECONDS: u32 = 86_400;
const MICROSECONDS: u32 = 1_000_000;
/// Of the years in the range every fourth is a leap year: 1980 is one, and so is 2000.
const FOUR_YEARS: u32 = 4 * 365 + 1;
/// From 1 March to the end of the year.
const DAYS_FROM_MARCH_ON: u32 = 306;

const MONTHS: [([u8; 3], u16); 12] = [
    (*b"JAN", 31),
    (*b"FEB", 28),
    (*b"MAR", 31),
    (*b"APR", 30),
    (*b"MAY", 31),
    (*b"JUN", 30),
    (*b"JUL", 31),
    (*b"AUG", 31),
    (*b"SEP", 30),
    (*b"OCT", 31),
    (*b"NOV", 30),
    (*b"DEC", 31),
];
const FEBRUARY: usize = 1;
const MARCH: usize = 2;

/// The lowest and the highest byte that the text of a time has at each place.
const LOWEST: &[u8; TIME_TEXT] = b"00-AAA-1000 00:00:00.000000";
const HIGHEST: &[u8; TIME_TEXT] = b"39-SUY-2999 29:59:59.999999";
/// The first so many bytes of a text and the last so many are all of them.
const BLOCK: usize = 16;

/// A month of a common year or of a leap year.
#[derive(Clone, Copy)]
struct Month {
    letters: u32,
    /// The days of the year before it.
    before: u16,
    length: u16,
}

/// The second and the third letter of a month add up to another number for each, in five bits too.
const LETTER_SUMS: usize = 32;
/// The months of common years and of leap years by these sums; where no month has a sum, no letters do.
static MONTHS_BY_SUM: [[Month; LETTER_SUMS]; 2] = [months_by_sum(false), months_by_sum(true)];

const fn months_by_sum(leap: bool) -> [Month; LETTER_SUMS] {
    let mut table = [Month { letters: u32::MAX, before: 0, length: 0 }; LETTER_SUMS];
    let (mut month, mut before) = (0, 0);
    while month < MONTHS.len() {
        let (name, common) = MONTHS[month];
        let length = if leap && month == FEBRUARY { common + 1 } else { common };
        let letters = letters_of(name);
        assert!(table[sum_of(letters)].length == 0, "two months have one sum");
        table[sum_of(letters)] = Month { letters, before, length };
        before += length;
        month += 1;
    }
    table
}

#[inline]
const fn letters_of([first, second, third]: [u8; 3]) -> u32 {
    u32::from_le_bytes([first, second, third, 0])
}

#[inline]
const fn sum_of(letters: u32) -> usize {
    ((letters >> 8) + (letters >> 16)) as usize % LETTER_SUMS
}

/// The time of a text, or nothing where it is blank: refusal 30. It is compiled into its callers, which
/// lay the answer out for C, so that it does not go through memory.
#[inline(always)]
pub fn time_of_text(text: &[u8]) -> Result<Option<Time>, Refusal> {
    let text: &[u8; TIME_TEXT] = text.try_into().map_err(|_| NO_TIME)?;
    match time_in(text) {
        None if *text != BLANKS => Err(NO_TIME),
        time => Ok(time),
    }
}

/// The time of a text, where it is one. What is judged is worked out before, so that a good text costs
/// few branches.
#[inline(always)]
fn time_in(text: &[u8; TIME_TEXT]) -> Option<Time> {
    let [_, _, _, first, second, third, ..] = *text;
    let letters = letters_of([first, second, third]);
    let year = number::<4>(text, 7).wrapping_sub(FIRST_YEAR);
    let month = &MONTHS_BY_SUM[usize::from(year.is_multiple_of(4))][sum_of(letters)];
    let day = number::<2>(text, 0).wrapping_sub(1);
    let hour = number::<2>(text, 12);
    let in_month = (month.letters == letters) & (day < u32::from(month.length));
    if !(is_within_bounds(text) & in_month & (year < YEARS) & (hour < 24)) {
        return None;
    }
    let days = (FOUR_YEARS * year).div_ceil(4) + u32::from(month.before) + day;
    Some(Time {
        days: days as i32 + FIRST_DAY,
        seconds: 3600 * hour + 60 * number::<2>(text, 15) + number::<2>(text, 18),
        microseconds: microseconds_in(text),
    })
}

/// Whether no byte is below the lowest or above the highest. All are looked at together, in two blocks.
#[inline]
fn is_within_bounds(text: &[u8; TIME_TEXT]) -> bool {
    let excess = |place: usize| {
        let above = text[place].wrapping_sub(LOWEST[place]);
        above.saturating_sub(HIGHEST[place] - LOWEST[place])
    };
    let excesses: [u8; BLOCK] = array::from_fn(|lane| excess(lane) | excess(TIME_TEXT - BLOCK + lane));
    u128::from_ne_bytes(excesses) == 0
}

/// The last six digits, with zeros for the two bytes before them.
#[inline]
fn microseconds_in(text: &[u8; TIME_TEXT]) -> u32 {
    let mut digits = [0; 8];
    digits.copy_from_slice(&text[TIME_TEXT - 8..]);
    digits[..2].fill(b'0');
    eight_digits(digits) as u32
}

/// The number that digits write; of other bytes, any.
#[inline]
fn number<const DIGITS: usize>(text: &[u8; TIME_TEXT], place: usize) -> u32 {
    let digits = text[place..place + DIGITS].iter().map(|&byte| u32::from(byte).wrapping_sub(48));
    digits.fold(0, |number: u32, digit| number.wrapping_mul(10).wrapping_add(digit))
}

/// The numbers from 0 to 99 in two digits.
static PAIRS: [[u8; 2]; 100] = pairs();
/// The years from 1979 to 2099 in four.
static YEAR_DIGITS: [[u8; 4]; YEARS as usize + 1] = year_digits();
/// The days of a year that begins on 1 March and ends with the leap day: `01-MAR-` and so on, and a
/// byte in the place of the year's first.
static DAYS_OF_YEAR: [[u8; 8]; 366] = days_of_year();

const fn pairs() -> [[u8; 2]; 100] {
    let mut pairs = [[0; 2]; 100];
    let mut number = 0;
    while number < pairs.len() {
        pairs[number] = [b'0' + (number / 10) as u8, b'0' + (number % 10) as u8];
        number += 1;
    }
    pairs
}

const fn year_digits() -> [[u8; 4]; YEARS as usize + 1] {
    let pairs = pairs();
    let mut years = [[0; 4]; YEARS as usize + 1];
    let mut index = 0;
    while index < years.len() {
        let year = FIRST_YEAR as usize - 1 + index;
        let ([thousands, hundreds], [tens, ones]) = (pairs[year / 100], pairs[year % 100]);
        years[index] = [thousands, hundreds, tens, ones];
        index += 1;
    }
    years
}

const fn days_of_year() -> [[u8; 8]; 366] {
    let pairs = pairs();
    let mut days = [[0; 8]; 366];
    let (mut month, mut day, mut index) = (MARCH, 1, 0);
    while index < days.len() {
        let ([first, second, third], length) = MONTHS[month];
        let [tens, ones] = pairs[day];
        days[index] = [tens, ones, b'-', first, second, third, b'-', 0];
        day += 1;
        if day > length as usize && month != FEBRUARY {
            (month, day) = ((month + 1) % MONTHS.len(), 1);
        }
        index += 1;
    }
    days
}

/// The text of a time: refusal 31.
pub fn text_of_time(time: Time) -> Result<[u8; TIME_TEXT], Refusal> {
    let mut text = [0; TIME_TEXT];
    write_text(time, &mut text).map(|()| text)
}

/// Writes the text of a time, of which the lowest one has the bytes between numbers; nothing beside
/// refusal 31.
#[inline]
pub(crate) fn write_text(time: Time, text: &mut [u8; TIME_TEXT]) -> Result<(), Refusal> {
    let Time { days, seconds, microseconds } = time;
    let days = days.wrapping_sub(FIRST_DAY) as u32;
    if days >= DAYS || seconds >= SECONDS || microseconds >= MICROSECONDS {
        return Err(OUT_OF_RANGE);
    }
    *text = *LOWEST;
    write_date(days, text);
    let minutes = seconds / 60;
    for (place, number) in [
        (12, minutes / 60),
        (15, minutes % 60),
        (18, seconds % 60),
        (21, microseconds / 10_000),
        (23, microseconds / 100 % 100),
        (25, microseconds % 100),
    ] {
        text[place..place + 2].copy_from_slice(&PAIRS[number as usize]);
    }
    Ok(())
}

/// Writes the date of a day, counted from 1 January 1980. Years are taken to begin on 1 March, the
/// first with that of 1979, so that each leap day is the last of its year: then, of four years in a
/// row, the first has 366 days, and day and year come out of one division of the quarters of days.
#[inline]
fn write_date(day: u32, text: &mut [u8; TIME_TEXT]) {
    let quarters = 4 * (day + DAYS_FROM_MARCH_ON);
    let day_of_year = quarters % FOUR_YEARS / 4;
    let year = quarters / FOUR_YEARS + u32::from(day_of_year >= DAYS_FROM_MARCH_ON);
    text[..8].copy_from_slice(&DAYS_OF_YEAR[day_of_year as usize]);
    text[7..11].copy_from_slice(&YEAR_DIGITS[year as usize]);
}
