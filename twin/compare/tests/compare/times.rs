//! Times and their texts (document 02, order 7), which stand in no product: every day, every date and
//! clock of two digits each, every byte at every place, every length, random ones, and rooms of every
//! length.

use compare::{Comparer, Lengths, Mapping};
use twin::builder::Generator;
use twin::settings::seed;
use twin::words::{Answer, Call, TIME_TEXT_WORDS, TIME_WORDS};
use twin::{Time, TIME_TEXT};

use crate::common::put;
use crate::short_rooms::lend_short;

/// 1 January 1980 and 31 December 2099, counted from 1 January 2000.
const FIRST_DAY: i32 = -7305;
const LAST_DAY: i32 = 36_524;
const DAYS: u64 = 43_830;
const SECONDS: u32 = 86_400;
const MICROSECONDS: u32 = 1_000_000;

const MONTHS: [&str; 12] =
    ["JAN", "FEB", "MAR", "APR", "MAY", "JUN", "JUL", "AUG", "SEP", "OCT", "NOV", "DEC"];
const BLANKS: &[u8; TIME_TEXT] = &[b' '; TIME_TEXT];

/// Texts in which bytes are replaced: both ends of the range, of years and of months, and every digit.
const TEXTS: [&[u8; TIME_TEXT]; 14] = [
    b"01-JAN-1980 00:00:00.000000",
    b"31-DEC-2099 23:59:59.999999",
    b"29-FEB-2000 12:34:56.789012",
    b"29-FEB-1980 23:00:59.000001",
    b"28-FEB-2001 20:10:05.500000",
    b"28-FEB-2099 09:59:00.100000",
    b"31-DEC-1999 23:59:59.999999",
    b"01-JAN-2000 00:00:00.000000",
    b"30-APR-2024 04:05:06.070809",
    b"30-JUN-1989 19:29:39.495969",
    b"30-SEP-2010 13:57:42.864209",
    b"30-NOV-2076 22:48:15.036927",
    b"19-MAR-2038 05:46:27.384950",
    BLANKS,
];

/// What became of the questions; the refusals are 30 and 31.
#[derive(Debug, PartialEq, Eq)]
struct Outcomes {
    times: u64,
    not_given: u64,
    texts: u64,
    no_time: u64,
    out_of_range: u64,
}

const NOTHING: Outcomes = Outcomes { times: 0, not_given: 0, texts: 0, no_time: 0, out_of_range: 0 };

impl Outcomes {
    fn of(comparer: &Comparer) -> Outcomes {
        let met = comparer.met();
        Outcomes {
            times: met.times_answered,
            not_given: met.times_not_given,
            texts: met.texts_answered,
            no_time: met.answers[30],
            out_of_range: met.answers[31],
        }
    }

    fn all(&self) -> u64 {
        self.times + self.not_given + self.texts + self.no_time + self.out_of_range
    }
}

/// Says what became of questions of a kind; every one of them was answered or refused.
fn say(kind: &str, comparer: &Comparer) -> Outcomes {
    let (asked, outcomes) = (comparer.asked() as u64, Outcomes::of(comparer));
    println!("{asked} questions of {kind}: {outcomes:?}");
    assert_eq!(outcomes.all(), asked);
    outcomes
}

fn ask_time(comparer: &mut Comparer, time: Time) -> Answer {
    comparer.compare(&[], Call::TextOfTime { time })
}

fn ask_text(comparer: &mut Comparer, text: &[u8]) -> Answer {
    comparer.compare(text, Call::TimeOfText)
}

/// The words that answer a time.
fn words_of(time: Time) -> [u64; TIME_WORDS] {
    let Time { days, seconds, microseconds } = time;
    [0, 0, 0, 1, i64::from(days) as u64, u64::from(seconds), u64::from(microseconds)]
}

fn is_in_range(time: Time) -> bool {
    (FIRST_DAY..=LAST_DAY).contains(&time.days)
        && time.seconds < SECONDS
        && time.microseconds < MICROSECONDS
}

/// Asks for a time's text, and for the time of that, which is the same; answers both, or nothing for a
/// time out of range, which is refused.
fn ask_both_ways(comparer: &mut Comparer, time: Time) -> Option<[Answer; 2]> {
    let answer = ask_time(comparer, time);
    if !is_in_range(time) {
        assert_eq!(answer.words, [31, 0, 128], "{time:?}");
        assert_eq!(answer.bytes, [0; TIME_TEXT], "{time:?}");
        return None;
    }
    assert_eq!(answer.words, [0; TIME_TEXT_WORDS], "{time:?}");
    let back = ask_text(comparer, &answer.bytes);
    assert_eq!(back.words, words_of(time), "{}", answer.bytes.escape_ascii());
    Some([answer, back])
}

/// A time on a day.
fn draw_clock(days: i32, choices: &mut Generator) -> Time {
    let seconds = choices.below(SECONDS.into()) as u32;
    Time { days, seconds, microseconds: choices.below(MICROSECONDS.into()) as u32 }
}

/// A time in the range.
fn draw_time(choices: &mut Generator) -> Time {
    let days = FIRST_DAY + choices.below(DAYS) as i32;
    draw_clock(days, choices)
}

/// Both ends of each day and a time between, with 400 days before the range and 400 behind it.
#[test]
fn every_day_is_answered_both_ways() {
    let mut comparer = Comparer::default();
    let mut choices = Generator::new(31);
    for days in FIRST_DAY - 400..=LAST_DAY + 400 {
        let start = Time { days, seconds: 0, microseconds: 0 };
        let end = Time { days, seconds: SECONDS - 1, microseconds: MICROSECONDS - 1 };
        for time in [start, end, draw_clock(days, &mut choices)] {
            ask_both_ways(&mut comparer, time);
        }
    }
    let outcomes = say("all days", &comparer);
    let (times, texts) = (3 * DAYS, 3 * DAYS);
    assert_eq!(outcomes, Outcomes { times, texts, out_of_range: 2400, ..NOTHING });
}

/// Days, seconds and microseconds at their edges, each beside each; some are in the range where a
/// reader keeps only 16 bits of them, or adds without looking.
#[test]
fn the_edges_of_the_range_are_told_alike() {
    let edges = [FIRST_DAY - 1, FIRST_DAY, -1, 0, 1, 59, 60, LAST_DAY, LAST_DAY + 1];
    let far = [i32::MIN, i32::MIN + 1, -(1 << 16), 1 << 16, 146_097, i32::MAX - 7305, i32::MAX];
    let seconds = [0, 59, 60, 3600, 65_535, 86_399, 86_400, 86_401, 1 << 31, u32::MAX - 1, u32::MAX];
    let microseconds = [0, 1, 65_536, 999_999, 1_000_000, 1_000_001, 1 << 31, u32::MAX];
    let mut comparer = Comparer::default();
    for days in edges.into_iter().chain(far) {
        for seconds in seconds {
            for microseconds in microseconds {
                ask_both_ways(&mut comparer, Time { days, seconds, microseconds });
            }
        }
    }
    let texts = 7 * 6 * 4;
    let out_of_range = 16 * 11 * 8 - texts;
    let outcomes = say("edges of the range", &comparer);
    assert_eq!(outcomes, Outcomes { times: texts, texts, out_of_range, ..NOTHING });
}

/// A text with one byte replaced is another text, of another time.
#[test]
fn every_byte_at_every_place_is_looked_at_alike() {
    let mut comparer = Comparer::default();
    for good in TEXTS {
        let itself = ask_text(&mut comparer, good);
        for place in 0..TIME_TEXT {
            for byte in (0..=255).filter(|&byte| byte != good[place]) {
                let mut text = *good;
                text[place] = byte;
                let answer = ask_text(&mut comparer, &text);
                assert_ne!(answer.words, itself.words, "{}", text.escape_ascii());
            }
        }
    }
    let outcomes = say("texts with a byte replaced", &comparer);
    assert_eq!(comparer.asked(), TEXTS.len() * (1 + TIME_TEXT * 255));
    assert_eq!(outcomes.not_given, 1);
    assert!(outcomes.times >= 1000 && outcomes.no_time >= 50_000, "{outcomes:?}");
}

/// Digits, most often, or bytes of another place of a text, or any.
fn draw_byte(choices: &mut Generator) -> u8 {
    match choices.below(8) {
        0 => choices.next_number() as u8,
        1 => choices.choose(b"ABCDEFGJLMNOPRSTUVY"),
        2 => choices.choose(b" -:./;9@`,"),
        _ => choices.choose(b"0123456789"),
    }
}

#[test]
fn two_bytes_at_any_places_are_looked_at_alike() {
    let mut comparer = Comparer::default();
    let mut choices = Generator::at(seed(), 7);
    for _ in 0..200_000 {
        let mut text = *choices.choose(&TEXTS);
        let places = [0; 2].map(|_| choices.index(TIME_TEXT));
        put(&mut text, places, [0; 2].map(|_| draw_byte(&mut choices)));
        ask_text(&mut comparer, &text);
    }
    let outcomes = say("texts with two bytes replaced", &comparer);
    assert!(outcomes.times >= 10_000 && outcomes.no_time >= 50_000, "{outcomes:?}");
}

/// Days 00 to 99 of the months of 1975 to 2105, in the order of the calendar: those that are answered
/// are the days of the range, one after the other.
#[test]
fn every_date_is_told_alike() {
    let mut comparer = Comparer::default();
    let mut next = i64::from(FIRST_DAY);
    for year in 1975..=2105 {
        for month in MONTHS {
            for day in 0..100 {
                let text = format!("{day:02}-{month}-{year} 12:34:56.789012");
                let words = ask_text(&mut comparer, text.as_bytes()).words;
                if words[0] == 0 {
                    assert_eq!(words[4] as i64, next, "{text}");
                    next += 1;
                }
            }
        }
    }
    assert_eq!(next, i64::from(LAST_DAY) + 1);
    let no_time = 131 * 12 * 100 - DAYS;
    assert_eq!(say("all dates", &comparer), Outcomes { times: DAYS, no_time, ..NOTHING });
}

/// Hours, minutes and seconds 00 to 99: those that are answered are the seconds of a day, one after the
/// other.
#[test]
fn every_clock_is_told_alike() {
    let mut comparer = Comparer::default();
    let mut next = 0;
    let mut text = *b"29-FEB-2096 00:00:00.123456";
    for clock in 0..1_000_000u32 {
        for (place, number) in [(12, clock / 10_000), (15, clock / 100 % 100), (18, clock % 100)] {
            text[place] = b'0' + (number / 10) as u8;
            text[place + 1] = b'0' + (number % 10) as u8;
        }
        let words = ask_text(&mut comparer, &text).words;
        if words[0] == 0 {
            assert_eq!(words[5], next, "{}", text.escape_ascii());
            next += 1;
        }
    }
    let times = u64::from(SECONDS);
    let no_time = 1_000_000 - times;
    assert_eq!(say("all clocks", &comparer), Outcomes { times, no_time, ..NOTHING });
}

/// All names of three capitals, and every spelling of the months.
#[test]
fn every_month_name_is_told_alike() {
    let mut comparer = Comparer::default();
    let mut text = *b"28-???-1999 00:00:00.000000";
    for name in 0..26 * 26 * 26 {
        let letters = [name / 676, name / 26 % 26, name % 26];
        text[3..6].copy_from_slice(&letters.map(|letter| b'A' + letter as u8));
        ask_text(&mut comparer, &text);
    }
    for month in MONTHS {
        for small in 0..8 {
            let spelt = |(letter, byte): (usize, &u8)| byte | (small >> letter & 1) << 5;
            let letters: Vec<u8> = month.as_bytes().iter().enumerate().map(spelt).collect();
            text[3..6].copy_from_slice(&letters);
            let answered = ask_text(&mut comparer, &text).words[0] == 0;
            assert_eq!(answered, small == 0, "{}", text.escape_ascii());
        }
    }
    let no_time = 26 * 26 * 26 - 12 + 12 * 7;
    let outcomes = say("names of months", &comparer);
    assert_eq!(outcomes, Outcomes { times: 2 * 12, no_time, ..NOTHING });
}

/// A text cut short or lengthened by a byte again and again, and blanks, in memory whose neighbours
/// cannot be read.
#[test]
fn every_length_is_told_alike() {
    let mut comparer = Comparer::default();
    for good in TEXTS {
        for byte in [b' ', b'0', b'9', 0, b'\n', good[0]] {
            for length in 0..=64 {
                let mut text = good.to_vec();
                text.resize(length, byte);
                for mapping in
                    [Mapping::ending_at_its_end(&text), Mapping::starting_at_its_start(&text)]
                {
                    let answered = ask_text(&mut comparer, mapping.bytes()).words[0] == 0;
                    assert_eq!(answered, length == TIME_TEXT, "{}", text.escape_ascii());
                }
            }
        }
    }
    let (times, not_given) = (13 * 6 * 2, 6 * 2);
    let no_time = 14 * 6 * 64 * 2;
    let outcomes = say("lengths", &comparer);
    assert_eq!(outcomes, Outcomes { times, not_given, no_time, ..NOTHING });
}

/// The numbers of a time that was answered, which order it.
fn numbers_of(answer: &Answer) -> (i64, u64, u64) {
    (answer.words[4] as i64, answer.words[5], answer.words[6])
}

/// Of two random times, often on one day or in one second, the text of the later is read as the later.
#[test]
fn random_times_are_answered_both_ways_and_in_order() {
    let mut comparer = Comparer::default();
    let mut choices = Generator::at(seed(), 0);
    for _ in 0..50_000 {
        let mut times = [0; 2].map(|_| draw_time(&mut choices));
        if choices.once_in(3) {
            times[1].days = times[0].days;
        }
        if choices.once_in(3) {
            times[1].seconds = times[0].seconds;
        }
        let read = times.map(|time| {
            let [_, back] = ask_both_ways(&mut comparer, time).expect("a time in the range");
            numbers_of(&back)
        });
        let numbers = times.map(|time| (time.days, time.seconds, time.microseconds));
        assert_eq!(read[0].cmp(&read[1]), numbers[0].cmp(&numbers[1]), "{times:?}");
    }
    let outcomes = say("random times", &comparer);
    assert_eq!(outcomes, Outcomes { times: 100_000, texts: 100_000, ..NOTHING });
}

/// A time of which one part at least is drawn from all its bits, or near the end of its range.
fn draw_any_time(choices: &mut Generator) -> Time {
    let mut time = draw_time(choices);
    let drawn = 1 + choices.below(7);
    let bits = if choices.once_in(2) { u32::MAX } else { 0x1_ffff };
    let any = [0; 3].map(|_| choices.next_number() as u32 & bits);
    if drawn & 1 != 0 {
        time.days = any[0] as i32;
    }
    if drawn & 2 != 0 {
        time.seconds = any[1];
    }
    if drawn & 4 != 0 {
        time.microseconds = any[2].wrapping_mul(8);
    }
    time
}

#[test]
fn random_times_out_of_range_are_refused_alike() {
    let mut comparer = Comparer::default();
    let mut choices = Generator::at(seed(), 1);
    for _ in 0..100_000 {
        ask_both_ways(&mut comparer, draw_any_time(&mut choices));
    }
    let outcomes = say("random times in and out of range", &comparer);
    assert!(outcomes.texts >= 5000 && outcomes.out_of_range >= 50_000, "{outcomes:?}");
}

/// A text whose parts are now and then out of their ranges.
fn draw_text(choices: &mut Generator) -> String {
    let mut part = |most: u64, rare: u64| {
        let limit = if choices.once_in(8) { rare } else { most };
        choices.below(limit)
    };
    let (day, month, year) = (part(32, 100), part(12, 12) as usize, part(125, 8000));
    let year = if year < 125 { 1977 + year } else { year };
    let (hour, minute, second) = (part(24, 100), part(60, 100), part(60, 100));
    let microseconds = part(1_000_000, 1_000_000);
    let month = MONTHS[month];
    format!("{day:02}-{month}-{year:04} {hour:02}:{minute:02}:{second:02}.{microseconds:06}")
}

/// What a text of random parts says, read and written again, is the text.
#[test]
fn random_texts_are_told_alike() {
    let mut comparer = Comparer::default();
    let mut choices = Generator::at(seed(), 2);
    for _ in 0..100_000 {
        let text = draw_text(&mut choices);
        let answer = ask_text(&mut comparer, text.as_bytes());
        if answer.words[0] == 0 {
            let (days, seconds, microseconds) = numbers_of(&answer);
            let (seconds, microseconds) = (seconds as u32, microseconds as u32);
            let written = ask_time(&mut comparer, Time { days: days as i32, seconds, microseconds });
            assert_eq!(written.bytes, text.as_bytes(), "{text}");
        }
    }
    let outcomes = say("random texts", &comparer);
    assert!(outcomes.texts >= 30_000 && outcomes.no_time >= 30_000, "{outcomes:?}");
}

/// Both rooms of a text at every length, beside each other, around what they need.
fn lend_both(comparer: &mut Comparer, time: Time) {
    let call = Call::TextOfTime { time };
    let answer = call.answer(&[]);
    let needed = Lengths::of(&answer);
    assert_eq!([needed.words, needed.bytes], [TIME_TEXT_WORDS, TIME_TEXT]);
    for words in 0..needed.words + 3 {
        for bytes in 0..needed.bytes + 3 {
            let lengths = Lengths { words, bytes, doubles: 0 };
            if words < needed.words || bytes < needed.bytes {
                comparer.refuse_rooms(&[], call, lengths);
            } else {
                comparer.compare_with(&[], call, &answer, lengths);
            }
        }
    }
}

#[test]
fn rooms_of_every_length_are_lent() {
    let mut comparer = Comparer::default();
    for text in [TEXTS[0], TEXTS[1], BLANKS, b"31-APR-2000 00:00:00.000000", &[0; TIME_TEXT]] {
        let answer = Call::TimeOfText.answer(text);
        let needed = Lengths::of(&answer);
        assert_eq!([needed.words, needed.bytes], [TIME_WORDS, 0]);
        for more in 0..20 {
            comparer.compare_with(text, Call::TimeOfText, &answer, needed.and(more));
        }
        lend_short(&mut comparer, text, Call::TimeOfText, needed);
    }
    for days in [FIRST_DAY - 1, FIRST_DAY, 0, LAST_DAY] {
        for seconds in [0, SECONDS] {
            lend_both(&mut comparer, Time { days, seconds, microseconds: 17 });
        }
    }
    let outcomes = Outcomes::of(&comparer);
    println!("{} questions with rooms of every length: {outcomes:?}", comparer.asked());
    let (texts, out_of_range) = (3 * 9, 5 * 9);
    assert_eq!(outcomes, Outcomes { times: 40, not_given: 20, texts, no_time: 40, out_of_range });
}
