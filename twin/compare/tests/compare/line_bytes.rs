//! SPH lines of every form and many lengths with one byte replaced at every place, and with two: rule 7 names the first
//! byte of the first bad line.

use compare::Comparer;
use twin::builder::{Description, EntryDescription, Generator};
use twin::settings::number;

use crate::common::{expect, others, put, OTHERS};

/// Bytes that stand in no good line.
const BAD: [u8; 5] = [0, 31, 127, 160, 255];

/// What has been read of a line.
#[derive(Clone, Copy)]
enum Read {
    Nothing,
    Blanks,
    Keyword,
    Equals,
    Text,
    Quoted,
    Closed,
    Whole,
}

/// What has been read of a line with one byte more, or nothing where no good line begins so. A good line is, by
/// document 01, ended by byte 10 and before it "one or more blanks, or a keyword (A to Z, then A to Z, 0 to 9, `_`),
/// `=`, and either a q of any length or one or more bytes 32 to 126 without 34"; a q is a quote, bytes 32 to 126
/// without 34, and a quote.
fn with_byte(read: Read, byte: u8) -> Option<Read> {
    match (read, byte) {
        (Read::Nothing | Read::Blanks, 32) => Some(Read::Blanks),
        (Read::Nothing | Read::Keyword, 65..=90) => Some(Read::Keyword),
        (Read::Keyword, 48..=57 | 95) => Some(Read::Keyword),
        (Read::Keyword, 61) => Some(Read::Equals),
        (Read::Equals | Read::Text, 32 | 33 | 35..=126) => Some(Read::Text),
        (Read::Equals, 34) => Some(Read::Quoted),
        (Read::Quoted, 32 | 33 | 35..=126) => Some(Read::Quoted),
        (Read::Quoted, 34) => Some(Read::Closed),
        (Read::Blanks | Read::Text | Read::Closed, 10) => Some(Read::Whole),
        _ => None,
    }
}

/// The first byte of the first bad or unended line.
fn first_bad_line(lines: &[u8]) -> Option<usize> {
    let mut start = 0;
    let mut read = Read::Nothing;
    for (place, &byte) in lines.iter().enumerate() {
        match with_byte(read, byte) {
            None => return Some(start),
            Some(Read::Whole) => {
                start = place + 1;
                read = Read::Nothing;
            }
            Some(more) => read = more,
        }
    }
    (start < lines.len()).then_some(start)
}

/// Bytes of text, each but the quote in turn.
fn text(length: usize) -> Vec<u8> {
    (32..=126).filter(|&byte| byte != 34).cycle().skip(16).take(length).collect()
}

fn blank_line(length: usize) -> Vec<u8> {
    vec![b' '; length]
}

fn unquoted_line(length: usize) -> Vec<u8> {
    [b"KEY=".to_vec(), text(length)].concat()
}

fn quoted_line(length: usize) -> Vec<u8> {
    [b"KEY=\"".to_vec(), text(length), b"\"".to_vec()].concat()
}

fn long_keyword(length: usize) -> Vec<u8> {
    let keyword = b"ABCDEFGHIJKLMNOPQRSTUVWXYZ0123456789_".iter().copied().cycle().take(length);
    keyword.chain(*b"=1").collect()
}

/// A line between two good ones, in a product with a set; `from` and `to` are where it starts and where the next does.
struct Between {
    product: Vec<u8>,
    lines_end: usize,
    from: usize,
    to: usize,
}

impl Between {
    /// Where the line starts varies with its length, over sixteen places.
    fn new(line: Vec<u8>) -> Between {
        let before = [b"BEFORE=".to_vec(), text(1 + line.len() % 16), b"\n".to_vec()].concat();
        let mut description = Description::new(vec![EntryDescription::records(b'G', "DEMO", 1, 3)]);
        description.sph_lines = [&before[..], &line, b"\n  \nAFTER=\"1\"\n"].concat();
        let from = 1247 + before.len();
        let lines_end = description.lines_end();
        Between { product: description.build(), lines_end, from, to: from + line.len() + 1 }
    }

    /// Asks about the product as it is now.
    fn ask(&self, comparer: &mut Comparer, changed: &str) {
        let bad = first_bad_line(&self.product[1247..self.lines_end]);
        let refusal = bad.map_or([0; 3], |start| [7, 1247 + start as u64, 128]);
        let origin = format_args!("a line from {} to {} with {changed}", self.from, self.to);
        expect(comparer, &self.product, origin, refusal);
    }

    /// The first byte of the line that a byte belongs to.
    fn start_of_line(&self, place: usize) -> usize {
        let before = self.product[1247..place].iter().rposition(|&byte| byte == 10);
        before.map_or(1247, |end| 1247 + end + 1)
    }

    /// Replaces the byte at a place by others.
    fn replace_at(&mut self, comparer: &mut Comparer, place: usize) {
        let before = self.product[place];
        for byte in others(before) {
            self.product[place] = byte;
            self.ask(comparer, &format!("byte {byte} at {place}"));
        }
        self.product[place] = before;
    }
}

/// Every byte is replaced in lines up to this length, and so many at the start and at the end of longer ones; between
/// these, one in so many.
const SHORT: usize = 200;
const STEP: usize = 37;

/// One length in so many is asked about: TWIN_LENGTH_STEP, or every length.
fn length_step() -> usize {
    let step = number("TWIN_LENGTH_STEP", 1) as usize;
    assert!(step > 0, "TWIN_LENGTH_STEP is 0: it takes 1 or more");
    step
}

/// Replaces each byte of lines of one form, and some of very long ones. What is empty at length 0 makes a bad line, but
/// for a q.
fn replace_each(form: fn(usize) -> Vec<u8>) {
    let mut comparer = Comparer::default();
    let step = length_step();
    for length in (0..=SHORT).step_by(step) {
        let mut line = Between::new(form(length));
        line.ask(&mut comparer, "no change");
        (line.from..line.to).for_each(|place| line.replace_at(&mut comparer, place));
    }
    for length in [1000, 20_000] {
        let mut line = Between::new(form(length));
        let (start, end) = (line.from + SHORT, line.to - SHORT);
        let between = (start..end).step_by(STEP);
        for place in (line.from..start).chain(between).chain(end..line.to) {
            line.replace_at(&mut comparer, place);
        }
    }
    let verdicts = comparer.met().verdicts;
    println!("{} questions of lines with a byte replaced; verdicts {verdicts:?}", comparer.asked());
    assert!(verdicts[7] >= 50_000 / step as u64, "{verdicts:?}");
    assert_eq!(verdicts[0] + verdicts[7], comparer.asked() as u64 / 2);
}

/// Replaces two bytes of a line or its neighbours: by bytes that stand in no good line, of which the first decides, and
/// by any others, which together can make a good line too.
fn replace_two(comparer: &mut Comparer, line: &mut Between, choices: &mut Generator) {
    let places = [0; 2].map(|_| 1247 + choices.index(line.lines_end - 1247));
    let before = places.map(|place| line.product[place]);
    let start = line.start_of_line(places[0].min(places[1])) as u64;
    put(&mut line.product, places, [0; 2].map(|_| choices.choose(&BAD)));
    let origin = format_args!("a line from {} to {} with bad bytes at {places:?}", line.from, line.to);
    expect(comparer, &line.product, origin, [7, start, 128]);
    put(&mut line.product, places, [0; 2].map(|_| choices.choose(&OTHERS)));
    line.ask(comparer, &format!("other bytes at {places:?}"));
    put(&mut line.product, places, before);
}

#[test]
fn the_line_of_the_first_of_two_bad_bytes_is_named() {
    let mut comparer = Comparer::default();
    let mut choices = Generator::new(5);
    for form in [blank_line, unquoted_line, quoted_line, long_keyword] {
        for length in 1..=SHORT {
            let mut line = Between::new(form(length));
            (0..50).for_each(|_| replace_two(&mut comparer, &mut line, &mut choices));
        }
    }
    println!("{} questions of lines with two bytes replaced", comparer.asked());
    assert!(comparer.met().verdicts[0] >= 1000, "{:?}", comparer.met());
}

#[test]
fn every_byte_of_blank_lines_is_looked_at_alike() {
    replace_each(blank_line);
}

#[test]
fn every_byte_of_unquoted_lines_is_looked_at_alike() {
    replace_each(unquoted_line);
}

#[test]
fn every_byte_of_quoted_lines_is_looked_at_alike() {
    replace_each(quoted_line);
}

#[test]
fn every_byte_of_long_keywords_is_looked_at_alike() {
    replace_each(long_keyword);
}
