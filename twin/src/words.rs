//! The answers of the public calls laid out for C, as `include/ambrothel.h` describes them: words, bytes and
//! doubles.

use crate::times::write_text;
use crate::{
    directory, extinction, field, header_values, judge, point, record_part, record_place, sph_part,
    sph_place, time_of_text,
};
use crate::{
    Directory, FieldAnswer, HeaderValues, Part, Pixel, Point, Refusal, Time, Verdict, ENTRIES,
    TIME_TEXT,
};

pub const VERDICT_WORDS: usize = 3;
pub const PLACE_WORDS: usize = 5;
pub const PART_WORDS: usize = 1;
pub const FIELD_WORDS: usize = 7;
pub const POINT_WORDS: usize = 3;
pub const POINT_DOUBLES: usize = 3;
pub const EXTINCTION_WORDS: usize = 11;
pub const EXTINCTION_DOUBLES: usize = 1;
pub const HEADER_WORDS: usize = 25;
pub const HEADER_TEXTS: usize = 289;
pub const DIRECTORY_WORDS: usize = 772;
pub const DIRECTORY_TEXTS: usize = 11_520;
pub const TIME_WORDS: usize = 7;
pub const TIME_TEXT_WORDS: usize = 3;

/// A public call with all that is asked but the bytes that it reads: a product; of `TimeOfText` the
/// text, and of `TextOfTime` none.
#[derive(Clone, Copy, Debug, PartialEq, Eq)]
pub enum Call {
    Judge,
    OpenDirectory,
    HeaderValues,
    SphPlace,
    SphPart,
    RecordPlace { entry: usize, record: usize },
    RecordPart { entry: usize, record: usize },
    FieldAt { entry: usize, record: usize, offset: usize, kind: usize },
    PointAt { entry: usize, record: usize, offsets: [usize; 3] },
    ExtinctionAt { record: usize, pixel: usize },
    TimeOfText,
    TextOfTime { time: Time },
}

/// What a call writes into the rooms it is lent; a room that the call does not have is empty here.
#[derive(Clone, Debug, Default, PartialEq, Eq)]
pub struct Answer {
    pub words: Vec<u64>,
    /// The texts of directory or header values, or the bytes of a part.
    pub bytes: Vec<u8>,
    /// The bits of a point's doubles, or of a pixel's model.
    pub double_bits: Vec<u64>,
}

impl Call {
    /// The twin's answer; `product` is the text where the call reads one.
    pub fn answer(&self, product: &[u8]) -> Answer {
        match *self {
            Call::Judge => verdict_answer(judge(product)),
            Call::OpenDirectory => directory_answer(directory(product)),
            Call::HeaderValues => header_answer(header_values(product)),
            Call::SphPlace => place_answer(sph_place(product)),
            Call::SphPart => part_answer(sph_part(product)),
            Call::RecordPlace { entry, record } => {
                place_answer(record_place(product, entry, record as u64))
            }
            Call::RecordPart { entry, record } => {
                part_answer(record_part(product, entry, record as u64))
            }
            Call::FieldAt { entry, record, offset, kind } => {
                field_answer(field(product, entry, record as u64, offset as u64, kind as u64))
            }
            Call::PointAt { entry, record, offsets } => {
                let [latitude, longitude, altitude] = offsets.map(|offset| offset as u64);
                point_answer(point(product, entry, record as u64, latitude, longitude, altitude))
            }
            Call::ExtinctionAt { record, pixel } => {
                extinction_answer(extinction(product, record as u64, pixel as u64))
            }
            Call::TimeOfText => Answer::of_words(&time_of_text_words(product)),
            Call::TextOfTime { time } => text_of_time_answer(time),
        }
    }
}

impl Answer {
    fn of_words(words: &[u64]) -> Answer {
        Answer { words: words.to_vec(), ..Answer::default() }
    }

    /// A refusal and zeros behind it, to these lengths.
    fn refused(refusal: Refusal, words: usize, bytes: usize, doubles: usize) -> Answer {
        let mut answer =
            Answer { words: vec![0; words], bytes: vec![0; bytes], double_bits: vec![0; doubles] };
        answer.words[..3].copy_from_slice(&refusal_words(refusal));
        answer
    }
}

fn verdict_answer(verdict: Verdict) -> Answer {
    match verdict {
        Verdict::Accepted => Answer::of_words(&[0; VERDICT_WORDS]),
        Verdict::Refused { number, place, entry } => {
            Answer::refused(Refusal { number, place, entry }, VERDICT_WORDS, 0, 0)
        }
    }
}

fn directory_answer(opened: Result<Directory, Refusal>) -> Answer {
    let directory = match opened {
        Ok(directory) => directory,
        Err(refusal) => return Answer::refused(refusal, DIRECTORY_WORDS, DIRECTORY_TEXTS, 0),
    };
    let mut words = Vec::with_capacity(DIRECTORY_WORDS);
    words.extend([0, 0, 0, directory.entry_count as u64]);
    words.extend(directory.types.map(u64::from));
    words.extend(directory.offsets);
    words.extend(directory.sizes);
    words.extend(directory.counts);
    words.extend(directory.record_sizes.map(|size| size as u64));
    words.extend(directory.ranks.map(u64::from));
    let bytes = [directory.names.as_flattened(), directory.filenames.as_flattened()].concat();
    Answer { words, bytes, double_bits: Vec::new() }
}

fn header_answer(answered: Result<HeaderValues, Refusal>) -> Answer {
    let values = match answered {
        Ok(values) => values,
        Err(refusal) => return Answer::refused(refusal, HEADER_WORDS, HEADER_TEXTS, 0),
    };
    let bytes = values.texts().concat();
    Answer { words: header_words(&values), bytes, double_bits: Vec::new() }
}

/// The words of the header values, in the order of the main header's lines.
fn header_words(values: &HeaderValues) -> Vec<u64> {
    let mut words = vec![0, 0, 0, u64::from(values.proc_stage), u64::from(values.phase)];
    let before_errors = [
        values.cycle,
        values.rel_orbit,
        values.abs_orbit,
        values.delta_ut1,
        values.x_position,
        values.y_position,
        values.z_position,
        values.x_velocity,
        values.y_velocity,
        values.z_velocity,
        values.sat_binary_time,
        values.clock_step,
        values.leap_sign,
    ];
    words.extend(before_errors.map(|number| number as u64));
    words.extend([u64::from(values.leap_err), u64::from(values.product_err)]);
    let sizes =
        [values.tot_size, values.sph_size, values.num_dsd, values.dsd_size, values.num_data_sets];
    words.extend(sizes.map(|number| number as u64));
    words
}

fn place_answer(found: Result<Part, Refusal>) -> Answer {
    match found {
        Ok(Part { place, length }) => Answer::of_words(&[0, 0, 0, place, length]),
        Err(refusal) => Answer::refused(refusal, PLACE_WORDS, 0, 0),
    }
}

fn part_answer(part: &[u8]) -> Answer {
    Answer { words: vec![part.len() as u64], bytes: part.to_vec(), double_bits: Vec::new() }
}

fn field_answer(answered: Result<FieldAnswer, Refusal>) -> Answer {
    let [case, first, second, third] = match answered {
        Ok(FieldAnswer::Whole(number)) => [1, number as u64, 0, 0],
        Ok(FieldAnswer::Single(float)) => [2, u64::from(float.to_bits()), 0, 0],
        Ok(FieldAnswer::Double(float)) => [3, float.to_bits(), 0, 0],
        Ok(FieldAnswer::Time(time)) => {
            let [days, seconds, microseconds] = time_words(time);
            [4, days, seconds, microseconds]
        }
        Err(refusal) => return Answer::refused(refusal, FIELD_WORDS, 0, 0),
    };
    Answer::of_words(&[0, 0, 0, case, first, second, third])
}

fn point_answer(answered: Result<Point, Refusal>) -> Answer {
    let point = match answered {
        Ok(point) => point,
        Err(refusal) => return Answer::refused(refusal, POINT_WORDS, 0, POINT_DOUBLES),
    };
    let doubles = [point.latitude, point.longitude, point.altitude];
    let double_bits = doubles.map(f64::to_bits).to_vec();
    Answer { words: vec![0; POINT_WORDS], bytes: Vec::new(), double_bits }
}

fn extinction_answer(answered: Result<Pixel, Refusal>) -> Answer {
    let pixel = match answered {
        Ok(pixel) => pixel,
        Err(refusal) => return Answer::refused(refusal, EXTINCTION_WORDS, 0, EXTINCTION_DOUBLES),
    };
    let [days, seconds, microseconds] = time_words(pixel.time);
    let quality = i64::from(pixel.quality) as u64;
    let [transmission, covariance] = [pixel.transmission_bits, pixel.covariance_bits].map(u64::from);
    let (code, flag) = (u64::from(pixel.model_code), u64::from(pixel.flag));
    let words = [0, 0, 0, days, seconds, microseconds, quality, transmission, covariance, code, flag];
    Answer { words: words.to_vec(), bytes: Vec::new(), double_bits: vec![pixel.model.to_bits()] }
}

/// The words of a text's time: the refusal, whether it is a time (1) or not given (2), and the time.
#[inline]
fn time_of_text_words(text: &[u8]) -> [u64; TIME_WORDS] {
    match time_of_text(text) {
        Ok(Some(time)) => {
            let [days, seconds, microseconds] = time_words(time);
            [0, 0, 0, 1, days, seconds, microseconds]
        }
        Ok(None) => [0, 0, 0, 2, 0, 0, 0],
        Err(refusal) => {
            let [number, place, entry] = refusal_words(refusal);
            [number, place, entry, 0, 0, 0, 0]
        }
    }
}

/// The answer for a text as C has it, written into a room; whether the room is long enough.
pub fn write_time_of_text(text: &[u8], words: &mut [u64]) -> bool {
    let Some(words) = words.first_chunk_mut() else { return false };
    *words = time_of_text_words(text);
    true
}

/// The answer for a time as C has it, written into rooms; whether both are long enough.
pub fn write_text_of_time(time: Time, words: &mut [u64], text: &mut [u8]) -> bool {
    let Some(words) = words.first_chunk_mut::<TIME_TEXT_WORDS>() else { return false };
    let Some(text) = text.first_chunk_mut() else { return false };
    *words = match write_text(time, text) {
        Ok(()) => [0; TIME_TEXT_WORDS],
        Err(refusal) => {
            text.fill(0);
            refusal_words(refusal)
        }
    };
    true
}

fn text_of_time_answer(time: Time) -> Answer {
    let mut answer =
        Answer { words: vec![0; TIME_TEXT_WORDS], bytes: vec![0; TIME_TEXT], ..Answer::default() };
    write_text_of_time(time, &mut answer.words, &mut answer.bytes);
    answer
}

fn refusal_words(refusal: Refusal) -> [u64; 3] {
    [u64::from(refusal.number), refusal.place, refusal.entry as u64]
}

/// Days with their sign, seconds and microseconds.
fn time_words(time: Time) -> [u64; 3] {
    [i64::from(time.days) as u64, u64::from(time.seconds), u64::from(time.microseconds)]
}

/// The six words of an entry among the directory's: type, offset, size, count, record size and rank.
pub fn entry_words(directory: &Answer, entry: usize) -> [u64; 6] {
    [0, 1, 2, 3, 4, 5].map(|array| directory.words[4 + array * ENTRIES + entry])
}
