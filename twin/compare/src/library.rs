//! The calls of `include/ambrothel.h`, over slices: a product or a text that is read, rooms that are
//! lent.

use twin::words::Call;
use twin::Time;

/// What a call returns when it has written its answer.
pub const WRITTEN: u32 = 0;
/// What a call returns when a room is too short; then it has written nothing.
pub const ROOM_TOO_SHORT: u32 = 1;

extern "C" {
    fn ambrothel_judge(product: *const u8, length: usize, words: *mut u64, words_length: usize) -> u32;

    fn ambrothel_open_directory(
        product: *const u8,
        length: usize,
        words: *mut u64,
        words_length: usize,
        texts: *mut u8,
        texts_length: usize,
    ) -> u32;

    fn ambrothel_header_values(
        product: *const u8,
        length: usize,
        words: *mut u64,
        words_length: usize,
        texts: *mut u8,
        texts_length: usize,
    ) -> u32;

    fn ambrothel_sph_place(
        product: *const u8,
        length: usize,
        words: *mut u64,
        words_length: usize,
    ) -> u32;

    fn ambrothel_sph_part(
        product: *const u8,
        length: usize,
        words: *mut u64,
        words_length: usize,
        bytes: *mut u8,
        bytes_length: usize,
    ) -> u32;

    fn ambrothel_record_place(
        product: *const u8,
        length: usize,
        entry: usize,
        record: usize,
        words: *mut u64,
        words_length: usize,
    ) -> u32;

    fn ambrothel_record_part(
        product: *const u8,
        length: usize,
        entry: usize,
        record: usize,
        words: *mut u64,
        words_length: usize,
        bytes: *mut u8,
        bytes_length: usize,
    ) -> u32;

    fn ambrothel_field_at(
        product: *const u8,
        length: usize,
        entry: usize,
        record: usize,
        offset: usize,
        kind: usize,
        words: *mut u64,
        words_length: usize,
    ) -> u32;

    fn ambrothel_point_at(
        product: *const u8,
        length: usize,
        entry: usize,
        record: usize,
        latitude: usize,
        longitude: usize,
        altitude: usize,
        words: *mut u64,
        words_length: usize,
        point: *mut f64,
        point_length: usize,
    ) -> u32;

    fn ambrothel_extinction_at(
        product: *const u8,
        length: usize,
        record: usize,
        pixel: usize,
        words: *mut u64,
        words_length: usize,
        model: *mut f64,
        model_length: usize,
    ) -> u32;

    fn ambrothel_time_of_text(
        text: *const u8,
        text_length: usize,
        words: *mut u64,
        words_length: usize,
    ) -> u32;

    fn ambrothel_text_of_time(
        days: i32,
        seconds: u32,
        microseconds: u32,
        words: *mut u64,
        words_length: usize,
        text: *mut u8,
        text_length: usize,
    ) -> u32;
}

// Safety, for every call below: a slice's pointer is not null and good for its length, and the borrows keep the
// rooms apart from what is read and from each other, which is all that the header asks.

/// A call that takes the product alone, or a text, and writes words.
type Words = unsafe extern "C" fn(*const u8, usize, *mut u64, usize) -> u32;
/// One that writes bytes beside them.
type WordsAndBytes = unsafe extern "C" fn(*const u8, usize, *mut u64, usize, *mut u8, usize) -> u32;

fn ask_words(call: Words, product: &[u8], words: &mut [u64]) -> u32 {
    unsafe { call(product.as_ptr(), product.len(), words.as_mut_ptr(), words.len()) }
}

fn ask_words_and_bytes(
    call: WordsAndBytes,
    product: &[u8],
    words: &mut [u64],
    bytes: &mut [u8],
) -> u32 {
    let (start, length) = (product.as_ptr(), product.len());
    let (room, bytes_room) = (words.as_mut_ptr(), bytes.as_mut_ptr());
    unsafe { call(start, length, room, words.len(), bytes_room, bytes.len()) }
}

pub fn judge(product: &[u8], words: &mut [u64]) -> u32 {
    ask_words(ambrothel_judge, product, words)
}

pub fn open_directory(product: &[u8], words: &mut [u64], texts: &mut [u8]) -> u32 {
    ask_words_and_bytes(ambrothel_open_directory, product, words, texts)
}

fn record_place(product: &[u8], entry: usize, record: usize, words: &mut [u64]) -> u32 {
    let (start, length, room) = (product.as_ptr(), product.len(), words.as_mut_ptr());
    unsafe { ambrothel_record_place(start, length, entry, record, room, words.len()) }
}

fn record_part(
    product: &[u8],
    entry: usize,
    record: usize,
    words: &mut [u64],
    bytes: &mut [u8],
) -> u32 {
    let (start, length) = (product.as_ptr(), product.len());
    let (room, bytes_room) = (words.as_mut_ptr(), bytes.as_mut_ptr());
    unsafe {
        ambrothel_record_part(start, length, entry, record, room, words.len(), bytes_room, bytes.len())
    }
}

fn field_at(
    product: &[u8],
    entry: usize,
    record: usize,
    offset: usize,
    kind: usize,
    words: &mut [u64],
) -> u32 {
    let (start, length, room) = (product.as_ptr(), product.len(), words.as_mut_ptr());
    unsafe { ambrothel_field_at(start, length, entry, record, offset, kind, room, words.len()) }
}

fn point_at(
    product: &[u8],
    entry: usize,
    record: usize,
    [latitude, longitude, altitude]: [usize; 3],
    words: &mut [u64],
    point: &mut [f64],
) -> u32 {
    unsafe {
        ambrothel_point_at(
            product.as_ptr(),
            product.len(),
            entry,
            record,
            latitude,
            longitude,
            altitude,
            words.as_mut_ptr(),
            words.len(),
            point.as_mut_ptr(),
            point.len(),
        )
    }
}

pub fn extinction_at(
    product: &[u8],
    record: usize,
    pixel: usize,
    words: &mut [u64],
    model: &mut [f64],
) -> u32 {
    let (start, length) = (product.as_ptr(), product.len());
    let (room, model_room) = (words.as_mut_ptr(), model.as_mut_ptr());
    unsafe {
        ambrothel_extinction_at(
            start,
            length,
            record,
            pixel,
            room,
            words.len(),
            model_room,
            model.len(),
        )
    }
}

pub fn time_of_text(text: &[u8], words: &mut [u64]) -> u32 {
    ask_words(ambrothel_time_of_text, text, words)
}

pub fn text_of_time(time: Time, words: &mut [u64], text: &mut [u8]) -> u32 {
    let Time { days, seconds, microseconds } = time;
    let (room, text_room) = (words.as_mut_ptr(), text.as_mut_ptr());
    unsafe {
        ambrothel_text_of_time(days, seconds, microseconds, room, words.len(), text_room, text.len())
    }
}

/// Asks a call, lending it those of the rooms that it has.
pub fn ask(
    product: &[u8],
    call: &Call,
    words: &mut [u64],
    bytes: &mut [u8],
    doubles: &mut [f64],
) -> u32 {
    match *call {
        Call::Judge => judge(product, words),
        Call::OpenDirectory => open_directory(product, words, bytes),
        Call::HeaderValues => ask_words_and_bytes(ambrothel_header_values, product, words, bytes),
        Call::SphPlace => ask_words(ambrothel_sph_place, product, words),
        Call::SphPart => ask_words_and_bytes(ambrothel_sph_part, product, words, bytes),
        Call::RecordPlace { entry, record } => record_place(product, entry, record, words),
        Call::RecordPart { entry, record } => record_part(product, entry, record, words, bytes),
        Call::FieldAt { entry, record, offset, kind } => {
            field_at(product, entry, record, offset, kind, words)
        }
        Call::PointAt { entry, record, offsets } => {
            point_at(product, entry, record, offsets, words, doubles)
        }
        Call::ExtinctionAt { record, pixel } => extinction_at(product, record, pixel, words, doubles),
        Call::TimeOfText => time_of_text(product, words),
        Call::TextOfTime { time } => text_of_time(time, words, bytes),
    }
}
