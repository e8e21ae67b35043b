//! The header layouts of document 01: the forty-one lines of the main header and the lines of one DSD,
//! and, worked out from them while compiling, the bounds of every byte.

/// Bytes of the main product header.
pub(crate) const MAIN_HEADER_SIZE: usize = 1247;
/// Bytes of one data set descriptor.
pub(crate) const DESCRIPTOR_SIZE: usize = 280;

/// What stands in a line.
#[derive(Clone, Copy)]
pub(crate) enum Kind {
    /// qN: a quote, N bytes, a quote.
    Quoted(usize),
    /// c: one byte.
    Single,
    /// c, 0 or 1.
    Flag,
    /// c, one of M A G R.
    SetType,
    /// sN: a sign and N digits.
    Whole(usize),
    /// sA.B: a sign, A digits, a point, B digits.
    Decimal(usize, usize),
    /// N blanks.
    Spare(usize),
}

/// One line: its starting byte, keyword, kind and unit.
pub(crate) struct Line(usize, &'static str, Kind, &'static str);

/// For each byte of a header the lowest allowed, how far the highest lies above it, and one between them
/// that is not allowed; 0, which is allowed nowhere, where all between them are.
pub(crate) struct Bounds<const SIZE: usize> {
    pub lowest: [u8; SIZE],
    pub width: [u8; SIZE],
    pub left_out: [u8; SIZE],
}

use Kind::{Decimal, Flag, Quoted, SetType, Single, Spare, Whole};

const MAIN_HEADER_LINES: [Line; 41] = [
    Line(0, "PRODUCT", Quoted(62), ""),
    Line(73, "PROC_STAGE", Single, ""),
    Line(86, "REF_DOC", Quoted(23), ""),
    Line(120, "", Spare(40), ""),
    Line(161, "ACQUISITION_STATION", Quoted(20), ""),
    Line(204, "PROC_CENTER", Quoted(6), ""),
    Line(225, "PROC_TIME", Quoted(27), ""),
    Line(265, "SOFTWARE_VER", Quoted(14), ""),
    Line(295, "", Spare(40), ""),
    Line(336, "SENSING_START", Quoted(27), ""),
    Line(380, "SENSING_STOP", Quoted(27), ""),
    Line(423, "", Spare(40), ""),
    Line(464, "PHASE", Single, ""),
    Line(472, "CYCLE", Whole(3), ""),
    Line(483, "REL_ORBIT", Whole(5), ""),
    Line(500, "ABS_ORBIT", Whole(5), ""),
    Line(517, "STATE_VECTOR_TIME", Quoted(27), ""),
    Line(565, "DELTA_UT1", Decimal(0, 6), "<s>"),
    Line(587, "X_POSITION", Decimal(7, 3), "<m>"),
    Line(614, "Y_POSITION", Decimal(7, 3), "<m>"),
    Line(641, "Z_POSITION", Decimal(7, 3), "<m>"),
    Line(668, "X_VELOCITY", Decimal(4, 6), "<m/s>"),
    Line(697, "Y_VELOCITY", Decimal(4, 6), "<m/s>"),
    Line(726, "Z_VELOCITY", Decimal(4, 6), "<m/s>"),
    Line(755, "VECTOR_SOURCE", Quoted(2), ""),
    Line(774, "", Spare(40), ""),
    Line(815, "UTC_SBT_TIME", Quoted(27), ""),
    Line(858, "SAT_BINARY_TIME", Whole(10), ""),
    Line(886, "CLOCK_STEP", Whole(10), "<ps>"),
    Line(913, "", Spare(32), ""),
    Line(946, "LEAP_UTC", Quoted(27), ""),
    Line(985, "LEAP_SIGN", Whole(3), ""),
    Line(1000, "LEAP_ERR", Flag, ""),
    Line(1011, "", Spare(40), ""),
    Line(1052, "PRODUCT_ERR", Flag, ""),
    Line(1066, "TOT_SIZE", Whole(20), "<bytes>"),
    Line(1104, "SPH_SIZE", Whole(10), "<bytes>"),
    Line(1132, "NUM_DSD", Whole(10), ""),
    Line(1152, "DSD_SIZE", Whole(10), "<bytes>"),
    Line(1180, "NUM_DATA_SETS", Whole(10), ""),
    Line(1206, "", Spare(40), ""),
];

const DESCRIPTOR_LINES: [Line; 8] = [
    Line(0, "DS_NAME", Quoted(28), ""),
    Line(39, "DS_TYPE", SetType, ""),
    Line(49, "FILENAME", Quoted(62), ""),
    Line(123, "DS_OFFSET", Whole(20), "<bytes>"),
    Line(162, "DS_SIZE", Whole(20), "<bytes>"),
    Line(199, "NUM_DSR", Whole(10), ""),
    Line(219, "DSR_SIZE", Whole(10), "<bytes>"),
    Line(247, "", Spare(32), ""),
];

/// What may stand in the main header.
pub(crate) static MAIN_HEADER_BOUNDS: Bounds<MAIN_HEADER_SIZE> = bounds(&MAIN_HEADER_LINES);
/// What may stand in a named DSD; its type has more left out between A and R.
pub(crate) static DESCRIPTOR_BOUNDS: Bounds<DESCRIPTOR_SIZE> = bounds(&DESCRIPTOR_LINES);
/// A spare DSD: blanks, then byte 10.
pub(crate) static SPARE_DESCRIPTOR: [u8; DESCRIPTOR_SIZE] = {
    let mut spare = [b' '; DESCRIPTOR_SIZE];
    spare[DESCRIPTOR_SIZE - 1] = b'\n';
    spare
};

/// The starting byte of a main header value: a q's first byte, a c's byte, a number's sign.
pub(crate) const fn header_value(keyword: &str) -> usize {
    value_of(&MAIN_HEADER_LINES, keyword)
}

/// The starting byte of a DSD's value.
pub(crate) const fn descriptor_value(keyword: &str) -> usize {
    value_of(&DESCRIPTOR_LINES, keyword)
}

const fn value_of(lines: &[Line], keyword: &str) -> usize {
    let mut index = 0;
    while index < lines.len() {
        if same(lines[index].1.as_bytes(), keyword.as_bytes()) {
            return value_start(&lines[index]);
        }
        index += 1;
    }
    panic!("no line has this keyword");
}

const fn same(one: &[u8], other: &[u8]) -> bool {
    if one.len() != other.len() {
        return false;
    }
    let mut index = 0;
    while index < one.len() {
        if one[index] != other[index] {
            return false;
        }
        index += 1;
    }
    true
}

const fn value_start(line: &Line) -> usize {
    match line.2 {
        Spare(_) => line.0,
        Quoted(_) => line.0 + line.1.len() + 2,
        _ => line.0 + line.1.len() + 1,
    }
}

const fn value_length(line: &Line) -> usize {
    match line.2 {
        Spare(blanks) => blanks,
        Quoted(bytes) => bytes,
        Single | Flag | SetType => 1,
        Whole(digits) => 1 + digits,
        Decimal(before, after) => 2 + before + after,
    }
}

const fn copy(mut target: [u8; 2048], start: usize, bytes: &[u8]) -> [u8; 2048] {
    let mut index = 0;
    while index < bytes.len() {
        target[start + index] = bytes[index];
        index += 1;
    }
    target
}

/// Writes one line's fixed bytes and answers where the line ends.
const fn write_line(mut target: [u8; 2048], line: &Line) -> ([u8; 2048], usize) {
    let start = value_start(line);
    let mut end = start + value_length(line);
    match line.2 {
        Spare(_) => {}
        Quoted(_) => {
            target = copy(target, line.0, line.1.as_bytes());
            target = copy(target, start - 2, b"=\"");
            target = copy(target, end, b"\"");
            end += 1;
        }
        _ => {
            target = copy(target, line.0, line.1.as_bytes());
            target = copy(target, start - 1, b"=");
        }
    }
    target = copy(target, end, line.3.as_bytes());
    end += line.3.len();
    (copy(target, end, b"\n"), end + 1)
}

/// The fixed bytes of a header; blanks stand in its values.
const fn template<const SIZE: usize>(lines: &[Line]) -> [u8; SIZE] {
    let mut written = ([b' '; 2048], 0);
    let mut index = 0;
    while index < lines.len() {
        assert!(lines[index].0 == written.1, "a line does not start where the one before it ends");
        written = write_line(written.0, &lines[index]);
        index += 1;
    }
    assert!(written.1 == SIZE, "the lines do not fill the header");
    let mut exact = [0; SIZE];
    index = 0;
    while index < SIZE {
        exact[index] = written.0[index];
        index += 1;
    }
    exact
}

/// The lowest and the highest byte allowed at a place of a value, and the one between them that is not.
const fn bounds_in_value(kind: Kind, at: usize) -> (u8, u8, u8) {
    match kind {
        Spare(_) => (b' ', b' ', 0),
        Quoted(_) | Single => (b' ', b'~', b'"'),
        Flag => (b'0', b'1', 0),
        SetType => (b'A', b'R', 0),
        Whole(_) | Decimal(..) if at == 0 => (b'+', b'-', b','),
        Decimal(before, _) if at == before + 1 => (b'.', b'.', 0),
        Whole(_) | Decimal(..) => (b'0', b'9', 0),
    }
}

const fn bounds<const SIZE: usize>(lines: &[Line]) -> Bounds<SIZE> {
    let mut table = Bounds { lowest: template(lines), width: [0; SIZE], left_out: [0; SIZE] };
    let mut index = 0;
    while index < lines.len() {
        let start = value_start(&lines[index]);
        let mut at = 0;
        while at < value_length(&lines[index]) {
            let (lowest, highest, left_out) = bounds_in_value(lines[index].2, at);
            table.lowest[start + at] = lowest;
            table.width[start + at] = highest - lowest;
            table.left_out[start + at] = left_out;
            at += 1;
        }
        index += 1;
    }
    table
}
