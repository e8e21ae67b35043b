//! Writing header text: the main header line after line, and one DSD.

use super::description::{Description, EntryDescription, Number, Setting};

/// The main header as it is written so far.
struct HeaderText<'a> {
    description: &'a Description,
    bytes: Vec<u8>,
}

impl HeaderText<'_> {
    fn setting(&self, keyword: &str) -> Option<&Setting> {
        let given = self.description.header.iter().rev().find(|(name, _)| *name == keyword);
        given.map(|(_, setting)| setting)
    }

    fn quoted(&mut self, keyword: &str, width: usize) {
        let text = match self.setting(keyword) {
            Some(Setting::Text(text)) => text.clone(),
            _ => Vec::new(),
        };
        push_quoted(&mut self.bytes, keyword, &text, width);
    }

    fn single(&mut self, keyword: &str, otherwise: u8) {
        let byte = match self.setting(keyword) {
            Some(Setting::Single(byte)) => *byte,
            _ => otherwise,
        };
        self.bytes.extend_from_slice(keyword.as_bytes());
        self.bytes.extend_from_slice(&[b'=', byte, b'\n']);
    }

    fn number(&self, keyword: &str, otherwise: usize) -> Number {
        match self.setting(keyword) {
            Some(Setting::Number(number)) => *number,
            _ => Number::from(otherwise as i128),
        }
    }

    fn whole(&mut self, keyword: &str, digits: usize, unit: &str, otherwise: usize) {
        let number = self.number(keyword, otherwise).written(digits);
        self.bytes.extend_from_slice(format!("{keyword}={number}{unit}\n").as_bytes());
    }

    fn decimal(&mut self, keyword: &str, before: usize, after: usize, unit: &str) {
        let mut number = self.number(keyword, 0).written(before + after);
        number.insert(1 + before, '.');
        self.bytes.extend_from_slice(format!("{keyword}={number}{unit}\n").as_bytes());
    }

    fn spare(&mut self, blanks: usize) {
        push_spare(&mut self.bytes, blanks);
    }

    fn lines_to_state_vector(&mut self) {
        self.quoted("PRODUCT", 62);
        self.single("PROC_STAGE", b' ');
        self.quoted("REF_DOC", 23);
        self.spare(40);
        self.quoted("ACQUISITION_STATION", 20);
        self.quoted("PROC_CENTER", 6);
        self.quoted("PROC_TIME", 27);
        self.quoted("SOFTWARE_VER", 14);
        self.spare(40);
        self.quoted("SENSING_START", 27);
        self.quoted("SENSING_STOP", 27);
        self.spare(40);
        self.single("PHASE", b' ');
        self.whole("CYCLE", 3, "", 0);
        self.whole("REL_ORBIT", 5, "", 0);
        self.whole("ABS_ORBIT", 5, "", 0);
        self.quoted("STATE_VECTOR_TIME", 27);
        self.decimal("DELTA_UT1", 0, 6, "<s>");
    }

    fn lines_from_position(&mut self) {
        for keyword in ["X_POSITION", "Y_POSITION", "Z_POSITION"] {
            self.decimal(keyword, 7, 3, "<m>");
        }
        for keyword in ["X_VELOCITY", "Y_VELOCITY", "Z_VELOCITY"] {
            self.decimal(keyword, 4, 6, "<m/s>");
        }
        self.quoted("VECTOR_SOURCE", 2);
        self.spare(40);
        self.quoted("UTC_SBT_TIME", 27);
        self.whole("SAT_BINARY_TIME", 10, "", 0);
        self.whole("CLOCK_STEP", 10, "<ps>", 0);
        self.spare(32);
        self.quoted("LEAP_UTC", 27);
        self.whole("LEAP_SIGN", 3, "", 0);
        self.single("LEAP_ERR", b'0');
        self.spare(40);
        self.single("PRODUCT_ERR", b'0');
    }

    fn lines_of_sizes(&mut self) {
        let described = self.description;
        self.whole("TOT_SIZE", 20, "<bytes>", described.length());
        self.whole("SPH_SIZE", 10, "<bytes>", described.headers_end() - 1247);
        self.whole("NUM_DSD", 10, "", described.entries.len());
        self.whole("DSD_SIZE", 10, "<bytes>", 280);
        self.whole("NUM_DATA_SETS", 10, "", described.data_sets());
        self.spare(40);
    }
}

fn push_quoted(bytes: &mut Vec<u8>, keyword: &str, text: &[u8], width: usize) {
    bytes.extend_from_slice(keyword.as_bytes());
    bytes.extend_from_slice(b"=\"");
    let end = bytes.len() + width;
    bytes.extend_from_slice(&text[..text.len().min(width)]);
    bytes.resize(end, b' ');
    bytes.extend_from_slice(b"\"\n");
}

fn push_spare(bytes: &mut Vec<u8>, blanks: usize) {
    bytes.resize(bytes.len() + blanks, b' ');
    bytes.push(b'\n');
}

/// The main product header of a description.
pub(super) fn write_main_header(description: &Description) -> Vec<u8> {
    let mut text = HeaderText { description, bytes: Vec::with_capacity(description.length()) };
    text.lines_to_state_vector();
    text.lines_from_position();
    text.lines_of_sizes();
    assert_eq!(text.bytes.len(), 1247, "a number does not fit its line");
    text.bytes
}

/// One DSD with the numbers offset, size, count and record size.
pub(super) fn write_descriptor(bytes: &mut Vec<u8>, entry: &EntryDescription, numbers: [Number; 4]) {
    if entry.set_type == b' ' {
        push_spare(bytes, 279);
        return;
    }
    let end = bytes.len() + 280;
    let [offset, size, count, record_size] = numbers;
    push_quoted(bytes, "DS_NAME", &entry.name, 28);
    bytes.extend_from_slice(&[b"DS_TYPE=", &[entry.set_type][..], b"\n"].concat());
    push_quoted(bytes, "FILENAME", &entry.filename, 62);
    let lines = format!(
        "DS_OFFSET={}<bytes>\nDS_SIZE={}<bytes>\nNUM_DSR={}\nDSR_SIZE={}<bytes>\n",
        offset.written(20),
        size.written(20),
        count.written(10),
        record_size.written(10),
    );
    bytes.extend_from_slice(lines.as_bytes());
    push_spare(bytes, 32);
    assert_eq!(bytes.len(), end, "a number does not fit its line");
}
