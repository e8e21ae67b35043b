//! Rules 1 to 16 once more, each as document 01 words it (rule 11 as order 4 of document 02 does), byte by byte
//! and without care for speed, and compared with the reader on random products.

use crate::common::{refused, NONE};
use crate::{descriptors, header_text, sets, sph_lines};
use twin::builder::{named_product, Generator, NAMED_PRODUCTS};
use twin::settings::seed;
use twin::{judge, Verdict};

const LARGEST: i128 = i64::MAX as i128;

/// One entry as it stands in its DSD; a spare has type 32.
struct Listed {
    place: usize,
    set_type: u8,
    name: String,
    numbers: [i128; 4],
}

fn listed(product: &[u8], place: usize) -> Listed {
    if product[place] == b' ' {
        return Listed { place, set_type: 32, name: String::new(), numbers: [0; 4] };
    }
    let widths = [(133, 20), (170, 20), (207, 10), (228, 10)];
    Listed {
        place,
        set_type: product[place + 47],
        name: String::from_utf8_lossy(&product[place + 9..place + 37]).trim_end().to_string(),
        numbers: widths.map(|(at, digits)| sets::number_at(product, place + at, digits)),
    }
}

/// Rules 1 to 7; answers the starts of the DSDs.
fn rules_1_to_7(product: &[u8], pattern: &[u8]) -> Result<Vec<usize>, Verdict> {
    let length = product.len();
    if length < 1247 {
        return Err(refused(1, length as u64, NONE));
    }
    for place in 0..1247 {
        if !header_text::is_allowed(pattern[place], product[place]) {
            return Err(refused(3, place as u64, NONE));
        }
    }
    let number = |place, digits| sets::number_at(product, place, digits);
    if number(1075, 20).abs() > LARGEST {
        return Err(refused(4, 1075, NONE));
    }
    if number(1075, 20) != length as i128 {
        return Err(refused(5, 1075, NONE));
    }
    let (sph_size, descriptors) = (number(1113, 10), number(1140, 10));
    if !(0..=49_152).contains(&sph_size) || 1247 + sph_size > length as i128 {
        return Err(refused(6, 1113, NONE));
    }
    if !(0..=128).contains(&descriptors) || 280 * descriptors > sph_size {
        return Err(refused(6, 1140, NONE));
    }
    if number(1161, 10) != 280 {
        return Err(refused(6, 1161, NONE));
    }
    let start = (1247 + sph_size - 280 * descriptors) as usize;
    match sph_lines::first_bad_line(&product[1247..start]) {
        Some(line) => Err(refused(7, 1247 + line as u64, NONE)),
        None => Ok((0..descriptors as usize).map(|entry| start + 280 * entry).collect()),
    }
}

/// Rules 8 to 11.
fn rules_8_to_11(product: &[u8], starts: &[usize], template: &[u8]) -> Result<Vec<Listed>, Verdict> {
    for (entry, &start) in starts.iter().enumerate() {
        for place in 0..280 {
            let byte = product[start + place];
            let good = match product[start] {
                b' ' => byte == if place == 279 { 10 } else { b' ' },
                _ => descriptors::is_allowed(place, template[place], byte),
            };
            if !good {
                return Err(refused(8, (start + place) as u64, entry));
            }
        }
    }
    let list: Vec<Listed> = starts.iter().map(|&start| listed(product, start)).collect();
    for (entry, values) in list.iter().enumerate() {
        for (at, sign) in [(0, 133), (1, 170)] {
            if values.numbers[at].abs() > LARGEST {
                return Err(refused(9, (values.place + sign) as u64, entry));
            }
        }
    }
    if let Some(entry) = list.iter().position(|values| !rule_10(values)) {
        return Err(refused(10, list[entry].place as u64, entry));
    }
    let is_counted = |values: &&Listed| b"MAG".contains(&values.set_type) && values.numbers[1] > 0;
    match sets::number_at(product, 1194, 10) == list.iter().filter(is_counted).count() as i128 {
        true => Ok(list),
        false => Err(refused(11, 1194, NONE)),
    }
}

fn kind_of(name: &str) -> Option<u8> {
    let names = ["NADIR", "LIMB", "OCCULTATION", "MONITORING"];
    names.iter().position(|&known| known == name).map(|place| place as u8 + 1)
}

fn rule_10(values: &Listed) -> bool {
    let [offset, size, count, record_size] = values.numbers;
    match values.set_type {
        32 => return true,
        b'R' => return values.numbers == [0; 4],
        _ => {}
    }
    let signs = offset >= 0 && size >= 0 && count >= 0 && record_size >= -1;
    let empty = size == 0 && count == 0;
    let equal = record_size >= 1 && count * record_size == size;
    let variable = record_size == -1 && values.set_type == b'M' && kind_of(&values.name).is_some();
    signs && (empty || (size > 0 && count >= 1 && (equal || variable)))
}

/// Rules 15 and 16.
fn rules_15_and_16(product: &[u8], list: &[Listed]) -> Result<(), Verdict> {
    let is_variable = |values: &&Listed| values.numbers[1] > 0 && values.numbers[3] == -1;
    if !list.iter().any(|values| is_variable(&values)) {
        return Ok(());
    }
    let is_states = |&entry: &usize| list[entry].set_type == b'A' && list[entry].name == "STATES";
    let found: Vec<usize> = (0..list.len()).filter(is_states).collect();
    let [states] = found[..] else { return Err(refused(15, 0, NONE)) };
    let [offset, size, count, record_size] = list[states].numbers;
    if size > 0 && record_size != 1387 {
        return Err(refused(15, offset as u64, states));
    }
    let mut attached = Vec::new();
    for record in 0..count as usize {
        let start = offset as usize + 1387 * record;
        let state = &product[start..start + 1387];
        let (flag, kind) = (state[12], state[1116]);
        let records =
            state[1381..1383].iter().fold(0u128, |value, &byte| value * 256 + u128::from(byte));
        let length = state[1383..].iter().fold(0u128, |value, &byte| value * 256 + u128::from(byte));
        let bad_when_attached = kind == 0 || kind > 4 || (records >= 1 && length == 0);
        if flag > 1 || (flag == 0 && bad_when_attached) {
            return Err(refused(15, start as u64, states));
        }
        if flag == 0 {
            attached.push((kind, records, length));
        }
    }
    for (entry, values) in list.iter().enumerate().filter(|(_, values)| is_variable(values)) {
        let own = || attached.iter().filter(|state| Some(state.0) == kind_of(&values.name));
        let records: u128 = own().map(|state| state.1).sum();
        let bytes: u128 = own().map(|state| state.1 * state.2).sum();
        if records != values.numbers[2] as u128 || bytes != values.numbers[1] as u128 {
            return Err(refused(16, values.numbers[0] as u64, entry));
        }
    }
    Ok(())
}

struct RuleByRule {
    pattern: Vec<u8>,
    template: Vec<u8>,
}

impl RuleByRule {
    fn new() -> RuleByRule {
        let template = named_product("case-b").unwrap()[1247..1527].to_vec();
        RuleByRule { pattern: header_text::pattern(), template }
    }

    fn verdict(&self, product: &[u8]) -> Verdict {
        let judged = || {
            let starts = rules_1_to_7(product, &self.pattern)?;
            let list = rules_8_to_11(product, &starts, &self.template)?;
            match sets::byte_by_byte(product) {
                Verdict::Accepted => rules_15_and_16(product, &list),
                verdict => Err(verdict),
            }
        };
        judged().err().unwrap_or(Verdict::Accepted)
    }
}

#[test]
fn random_products_agree_rule_by_rule() {
    let (mut generator, rules) = (Generator::new(seed()), RuleByRule::new());
    for _ in 0..30_000 {
        let product = generator.any();
        assert_eq!(judge(&product), rules.verdict(&product), "{}", product.escape_ascii());
    }
}

#[test]
fn small_named_products_agree_rule_by_rule() {
    let rules = RuleByRule::new();
    for named in &NAMED_PRODUCTS {
        let product = (named.build)();
        if product.len() < 60_000 {
            assert_eq!(judge(&product), rules.verdict(&product), "{}", named.name);
        }
    }
}
