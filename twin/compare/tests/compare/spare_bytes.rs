//! Spare DSDs with one byte replaced at every place, and with two: rule 8 names the first that is not as laid out.

use compare::{header_ends, Comparer};
use twin::builder::{Description, EntryDescription, Generator};

use crate::common::{expect, others, product, put};

/// Bytes that stand nowhere in a spare DSD.
const BAD: [u8; 8] = [0, 31, b'!', b'"', b'~', 127, 160, 255];

/// Where a spare DSD with this byte at an offset is first not as laid out. One whose first byte is no blank is a named
/// one, and is not as laid out there, or behind it where that byte begins DS_NAME.
fn fault(offset: usize, byte: u8) -> usize {
    if (offset, byte) == (0, b'D') {
        1
    } else {
        offset
    }
}

/// A spare on each side of a named entry, and between two of them.
fn spares_and_sets() -> Vec<u8> {
    let set = |size| EntryDescription::records(b'M', "DEMO", 1, size);
    let spare = EntryDescription::spare;
    Description::new(vec![spare(), set(1), spare(), set(2), spare()]).build()
}

/// Replaces each byte of a spare entry in turn.
fn replace_each(comparer: &mut Comparer, name: &str, product: &mut [u8], entry: usize) {
    let start = header_ends(product).0 + 280 * entry;
    for offset in 0..280 {
        let before = product[start + offset];
        for byte in others(before) {
            product[start + offset] = byte;
            let origin = format_args!("{name} with byte {byte} at {offset} of entry {entry}");
            let place = (start + fault(offset, byte)) as u64;
            expect(comparer, product, origin, [8, place, entry as u64]);
        }
        product[start + offset] = before;
    }
}

#[test]
fn the_first_bad_byte_of_a_spare_is_named() {
    let mut comparer = Comparer::default();
    for entry in [0, 63, 127] {
        replace_each(&mut comparer, "spares-128", &mut product("spares-128"), entry);
    }
    for entry in [0, 2, 4] {
        replace_each(&mut comparer, "spares and sets", &mut spares_and_sets(), entry);
    }
    println!("{} questions of spares with a bad byte", comparer.asked());
    assert_eq!(comparer.met().verdicts[8], comparer.asked() as u64 / 2);
}

/// Makes two bytes of spares bad; the one that stands first decides.
fn replace_two(
    comparer: &mut Comparer,
    product: &mut [u8],
    places: [usize; 2],
    choices: &mut Generator,
) {
    let start = header_ends(product).0;
    let first = places[0].min(places[1]);
    let places = places.map(|place| start + place);
    let before = places.map(|place| product[place]);
    put(product, places, [0; 2].map(|_| choices.choose(&BAD)));
    let refusal = [8, (start + first) as u64, (first / 280) as u64];
    expect(comparer, product, format_args!("128 spares with bad bytes at {places:?}"), refusal);
    put(product, places, before);
}

#[test]
fn the_first_of_two_bad_bytes_of_spares_is_named() {
    let mut comparer = Comparer::default();
    let mut choices = Generator::new(3);
    let mut spares = product("spares-128");
    for first in 280..560 {
        for second in first + 1..560 {
            replace_two(&mut comparer, &mut spares, [first, second], &mut choices);
        }
    }
    for _ in 0..10_000 {
        let places = [0; 2].map(|_| choices.index(128 * 280));
        replace_two(&mut comparer, &mut spares, places, &mut choices);
    }
    println!("{} questions of spares with two bad bytes", comparer.asked());
    assert_eq!(comparer.met().verdicts[8], comparer.asked() as u64 / 2);
}
