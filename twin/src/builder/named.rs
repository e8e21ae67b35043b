//! Products by name: the cases of document 01, one product for each refusal, sharp corners, and the
//! products of the catalogue, each with what the reader answers.

use super::catalogue::{catalogue_description, thousand_states, CATALOGUE_NAMES};
use super::description::{Description, EntryDescription, Number, StateDescription};
use super::extinction;
use super::generator::Generator;
use crate::refusal::{Verdict, NO_ENTRY};

/// What is asked of a named product.
#[derive(Clone, Copy, Debug, PartialEq, Eq)]
pub enum Request {
    Judge,
    Record { entry: usize, record: u64 },
    Field { entry: usize, record: u64, offset: u64, kind: u64 },
    Point { entry: usize, record: u64, offsets: [u64; 3] },
    Pixel { record: u64, pixel: u64 },
}

/// A product, a request and whether the request is refused.
pub struct NamedProduct {
    pub name: &'static str,
    pub build: fn() -> Vec<u8>,
    pub request: Request,
    pub expected: Verdict,
}

const fn accepted(name: &'static str, build: fn() -> Vec<u8>) -> NamedProduct {
    NamedProduct { name, build, request: Request::Judge, expected: Verdict::Accepted }
}

const fn refused(
    name: &'static str,
    build: fn() -> Vec<u8>,
    (number, place, entry): (u8, u64, usize),
) -> NamedProduct {
    let expected = Verdict::Refused { number, place, entry };
    NamedProduct { name, build, request: Request::Judge, expected }
}

const fn asked(mut named: NamedProduct, request: Request) -> NamedProduct {
    named.request = request;
    named
}

const LARGEST: u64 = i64::MAX as u64;
const TOO_LARGE: Number = Number { minus: false, magnitude: 1 << 63 };

/// The named products but those of [`CATALOGUE_NAMES`], which are all accepted, and `wrapping-states`.
pub const NAMED_PRODUCTS: [NamedProduct; 71] = [
    accepted("case-a", case_a),
    accepted("case-b", case_b),
    refused("case-c", case_c, (12, 1526, 0)),
    refused("case-d", case_d, (12, 1528, 0)),
    refused("case-e", case_e, (14, 1542, NO_ENTRY)),
    refused("case-f", case_f, (13, 1812, 1)),
    accepted("case-g", case_g),
    asked(accepted("case-h", case_h), Request::Field { entry: 0, record: 0, offset: 0, kind: 5 }),
    asked(accepted("case-i", case_i), Request::Field { entry: 0, record: 0, offset: 0, kind: 1 }),
    refused("case-j", Vec::new, (1, 0, NO_ENTRY)),
    asked(accepted("case-k", case_k), POINT),
    asked(refused("case-l", case_l, (21, 0, 0)), POINT),
    accepted("descriptors-41", || one_byte_sets(41).build()),
    accepted("descriptors-64", || one_byte_sets(64).build()),
    accepted("descriptors-128", || one_byte_sets(128).build()),
    accepted("descriptors-128-reversed", || one_byte_sets_in_order(|order| order.reverse())),
    accepted("descriptors-128-shuffled", || one_byte_sets_in_order(shuffle)),
    refused("descriptors-129", || one_byte_sets(129).build(), (6, 1140, NO_ENTRY)),
    accepted("sph-49152", || long_sph(49_152).build()),
    refused("sph-49153", || long_sph(49_153).build(), (6, 1113, NO_ENTRY)),
    refused("too-large-tot-size", || numbered("TOT_SIZE", TOO_LARGE), (4, 1075, NO_ENTRY)),
    refused("too-large-ds-offset", || demo(|entry| entry.offset = Some(TOO_LARGE)), (9, 1380, 0)),
    refused("too-large-ds-size", || demo(|entry| entry.size = Some(TOO_LARGE)), (9, 1417, 0)),
    refused("refusal-1", || case_a()[..1246].to_vec(), (1, 1246, NO_ENTRY)),
    refused("refusal-3", leap_error_blank, (3, 1009, NO_ENTRY)),
    refused("refusal-4", || numbered("TOT_SIZE", TOO_LARGE), (4, 1075, NO_ENTRY)),
    refused("refusal-5", || numbered("TOT_SIZE", Number::from(-1542)), (5, 1075, NO_ENTRY)),
    refused("refusal-6", || numbered("DSD_SIZE", Number::from(279)), (6, 1161, NO_ENTRY)),
    refused("refusal-7", empty_second_line, (7, 1251, NO_ENTRY)),
    refused("refusal-8", unknown_type, (8, 1294, 0)),
    refused("refusal-9", || demo(|entry| entry.offset = Some(TOO_LARGE)), (9, 1380, 0)),
    refused("refusal-10", || demo(|entry| entry.count = Some(Number::from(4))), (10, 1247, 0)),
    refused("refusal-11", || numbered("NUM_DATA_SETS", Number::from(2)), (11, 1194, NO_ENTRY)),
    refused("refusal-12", case_c, (12, 1526, 0)),
    refused("refusal-13", case_f, (13, 1812, 1)),
    refused("refusal-14", case_e, (14, 1542, NO_ENTRY)),
    refused("refusal-15", states_missing, (15, 0, NO_ENTRY)),
    refused("refusal-16", states_empty, (16, 1807, 1)),
    asked(refused("refusal-17", case_b, (17, 0, NO_ENTRY)), Request::Record { entry: 1, record: 0 }),
    asked(refused("refusal-18", case_b, (18, 0, 0)), Request::Record { entry: 0, record: 3 }),
    asked(
        refused("refusal-19", case_b, (19, 0, 0)),
        Request::Field { entry: 0, record: 0, offset: 9, kind: 10 },
    ),
    asked(
        refused("refusal-20", case_b, (20, 2, 0)),
        Request::Field { entry: 0, record: 2, offset: 2, kind: 5 },
    ),
    asked(refused("refusal-21", case_l, (21, 0, 0)), POINT),
    asked(refused("refusal-22", extinction::twice, (22, 0, NO_ENTRY)), FIRST_PIXEL),
    asked(
        refused("refusal-23", extinction::told, (23, 2336, 1)),
        Request::Pixel { record: 1, pixel: 2336 },
    ),
    asked(
        refused("refusal-24", extinction::told, (24, 12, 1)),
        Request::Pixel { record: 1, pixel: 2335 },
    ),
    asked(
        accepted("unequal-lengths", || unequal_lengths().build()),
        Request::Record { entry: 2, record: 4 },
    ),
    accepted("minus-zeros", minus_zeros),
    accepted("every-entry-form", every_entry_form),
    accepted("empty-set-uncounted", || demo_and_empty_set(1)),
    refused("empty-set-counted", || demo_and_empty_set(2), (11, 1194, NO_ENTRY)),
    accepted("all-sets-empty", all_sets_empty),
    accepted("sets-out-of-order", sets_out_of_order),
    asked(accepted("extinction", extinction::told), FIRST_PIXEL),
    asked(refused("extinction-twice", extinction::twice, (22, 0, NO_ENTRY)), FIRST_PIXEL),
    asked(refused("extinction-empty", extinction::empty, (18, 0, 1)), FIRST_PIXEL),
    asked(refused("extinction-other-size", extinction::other_size, (22, 0, NO_ENTRY)), FIRST_PIXEL),
    refused("wrapping-records", wrapping_records, (10, 1247, 0)),
    refused("wrapping-set-end", wrapping_set_end, (12, LARGEST, 0)),
    refused("two-overlaps", two_overlaps, (13, 2382, 2)),
    refused("set-within-set", set_within_set, (13, 1812, 1)),
    refused("printed-sph-size", printed_sph_size, (6, 1140, NO_ENTRY)),
    refused("SCI_NL__1P-damaged", damaged_count, (16, 28_407, 26)),
    accepted("states-1000", || thousand_states().build()),
    accepted("spares-128", || Description::new(vec![EntryDescription::spare(); 128]).build()),
    accepted("sph-shortest-blank-lines", || repeated_line(b" \n".to_vec()).build()),
    accepted("sph-long-lines", || repeated_line(unquoted_line(1024)).build()),
    accepted("sph-long-quoted-lines", || repeated_line(quoted_line(1024)).build()),
    accepted("sph-short-lines", || repeated_line(unquoted_line(4)).build()),
    refused("listed-last", || long_product(65_536), (14, 1247, NO_ENTRY)),
    refused("listed-no-more", || long_product(65_537), (14, 1247, NO_ENTRY)),
];

const FIRST_PIXEL: Request = Request::Pixel { record: 0, pixel: 0 };
const POINT: Request = Request::Point { entry: 0, record: 0, offsets: [0, 4, 8] };

/// The product of a name: of [`NAMED_PRODUCTS`], of [`CATALOGUE_NAMES`], or `wrapping-states`.
pub fn named_product(name: &str) -> Option<Vec<u8>> {
    if name == "wrapping-states" {
        return Some(wrapping_states());
    }
    if CATALOGUE_NAMES.contains(&name) {
        return catalogue_description(name).map(|description| description.build());
    }
    NAMED_PRODUCTS.iter().find(|named| named.name == name).map(|named| (named.build)())
}

fn case_a() -> Vec<u8> {
    Description::default().build()
}

fn demo_records() -> EntryDescription {
    EntryDescription::records(b'G', "DEMO", 3, 5)
}

/// Case B with its entry changed.
fn demo(change: fn(&mut EntryDescription)) -> Vec<u8> {
    let mut entry = demo_records();
    change(&mut entry);
    Description::new(vec![entry]).build()
}

/// Case B with one number of the main header changed.
fn numbered(keyword: &'static str, number: Number) -> Vec<u8> {
    let mut description = Description::new(vec![demo_records()]);
    description.set_number(keyword, number);
    description.build()
}

fn case_b() -> Vec<u8> {
    demo(|_| {})
}

fn case_c() -> Vec<u8> {
    demo(|entry| entry.offset = Some(Number::from(1526)))
}

fn case_d() -> Vec<u8> {
    demo(|entry| entry.offset = Some(Number::from(1528)))
}

fn case_e() -> Vec<u8> {
    let mut description = Description::new(vec![demo_records()]);
    description.after = vec![0];
    description.build()
}

fn sets_of_ten(offsets: &[i128]) -> Vec<u8> {
    let set = || EntryDescription::records(b'G', "DEMO", 1, 10);
    Description::new(offsets.iter().map(|&offset| set().at(offset)).collect()).build()
}

fn case_f() -> Vec<u8> {
    sets_of_ten(&[1807, 1812])
}

fn case_g() -> Vec<u8> {
    sets_of_ten(&[1817, 1807])
}

fn one_record(bytes: &[u8]) -> Vec<u8> {
    Description::new(vec![EntryDescription::new(b'G', "DEMO", bytes.to_vec())]).build()
}

fn case_h() -> Vec<u8> {
    one_record(&[0xff; 4])
}

fn case_i() -> Vec<u8> {
    one_record(&[0xff])
}

fn one_point(latitude: i32) -> Vec<u8> {
    one_record(&[latitude.to_be_bytes(), [0; 4], [0; 4]].concat())
}

fn case_k() -> Vec<u8> {
    one_point(90_000_000)
}

fn case_l() -> Vec<u8> {
    one_point(90_000_001)
}

fn one_byte_sets(entries: usize) -> Description {
    let set = |entry: usize| EntryDescription::new(b'G', "DEMO", vec![entry as u8]);
    Description::new((0..entries).map(set).collect())
}

/// 128 sets of one byte, in the file in the order of their entries as rearranged.
fn one_byte_sets_in_order(rearrange: fn(&mut [usize])) -> Vec<u8> {
    let mut description = one_byte_sets(128);
    let mut order: Vec<usize> = (0..128).collect();
    rearrange(&mut order);
    description.place_in_order(&order);
    description.build()
}

/// The same shuffle at every call, without a pattern that a reader could make use of.
fn shuffle(order: &mut [usize]) {
    Generator::new(10).shuffle(order);
}

fn long_sph(size: usize) -> Description {
    let sph_lines = [vec![b' '; size - 1], vec![b'\n']].concat();
    Description { sph_lines, ..Description::default() }
}

/// 49,152 bytes of SPH: one line again and again, whose length divides that.
fn repeated_line(line: Vec<u8>) -> Description {
    Description { sph_lines: line.repeat(49_152 / line.len()), ..Description::default() }
}

/// Text of a length, without quotes; its first byte is 1.
fn text_of(length: usize) -> Vec<u8> {
    (b'0'..=b'~').cycle().skip(1).take(length).collect()
}

/// A line of a length whose value is text.
fn unquoted_line(length: usize) -> Vec<u8> {
    [b"A=".to_vec(), text_of(length - 3), b"\n".to_vec()].concat()
}

/// A line of a length whose value is a q.
fn quoted_line(length: usize) -> Vec<u8> {
    [b"A=\"".to_vec(), text_of(length - 5), b"\"\n".to_vec()].concat()
}

/// A SCI_NL__1P whose first state says one nadir record more than there is.
fn damaged_count() -> Vec<u8> {
    let mut description = catalogue_description("SCI_NL__1P").unwrap_or_default();
    for entry in description.entries.iter_mut().filter(|entry| entry.name == b"STATES") {
        entry.data[1382] += 1;
    }
    description.build()
}

fn long_product(length: usize) -> Vec<u8> {
    Description { after: vec![7; length - 1247], ..Description::default() }.build()
}

fn leap_error_blank() -> Vec<u8> {
    let mut description = Description::default();
    description.set_single("LEAP_ERR", b' ');
    description.build()
}

fn empty_second_line() -> Vec<u8> {
    let mut description = Description::new(vec![demo_records()]);
    description.sph_lines = b"A=1\n\nB=2\n".to_vec();
    description.build()
}

fn unknown_type() -> Vec<u8> {
    demo(|entry| entry.set_type = b'X')
}

fn states_missing() -> Vec<u8> {
    Description::new(vec![EntryDescription::variable("NADIR", 1, 5)]).build()
}

fn states_empty() -> Vec<u8> {
    let states = EntryDescription::records(b'A', "STATES", 0, 1387);
    Description::new(vec![states, EntryDescription::variable("NADIR", 1, 5)]).build()
}

/// Five nadir records of 7, 7, 4, 4 and 9 bytes, three limb records of 6, 6 and 2; the sets stand
/// before the states in the file and NADIR is there twice.
fn unequal_lengths() -> Description {
    let list = [
        StateDescription::new(0, 1, 2, 7),
        StateDescription::new(0, 2, 2, 6),
        StateDescription::new(1, 1, 3, 50),
        StateDescription::new(0, 1, 2, 4),
        StateDescription::new(1, 9, 3, 0),
        StateDescription::new(0, 2, 1, 2),
        StateDescription::new(0, 1, 1, 9),
        StateDescription::new(0, 4, 0, 0),
    ];
    let mut description = Description::new(vec![
        EntryDescription::states(&list),
        EntryDescription::variable("NADIR", 5, 31),
        EntryDescription::variable("NADIR", 5, 31),
        EntryDescription::variable("LIMB", 3, 14),
        EntryDescription::new(b'M', "MONITORING", Vec::new()),
    ]);
    description.entries[4].record_size = Some(Number::from(-1));
    description.place_in_order(&[3, 2, 0, 1]);
    description
}

/// Every number that may be zero is minus zero.
fn minus_zeros() -> Vec<u8> {
    let zero = Some(Number::MINUS_ZERO);
    let mut reference = EntryDescription::new(b'R', "FILE", Vec::new());
    reference.offset = zero;
    reference.size = zero;
    reference.count = zero;
    reference.record_size = zero;
    let mut description = Description::new(vec![reference]);
    for keyword in ["CYCLE", "DELTA_UT1", "X_POSITION", "NUM_DATA_SETS", "LEAP_SIGN"] {
        description.set_number(keyword, Number::MINUS_ZERO);
    }
    description.build()
}

/// A spare, an R entry, empty sets of every type, a blank name, a name with inner blanks.
fn every_entry_form() -> Vec<u8> {
    let mut far = EntryDescription::new(b'A', "", Vec::new()).at(i128::from(i64::MAX));
    far.record_size = Some(Number::from(9_999_999_999));
    let mut variable = EntryDescription::new(b'G', "ANY  NAME", Vec::new());
    variable.record_size = Some(Number::from(-1));
    Description::new(vec![
        EntryDescription::spare(),
        EntryDescription::new(b'R', "LEVEL_0_PRODUCT", Vec::new()),
        far,
        variable,
        EntryDescription::new(b'M', " NADIR", vec![1, 2, 3]),
        EntryDescription::spare(),
    ])
    .build()
}

/// Case B's set and an empty one, with this NUM_DATA_SETS: one set is right (document 02, order 4).
fn demo_and_empty_set(data_sets: i128) -> Vec<u8> {
    let empty = EntryDescription::new(b'G', "DEMO", Vec::new());
    let mut description = Description::new(vec![demo_records(), empty]);
    description.set_number("NUM_DATA_SETS", data_sets);
    description.build()
}

/// An empty set of each type, the last with DS_SIZE -0; NUM_DATA_SETS is 0.
fn all_sets_empty() -> Vec<u8> {
    let mut entries = b"MAG".map(|set_type| EntryDescription::new(set_type, "DEMO", Vec::new()));
    entries[2].size = Some(Number::MINUS_ZERO);
    let mut description = Description::new(entries.to_vec());
    description.set_number("NUM_DATA_SETS", 0);
    description.build()
}

/// Sets whose names say where they stand in the file, none at the place that its entry has among the entries of sets.
/// The empty set points into SECOND: where it is counted, THIRD and FOURTH have a wrong rank.
fn sets_out_of_order() -> Vec<u8> {
    let mut description = Description::new(vec![
        EntryDescription::records(b'M', "SECOND", 2, 3),
        EntryDescription::new(b'R', "FILE", Vec::new()),
        EntryDescription::records(b'A', "FOURTH", 1, 3),
        EntryDescription::new(b'G', "EMPTY", Vec::new()).at(3213),
        EntryDescription::records(b'G', "FIRST", 4, 1),
        EntryDescription::spare(),
        EntryDescription::records(b'M', "THIRD", 1, 2),
    ]);
    description.place_in_order(&[4, 0, 6, 2]);
    description.build()
}

fn wrapping_records() -> Vec<u8> {
    demo(|entry| {
        entry.size = Some(Number::from(1 << 32));
        entry.count = Some(Number::from(1 << 32));
        entry.record_size = Some(Number::from((1 << 32) + 1));
    })
}

fn wrapping_set_end() -> Vec<u8> {
    let mut entry = EntryDescription::new(b'M', "NADIR", Vec::new()).at(i128::from(i64::MAX));
    entry.size = entry.offset;
    entry.count = Some(Number::from(1));
    entry.record_size = Some(Number::from(-1));
    Description::new(vec![entry]).build()
}

/// Entries 0 and 3 share bytes, and so do 1 and 2.
fn two_overlaps() -> Vec<u8> {
    sets_of_ten(&[2367, 2377, 2382, 2372])
}

/// The set of entry 0 reaches the product's end and entry 1 lies within it.
fn set_within_set() -> Vec<u8> {
    let outer = EntryDescription::records(b'G', "DEMO", 1, 20).at(1807);
    let mut inner = EntryDescription::records(b'G', "DEMO", 1, 10).at(1812);
    inner.size = Some(Number::from(10));
    inner.data = Vec::new();
    Description::new(vec![outer, inner]).build()
}

/// Source 003 prints 10,213 as the SPH size of a level 1b product.
fn printed_sph_size() -> Vec<u8> {
    let mut description = catalogue_description("SCI_NL__1P").unwrap_or_default();
    description.set_number("SPH_SIZE", 10_213);
    description.build()
}

/// 65,539 states whose records have 2^64 + 5 bytes together, beside a set of 5 bytes: 90,904,405 bytes.
/// Refused 16 at the set's DS_OFFSET, entry 0.
pub fn wrapping_states() -> Vec<u8> {
    let mut list = vec![StateDescription::new(0, 1, u16::MAX, u32::MAX); 65_537];
    list.extend([StateDescription::new(0, 1, 2, u32::MAX), StateDescription::new(0, 1, 1, 6)]);
    let count = list.iter().map(|state| usize::from(state.count)).sum();
    let nadir = EntryDescription::variable("NADIR", count, 5);
    Description::new(vec![nadir, EntryDescription::states(&list)]).build()
}
