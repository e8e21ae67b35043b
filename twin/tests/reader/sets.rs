//! Rules 12 to 14: corners, and a count byte by byte on crowded products.

use crate::common::{demo, number, refused, verdict_on, verdict_on_demo, NONE};
use twin::builder::{Description, EntryDescription, Generator, Number};
use twin::settings::seed;
use twin::{judge, Verdict};

#[test]
fn a_set_starts_after_the_headers_and_ends_in_the_product() {
    for (offset, good) in [(0, false), (1246, false), (1247, false), (1526, false), (1527, true)] {
        let verdict = verdict_on_demo(|entry| entry.offset = number(offset));
        let bad = refused(12, offset as u64, 0);
        assert_eq!(verdict, if good { Verdict::Accepted } else { bad });
    }
    for offset in [1528, 1542, 1 << 31, 1 << 32, i128::from(i64::MAX)] {
        let verdict = verdict_on_demo(|entry| entry.offset = number(offset));
        assert_eq!(verdict, refused(12, offset as u64, 0));
    }
}

#[test]
fn the_end_of_a_set_does_not_wrap() {
    let largest = i128::from(i64::MAX);
    for (offset, size) in [(largest, largest), (1527, largest), (largest, 1), (1, largest)] {
        let mut entry = EntryDescription::variable("NADIR", 1, 5).at(offset);
        entry.size = number(size);
        assert_eq!(verdict_on(&Description::new(vec![entry])), refused(12, offset as u64, 0));
    }
}

#[test]
fn rule_12_in_the_last_entry_comes_before_rule_13() {
    let mut description = Description::new(vec![demo(), demo(), demo()]);
    description.place_in_order(&[0, 1, 2]);
    description.entries[1].offset = description.entries[0].offset;
    assert_eq!(verdict_on(&description), refused(13, 2087, 1));
    description.entries[2].offset = number(5);
    assert_eq!(verdict_on(&description), refused(12, 5, 2));
}

#[test]
fn rule_13_gives_the_lowest_higher_entry() {
    let sets = |offsets: &[i128]| {
        let set = |&offset| EntryDescription::records(b'G', "DEMO", 1, 10).at(offset);
        verdict_on(&Description::new(offsets.iter().map(set).collect()))
    };
    assert_eq!(sets(&[2367, 2377, 2382, 2372]), refused(13, 2382, 2));
    assert_eq!(sets(&[2367, 2377, 2387, 2367]), refused(13, 2367, 3));
    assert_eq!(sets(&[2377, 2368, 2387, 2397]), refused(13, 2368, 1));
    assert_eq!(sets(&[2397, 2387, 2377, 2367]), Verdict::Accepted);
}

#[test]
fn rule_14_gives_the_lowest_byte_left_out() {
    let mut description = Description { after: vec![1, 2, 3], ..Description::default() };
    assert_eq!(verdict_on(&description), refused(14, 1247, NONE));
    description.sph_lines = b"A=1\n".to_vec();
    assert_eq!(verdict_on(&description), refused(14, 1251, NONE));
    let mut sets = Description::new(vec![demo().at(1807), demo().at(1823)]);
    sets.after = vec![0];
    assert_eq!(verdict_on(&sets), refused(14, 1822, NONE));
    sets.entries[0].offset = number(1808);
    assert_eq!(verdict_on(&sets), refused(14, 1807, NONE));
}

#[test]
fn empty_sets_may_point_anywhere() {
    for offset in [0, 1247, 1528, 1814, 2100, i128::from(i64::MAX)] {
        let empty = EntryDescription::new(b'A', "NOT USED", Vec::new()).at(offset);
        let description = Description::new(vec![empty.clone(), demo(), empty]);
        assert_eq!(verdict_on(&description), Verdict::Accepted, "{offset}");
    }
}

/// Digits with a sign, read by the standard library.
pub fn number_at(product: &[u8], place: usize, digits: usize) -> i128 {
    std::str::from_utf8(&product[place..place + 1 + digits]).unwrap().parse().unwrap()
}

/// Rules 12 to 14 by looking at every byte after the headers and every set for it. The product has
/// passed rules 1 to 11.
pub fn byte_by_byte(product: &[u8]) -> Verdict {
    let headers_end = 1247 + number_at(product, 1113, 10) as usize;
    let entries = number_at(product, 1140, 10) as usize;
    let mut sets = Vec::new();
    for entry in 0..entries {
        let descriptor = headers_end - 280 * (entries - entry);
        if product[descriptor] == b'D' {
            let offset = number_at(product, descriptor + 133, 20);
            sets.push((entry, offset, number_at(product, descriptor + 170, 20)));
        }
    }
    sets.retain(|&(_, _, size)| size > 0);
    let holders = |place: usize| {
        let holds = move |&(_, offset, size): &(usize, i128, i128)| {
            (offset..offset + size).contains(&(place as i128))
        };
        sets.iter().copied().filter(holds)
    };
    for &(entry, offset, size) in &sets {
        let held =
            (headers_end..product.len()).filter(|&place| holders(place).any(|set| set.0 == entry));
        if held.count() as i128 != size {
            return refused(12, offset as u64, entry);
        }
    }
    let shared = (headers_end..product.len()).filter_map(|place| holders(place).nth(1)).min();
    if let Some((entry, offset, _)) = shared {
        return refused(13, offset as u64, entry);
    }
    let left_out = (headers_end..product.len()).find(|&place| holders(place).next().is_none());
    left_out.map_or(Verdict::Accepted, |place| refused(14, place as u64, NONE))
}

/// Some small sets of equal records, at offsets in or near the room they need.
fn crowded(generator: &mut Generator) -> Description {
    let entries = 1 + generator.index(5);
    let mut description = Description::default();
    for _ in 0..entries {
        let size = generator.index(4);
        description.entries.push(EntryDescription::records(b'G', "DEMO", 1.min(size), size.max(1)));
    }
    let mut order: Vec<usize> = (0..entries).collect();
    order.sort_by_key(|_| generator.next_number());
    description.place_in_order(&order);
    if generator.once_in(2) {
        description.after = vec![0; generator.index(4)];
    }
    let moved = generator.index(3);
    for _ in 0..moved {
        let entry = generator.index(entries);
        let place = description.headers_end() as i128 - 1 + generator.below(16) as i128;
        description.entries[entry].offset = Some(Number::from(place));
    }
    if generator.once_in(3) {
        // a set without room of its own: the sizes no longer add up to the room
        let entry = &mut description.entries[generator.index(entries)];
        entry.size = Some(Number::from(entry.data.len() as i128));
        entry.data.clear();
    }
    description
}

#[test]
fn crowded_products_agree_with_a_count_byte_by_byte() {
    let mut generator = Generator::new(seed());
    let mut seen = [0; 17];
    for _ in 0..40_000 {
        let product = crowded(&mut generator).build();
        let verdict = judge(&product);
        assert_eq!(verdict, byte_by_byte(&product));
        match verdict {
            Verdict::Accepted => seen[0] += 1,
            Verdict::Refused { number, .. } => seen[usize::from(number)] += 1,
        }
    }
    assert!([0, 12, 13, 14].iter().all(|&number| seen[number] > 500), "{seen:?}");
}
