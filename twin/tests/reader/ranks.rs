//! Ranks, as order 10 of document 02 has them: how many non-empty sets have a smaller offset, and 128 for an entry that
//! has no non-empty set.

use crate::common::{demo, number};
use twin::builder::{named_product, Description, EntryDescription, Generator};
use twin::settings::seed;
use twin::words::Call;
use twin::{directory, header_values, judge, listing, Directory, Verdict, NO_RANK};

/// The ranks of the entries; the places past the last entry hold 0.
fn ranks_in(product: &[u8]) -> Vec<u8> {
    let listed = directory(product).unwrap();
    let (used, unused) = listed.ranks.split_at(listed.entry_count);
    assert!(unused.iter().all(|&rank| rank == 0), "{:?}", listed.ranks);
    used.to_vec()
}

fn ranks_of(name: &str) -> Vec<u8> {
    ranks_in(&named_product(name).unwrap())
}

/// A set each of 1, 2, 3 and so on bytes, in the file in this order.
fn in_order(order: &[usize]) -> Description {
    let set = |size| EntryDescription::records(b'G', "DEMO", 1, size);
    let mut description = Description::new((1..=order.len()).map(set).collect());
    description.place_in_order(order);
    description
}

#[test]
fn the_first_set_has_rank_0() {
    assert_eq!(NO_RANK, 128);
    assert_eq!(ranks_of("case-a"), []);
    assert_eq!(ranks_of("case-b"), [0]);
    assert_eq!(ranks_of("case-g"), [1, 0]);
}

#[test]
fn ranks_are_places_in_the_file() {
    for (order, ranks) in [
        ([0, 1, 2, 3, 4], [0, 1, 2, 3, 4]),
        ([4, 3, 2, 1, 0], [4, 3, 2, 1, 0]),
        ([0, 1, 2, 4, 3], [0, 1, 2, 4, 3]),
        ([1, 0, 2, 3, 4], [1, 0, 2, 3, 4]),
        ([1, 2, 3, 4, 0], [4, 0, 1, 2, 3]),
        ([3, 0, 4, 1, 2], [1, 3, 4, 0, 2]),
    ] {
        assert_eq!(ranks_in(&in_order(&order).build()), ranks, "{order:?}");
    }
}

#[test]
fn the_most_sets_have_ranks_0_to_127() {
    assert!(ranks_of("descriptors-128").into_iter().eq(0..128));
    assert!(ranks_of("descriptors-128-reversed").into_iter().eq((0..128).rev()));
    let product = named_product("descriptors-128-shuffled").unwrap();
    let ranks = ranks_in(&product);
    let offsets = directory(&product).unwrap().offsets;
    assert_eq!(offsets, std::array::from_fn(|entry| 37_087 + u64::from(ranks[entry])));
    let moved = (0..128).filter(|&entry| usize::from(ranks[entry]) != entry).count();
    assert!(moved > 100, "{ranks:?}");
}

#[test]
fn entries_without_a_byte_have_rank_128() {
    assert_eq!(ranks_of("sets-out-of-order"), [1, 128, 3, 128, 0, 128, 2]);
    assert_eq!(ranks_of("every-entry-form"), [128, 128, 128, 128, 0, 128]);
    assert_eq!(ranks_of("unequal-lengths"), [2, 3, 1, 0, 128]);
    assert_eq!(ranks_of("all-sets-empty"), [128; 3]);
    assert_eq!(ranks_of("minus-zeros"), [128]);
    assert_eq!(ranks_of("spares-128"), [128; 128]);
}

/// Wherever it points: before the sets, which begin at 2367, 2370 and 2371, to each of their bytes, to the product's
/// end and past it.
#[test]
fn an_empty_set_changes_no_rank() {
    for offset in (2366..=2373).chain([0, 1247, i128::from(i64::MAX)]) {
        for set_type in *b"MAG" {
            let mut description = in_order(&[0, 1, 2]);
            let empty = EntryDescription::new(set_type, "NOT USED", Vec::new()).at(offset);
            description.entries.insert(1, empty);
            description.place_in_order(&[3, 0, 2]);
            assert_eq!(ranks_in(&description.build()), [1, 128, 2, 0], "{offset}");
        }
    }
}

#[test]
fn sets_of_the_longest_product_are_ranked() {
    const LONGEST: i128 = 2_147_483_647;
    let mut description = Description::new(vec![demo(), demo()]);
    description.set_number("TOT_SIZE", LONGEST);
    for (entry, (offset, size)) in
        description.entries.iter_mut().zip([(LONGEST - 1, 1), (1807, LONGEST - 1808)])
    {
        entry.data.clear();
        (entry.offset, entry.size) = (number(offset), number(size));
        (entry.count, entry.record_size) = (number(1), number(size));
    }
    let headers = description.build();
    let mut product = vec![0; LONGEST as usize];
    product[..headers.len()].copy_from_slice(&headers);
    assert_eq!(ranks_in(&product), [1, 0]);
}

#[test]
fn a_refused_product_has_no_ranks() {
    for name in ["case-e", "case-f", "case-j", "refusal-11", "refusal-16"] {
        let words = Call::OpenDirectory.answer(&named_product(name).unwrap()).words;
        assert_eq!(words[3..], [0; 769], "{name}");
    }
}

/// The definition, entry by entry.
fn check_ranks(listed: &Directory) {
    let filled = |entry: &usize| listed.sizes[*entry] > 0;
    for entry in 0..128 {
        let before = |other: &usize| listed.offsets[*other] < listed.offsets[entry];
        let expected = match listed.types[entry] {
            0 => 0,
            b'M' | b'A' | b'G' if filled(&entry) => (0..128).filter(filled).filter(before).count(),
            _ => 128,
        };
        assert_eq!(usize::from(listed.ranks[entry]), expected, "{entry} {listed:?}");
    }
}

/// The non-empty sets by rank: the ranks are 0, 1 and so on, each once.
fn by_rank(listed: &Directory) -> Vec<usize> {
    let mut order: Vec<usize> =
        (0..listed.entry_count).filter(|&entry| listed.sizes[entry] > 0).collect();
    order.sort_by_key(|&entry| listed.ranks[entry]);
    assert!(order.iter().map(|&entry| usize::from(listed.ranks[entry])).eq(0..order.len()));
    order
}

#[test]
fn sets_by_rank_lie_back_to_back() {
    let mut generator = Generator::new(seed() ^ 3);
    let (mut out_of_order, mut reversed, mut of_128_out_of_order) = (0, 0, 0);
    for _ in 0..20_000 {
        let product = generator.any();
        let Ok(listed) = directory(&product) else { continue };
        check_ranks(&listed);
        let order = by_rank(&listed);
        let mut end = 1247 + header_values(&product).unwrap().sph_size as u64;
        for &entry in &order {
            assert_eq!(listed.offsets[entry], end);
            end += listed.sizes[entry];
        }
        assert_eq!(end, product.len() as u64);
        let is_out_of_order = !order.is_sorted();
        out_of_order += usize::from(is_out_of_order);
        reversed += usize::from(order.len() > 3 && order.iter().rev().is_sorted());
        of_128_out_of_order += usize::from(is_out_of_order && listed.entry_count == 128);
    }
    println!("out of entry order {out_of_order}, in reverse {reversed}, of 128 {of_128_out_of_order}");
    assert!(out_of_order > 1500 && reversed > 100, "{out_of_order} {reversed}");
    assert!(of_128_out_of_order > 0);
}

#[test]
fn a_line_of_the_listing_ends_in_the_rank() {
    let mut generator = Generator::new(seed() ^ 4);
    for _ in 0..5000 {
        let product = generator.good();
        if product.len() > twin::LONGEST_LISTED {
            continue;
        }
        assert_eq!(judge(&product), Verdict::Accepted);
        let listed = directory(&product).unwrap();
        let text = String::from_utf8(listing(&product)).unwrap();
        for (entry, line) in text.lines().skip(1).take(listed.entry_count).enumerate() {
            let end = match listed.types[entry] {
                b' ' => "spare".to_string(),
                _ => format!("{} {}", listed.record_sizes[entry], listed.ranks[entry]),
            };
            assert!(line.starts_with(&format!("entry {entry} ")), "{line}");
            assert!(line.ends_with(&format!(" {end}")), "{line}");
        }
    }
}
