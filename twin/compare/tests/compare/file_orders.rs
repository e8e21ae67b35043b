//! Sets in every order: all orders of a few, and many of 128, where random products have few.

use compare::Comparer;
use twin::builder::{Description, EntryDescription, Generator};
use twin::words::Call;

/// A set each of 1, 2 or 3 bytes, in the file in this order.
fn in_order(order: &[usize]) -> Vec<u8> {
    let set = |entry: usize| EntryDescription::records(b'G', "DEMO", 1, 1 + entry % 3);
    let mut description = Description::new((0..order.len()).map(set).collect());
    description.place_in_order(order);
    description.build()
}

/// The ranks that both answer are the places in this order.
fn compare_order(order: &[usize]) {
    let product = in_order(order);
    let mut comparer = Comparer::of(format_args!("sets in the order {order:?}"));
    let answer = comparer.compare(&product, Call::OpenDirectory);
    for (rank, &entry) in order.iter().enumerate() {
        assert_eq!(answer.words[644 + entry], rank as u64, "entry {entry} of {order:?}");
    }
}

/// All orders of the entries from a place on, behind what stands before it.
fn compare_orders_from(place: usize, order: &mut [usize]) {
    if place == order.len() {
        compare_order(order);
    }
    for other in place..order.len() {
        order.swap(place, other);
        compare_orders_from(place + 1, order);
        order.swap(place, other);
    }
}

#[test]
fn up_to_six_sets_have_their_ranks_in_every_order() {
    for entries in 0..=6 {
        let mut order: Vec<usize> = (0..entries).collect();
        compare_orders_from(0, &mut order);
    }
}

/// In entry order but for two neighbours, or for one set that stands first; and every set moved round by some places,
/// in order or in reverse.
#[test]
fn the_most_sets_have_their_ranks_in_orders_near_the_entries() {
    let entries: Vec<usize> = (0..128).collect();
    for place in 0..127 {
        let mut order = entries.clone();
        order.swap(place, place + 1);
        compare_order(&order);
        order = entries.clone();
        order[..=place].rotate_right(1);
        compare_order(&order);
        order = entries.clone();
        order.rotate_left(place);
        compare_order(&order);
        order.reverse();
        compare_order(&order);
    }
}

#[test]
fn the_most_sets_have_their_ranks_in_any_order() {
    let mut generator = Generator::new(13);
    for _ in 0..500 {
        let mut order: Vec<usize> = (0..128).collect();
        order.sort_by_cached_key(|_| generator.next_number());
        compare_order(&order);
    }
}
