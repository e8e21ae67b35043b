//! Products cut at every length, as they are and with TOT_SIZE set to what is left.

use compare::Comparer;
use twin::builder::Number;
use twin::words::Call;

use crate::common::{choices, product, total_size};

/// Compares every beginning of a product, from a length on; TOT_SIZE says its length where `mended`.
fn cut_everywhere(name: &str, from: usize, mended: bool) {
    let whole = product(name);
    let total = total_size(&whole);
    let mut comparer = Comparer::default();
    let mut choices = choices();
    for length in from..whole.len() {
        comparer.set_origin(format_args!("{name} cut to {length} bytes, mended: {mended}"));
        let mut cut = whole[..length].to_vec();
        if mended {
            assert!(total.write(&mut cut, Number::from(length as i128)));
        }
        comparer.compare_some(&cut, 1, &mut choices);
    }
}

#[test]
fn products_cut_at_every_length_are_refused_alike() {
    for name in ["case-b", "case-g", "every-entry-form", "GOM_RR__2P"] {
        cut_everywhere(name, 0, false);
        cut_everywhere(name, 1247, true);
    }
    cut_everywhere("unequal-lengths", 1247, true);
}

/// Bytes put behind a product, with TOT_SIZE set to the new length or not.
#[test]
fn products_with_bytes_behind_are_refused_alike() {
    for name in ["case-a", "case-b", "case-g", "unequal-lengths", "sph-49152"] {
        let whole = product(name);
        for more in [1, 2, 279, 280, 281, 1387, 65_536] {
            let mut longer = whole.clone();
            longer.resize(whole.len() + more, b' ');
            let mut comparer = Comparer::of(format_args!("{name} and {more} blanks"));
            comparer.compare_some(&longer, 1, &mut choices());
            let total = Number::from(longer.len() as i128);
            assert!(total_size(&whole).write(&mut longer, total));
            comparer.compare_some(&longer, 1, &mut choices());
        }
    }
}

/// Every length of zeros and of blanks that is shorter than a main header, and a little more.
#[test]
fn short_inputs_are_refused_alike() {
    let mut comparer = Comparer::of("zeros or blanks");
    for length in 0..1300 {
        for byte in [0, b' '] {
            comparer.compare(&vec![byte; length], Call::Judge);
        }
    }
}
