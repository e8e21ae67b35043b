//! The listing.

use twin::builder::{named_product, Generator};
use twin::listing;

fn listed(name: &str) -> String {
    String::from_utf8(listing(&named_product(name).unwrap())).unwrap()
}

#[test]
fn case_b_is_listed_as_in_order_10() {
    assert_eq!(listed("case-b"), "size 1542\nentry 0 G DEMO 1527 15 3 5 0\naccepted\n");
}

#[test]
fn a_product_without_entries_has_two_lines() {
    assert_eq!(listed("case-a"), "size 1247\naccepted\n");
}

#[test]
fn a_refusal_is_one_line() {
    assert_eq!(listed("case-e"), "refused 14 1542 128\n");
    assert_eq!(listed("case-f"), "refused 13 1812 1\n");
    assert_eq!(listed("case-j"), "refused 1 0 128\n");
    assert_eq!(listed("wrapping-set-end"), "refused 12 9223372036854775807 0\n");
}

#[test]
fn every_form_of_entry_has_its_line() {
    let lines = "size 2930\nentry 0 spare\nentry 1 R LEVEL_0_PRODUCT 0 0 0 0 128\n\
        entry 2 A  9223372036854775807 0 0 9999999999 128\nentry 3 G ANY  NAME 0 0 0 -1 128\n\
        entry 4 M  NADIR 2927 3 1 3 0\nentry 5 spare\naccepted\n";
    assert_eq!(listed("every-entry-form"), lines);
    assert_eq!(listed("minus-zeros"), "size 1527\nentry 0 R FILE 0 0 0 0 128\naccepted\n");
}

#[test]
fn ranks_stand_last_but_in_spare_lines() {
    let lines = "size 3222\nentry 0 M SECOND 3211 6 2 3 1\nentry 1 R FILE 0 0 0 0 128\n\
        entry 2 A FOURTH 3219 3 1 3 3\nentry 3 G EMPTY 3213 0 0 0 128\n\
        entry 4 G FIRST 3207 4 4 1 0\nentry 5 spare\nentry 6 M THIRD 3217 2 1 2 2\naccepted\n";
    assert_eq!(listed("sets-out-of-order"), lines);
    let first_of_128 = |name| listed(name).lines().nth(1).unwrap().to_string();
    assert_eq!(first_of_128("descriptors-128"), "entry 0 G DEMO 37087 1 1 1 0");
    assert_eq!(first_of_128("descriptors-128-reversed"), "entry 0 G DEMO 37214 1 1 1 127");
}

#[test]
fn variable_sets_show_minus_one() {
    let lines = "size 13819\nentry 0 A STATES 2692 11096 8 1387 2\nentry 1 M NADIR 13788 31 5 -1 3\n\
        entry 2 M NADIR 2661 31 5 -1 1\nentry 3 M LIMB 2647 14 3 -1 0\n\
        entry 4 M MONITORING 0 0 0 -1 128\naccepted\n";
    assert_eq!(listed("unequal-lengths"), lines);
}

#[test]
fn the_limit_is_65536_bytes() {
    assert_eq!(listed("listed-last"), "refused 14 1247 128\n");
    assert_eq!(listed("listed-no-more"), "longer than 65536\n");
    assert_eq!(listing(&[0; 65_537]), b"longer than 65536\n");
    assert_eq!(listing(&[0; 65_536]), b"refused 3 0 128\n");
}

/// `size`, 128 lines with a name of 28 bytes, an offset of 19 digits, a record size of 10 and rank 128, and `accepted`.
#[test]
fn the_longest_listing_has_10150_bytes() {
    let listed = listing(&Generator::new(1).longest_listing());
    assert_eq!(listed.len(), 10_150);
    assert_eq!(listed.iter().filter(|&&byte| byte == b'\n').count(), 130);
    assert!(listed.ends_with(b"accepted\n"));
}
