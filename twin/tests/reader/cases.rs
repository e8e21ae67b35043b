//! The cases of document 01, one product for each refusal, and the catalogue's products.

use crate::common::{answer, refusal, refused, NONE};
use twin::builder::{named_product, wrapping_states, CATALOGUE_NAMES, NAMED_PRODUCTS};
use twin::{
    directory, field, header_values, judge, point, record_part, record_place, sph_part, FieldAnswer,
    Part, Verdict,
};

fn whole(name: &str, offset: u64, kind: u64) -> i64 {
    match field(&named_product(name).unwrap(), 0, 0, offset, kind) {
        Ok(FieldAnswer::Whole(value)) => value,
        other => panic!("{other:?}"),
    }
}

#[test]
fn every_named_product_is_answered_as_expected() {
    for named in &NAMED_PRODUCTS {
        assert_eq!(answer(&(named.build)(), named.request), named.expected, "{}", named.name);
    }
}

#[test]
fn every_refusal_but_2_has_a_product() {
    for number in (1..=24).filter(|&number| number != 2) {
        let name = format!("refusal-{number}");
        let named = NAMED_PRODUCTS.iter().find(|named| named.name == name).expect(&name);
        assert!(matches!(named.expected, Verdict::Refused { number: given, .. } if given == number));
    }
}

#[test]
fn cases_a_to_g_have_the_lengths_of_document_01() {
    for (name, length) in [
        ("case-a", 1247),
        ("case-b", 1542),
        ("case-c", 1542),
        ("case-d", 1542),
        ("case-e", 1543),
        ("case-f", 1827),
        ("case-g", 1827),
        ("case-j", 0),
    ] {
        assert_eq!(named_product(name).unwrap().len(), length, "{name}");
    }
}

#[test]
fn sph_lines_of_named_products_are_as_long_as_they_may_be() {
    for kind in ["49152", "shortest-blank-lines", "long-lines", "long-quoted-lines", "short-lines"] {
        let values = header_values(&named_product(&format!("sph-{kind}")).unwrap()).unwrap();
        assert_eq!((values.tot_size, values.sph_size, values.num_dsd), (50_399, 49_152, 0), "{kind}");
    }
}

#[test]
fn cases_h_and_i_read_signs() {
    assert_eq!(whole("case-h", 0, 5), -1);
    assert_eq!(whole("case-h", 0, 6), 4_294_967_295);
    assert_eq!(whole("case-i", 0, 1), -1);
    assert_eq!(whole("case-i", 0, 2), 255);
}

#[test]
fn cases_k_and_l_stand_on_each_side_of_the_limit() {
    let answered = point(&named_product("case-k").unwrap(), 0, 0, 0, 4, 8).unwrap();
    assert_eq!((answered.latitude, answered.longitude, answered.altitude), (90.0, 0.0, 0.0));
    assert!(answered.longitude.is_sign_positive());
    let refused = point(&named_product("case-l").unwrap(), 0, 0, 0, 4, 8);
    assert_eq!(refused, Err(refusal(21, 0, 0)));
}

#[test]
fn catalogue_products_have_the_sizes_of_the_sources() {
    let sizes = [6913, 2893, 44_613, 44_858, 92_313, 2495, 2524 + 5 * 70, 28_813];
    for (name, size) in CATALOGUE_NAMES.iter().zip(sizes) {
        let product = named_product(name).unwrap();
        assert_eq!((product.len(), judge(&product)), (size, Verdict::Accepted), "{name}");
        assert!(sph_part(&product).starts_with(b"SPH_DESCRIPTOR=\""));
    }
}

#[test]
fn a_gomos_point_is_read_from_three_far_offsets() {
    let product = named_product("GOM_TRA_1P").unwrap();
    let answered = point(&product, 8, 1, 161 + 4 * 149, 761 + 4 * 149, 1361 + 4 * 149).unwrap();
    let latitude = f64::from(45_000_000 - 12_345 * 149) / 1e6;
    let longitude = f64::from(-12_000_000 + 54_321 * 149) / 1e6;
    let altitude = f64::from(12_000_001 - 70_007 * 149) / 100.0;
    assert_eq!(
        (answered.latitude, answered.longitude, answered.altitude),
        (latitude, longitude, altitude)
    );
}

#[test]
fn a_sciamachy_product_has_records_of_unequal_lengths() {
    let product = named_product("SCI_NL__1P").unwrap();
    let listed = directory(&product).unwrap();
    assert_eq!((listed.entry_count, listed.types[40], listed.record_sizes[26]), (41, 32, -1));
    let lengths: Vec<usize> = (0..6).map(|record| record_part(&product, 26, record).len()).collect();
    assert_eq!(lengths, [40, 40, 40, 25, 25, 0]);
    assert_eq!(record_place(&product, 26, 5), Err(refusal(18, 0, 26)));
    let place = listed.offsets[26] + 120;
    assert_eq!(record_place(&product, 26, 3), Ok(Part { place, length: 25 }));
}

#[test]
fn totals_past_64_bits_do_not_wrap() {
    let product = wrapping_states();
    assert_eq!(product.len(), 90_904_405);
    assert_eq!(judge(&product), refused(16, 1807, 0));
    assert_eq!(record_place(&product, 0, 0), Err(refusal(16, 1807, 0)));
    assert_eq!(record_place(&product, 999, 0), Err(refusal(16, 1807, 0)));
}

#[test]
fn the_longest_products_are_judged_without_reading_them() {
    let mut product = vec![0; 2_147_483_648];
    assert_eq!(judge(&product), refused(2, 0, NONE));
    product.truncate(2_147_483_647);
    assert_eq!(judge(&product), refused(3, 0, NONE));
    let mut description = twin::builder::Description::new(vec![crate::common::demo()]);
    description.set_number("TOT_SIZE", 2_147_483_647);
    let size = 2_147_483_647 - 1527;
    description.entries[0].size = crate::common::number(size);
    description.entries[0].count = crate::common::number(size);
    description.entries[0].record_size = crate::common::number(1);
    product[..1542].copy_from_slice(&description.build());
    assert_eq!(judge(&product), Verdict::Accepted);
    let place = 2_147_483_646;
    assert_eq!(record_place(&product, 0, size as u64 - 1), Ok(Part { place, length: 1 }));
}
