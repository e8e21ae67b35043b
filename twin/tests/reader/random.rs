//! Random products: good ones are accepted and their parts join to the product, damaged ones reach every
//! refusal, and every call agrees with the verdict.

use crate::common::{refusal, NONE};
use twin::builder::Generator;
use twin::settings::seed;
use twin::{
    directory, field, header_values, judge, listing, point, record_part, record_place, sph_part,
    sph_place, Refusal, Verdict,
};

/// The headers and the records in file order.
fn joined(product: &[u8]) -> Vec<u8> {
    let listed = directory(product).unwrap();
    let headers_end = 1247 + header_values(product).unwrap().sph_size as usize;
    let descriptors = headers_end - 280 * listed.entry_count;
    let mut bytes = product[..1247].to_vec();
    bytes.extend_from_slice(sph_part(product));
    bytes.extend_from_slice(&product[descriptors..headers_end]);
    let mut order: Vec<usize> =
        (0..listed.entry_count).filter(|&entry| listed.sizes[entry] > 0).collect();
    order.sort_by_key(|&entry| listed.offsets[entry]);
    for entry in order {
        for record in 0..listed.counts[entry] {
            let part = record_place(product, entry, record).unwrap();
            let bytes_of_record = record_part(product, entry, record);
            assert_eq!(bytes_of_record.len() as u64, part.length);
            assert_eq!(bytes_of_record.as_ptr(), product[part.place as usize..].as_ptr());
            assert!(part.length > 0);
            bytes.extend_from_slice(bytes_of_record);
        }
    }
    bytes
}

#[test]
fn good_products_are_accepted_and_join_to_themselves() {
    let mut generator = Generator::new(seed());
    let (mut small, mut variable, mut with_empty_set) = (0, 0, 0);
    let (mut of_128_entries, mut of_longest_sph) = (0, 0);
    for _ in 0..20_000 {
        let product = generator.good();
        assert_eq!(judge(&product), Verdict::Accepted, "{}", product.escape_ascii());
        assert_eq!(joined(&product), product);
        small += usize::from(product.len() < 5000);
        let listed = directory(&product).unwrap();
        let is_variable = |entry: usize| listed.sizes[entry] > 0 && listed.record_sizes[entry] == -1;
        variable += usize::from((0..128).any(is_variable));
        let is_empty = |entry: usize| b"MAG".contains(&listed.types[entry]) && listed.sizes[entry] == 0;
        with_empty_set += usize::from((0..128).any(is_empty));
        of_128_entries += usize::from(listed.entry_count == 128);
        of_longest_sph += usize::from(header_values(&product).unwrap().sph_size == 49_152);
    }
    assert!(small > 15_000 && variable > 3000, "{small} {variable}");
    assert!(with_empty_set > 4000, "{with_empty_set}");
    assert!(of_128_entries > 20 && of_longest_sph > 20, "{of_128_entries} {of_longest_sph}");
}

/// Products made to a length are accepted, and few or many entries and short or long lines are among them.
#[test]
fn good_products_have_the_length_asked() {
    let mut generator = Generator::new(seed());
    let (mut most_entries, mut longest_sph) = (0, 0);
    for index in 0..300 {
        let length = [65_535, 65_536, 65_537, 70_001, 20_000][index % 5];
        let product = generator.of_sort(&format!("good-{length}")).unwrap();
        assert_eq!(product.len(), length);
        assert_eq!(judge(&product), Verdict::Accepted, "{}", product.escape_ascii());
        most_entries = directory(&product).unwrap().entry_count.max(most_entries);
        longest_sph = header_values(&product).unwrap().sph_size.max(longest_sph);
    }
    assert_eq!((most_entries, longest_sph), (128, 49_152));
    assert_eq!(generator.of_sort("good-1527"), None);
}

/// Records of angles are there, so that points are answered and not only refused.
#[test]
fn points_of_good_products_are_answered() {
    let mut generator = Generator::new(seed());
    let (mut answered, mut refused_by_21) = (0, 0);
    for _ in 0..5000 {
        let product = generator.good();
        for entry in 0..directory(&product).unwrap().entry_count {
            match point(&product, entry, 0, 0, 4, 8) {
                Ok(_) => answered += 1,
                Err(Refusal { number, .. }) => refused_by_21 += usize::from(number == 21),
            }
        }
    }
    assert!(answered > 2000 && refused_by_21 > 1000, "{answered} {refused_by_21}");
}

#[test]
fn damaged_products_reach_every_refusal() {
    let mut generator = Generator::new(seed());
    let mut seen = [0; 17];
    for _ in 0..40_000 {
        match judge(&generator.damaged()) {
            Verdict::Accepted => seen[0] += 1,
            Verdict::Refused { number, .. } => seen[usize::from(number)] += 1,
        }
    }
    println!("accepted, then refusals 1 to 16: {seen:?}");
    for number in (0..=16).filter(|&number| number != 2) {
        assert!(seen[number] > 100, "{number} {seen:?}");
    }
}

/// Every call on a refused product gives its refusal, and no part.
fn check_refused(product: &[u8], own: Refusal) {
    assert_eq!(directory(product).err(), Some(own));
    assert_eq!(header_values(product).err(), Some(own));
    assert_eq!(sph_place(product), Err(own));
    assert_eq!(record_place(product, 500, 0), Err(own));
    assert_eq!(field(product, 0, 0, 0, 77).err(), Some(own));
    assert_eq!(point(product, 0, 9, 0, 0, 0), Err(own));
    assert!(sph_part(product).is_empty() && record_part(product, 0, 0).is_empty());
    let line = format!("refused {} {} {}\n", own.number, own.place, own.entry);
    assert_eq!(listing(product), line.as_bytes());
}

/// Every entry of an accepted product has its records and no more.
fn check_accepted(product: &[u8]) {
    let listed = directory(product).unwrap();
    for entry in 0..listed.entry_count {
        let past = record_place(product, entry, listed.counts[entry]);
        assert_eq!(past, Err(refusal(18, 0, entry)));
        for record in 0..listed.counts[entry].min(3) {
            let length = record_part(product, entry, record).len() as u64;
            assert_eq!(
                field(product, entry, record, length, 2).err(),
                Some(refusal(20, length, entry))
            );
            assert!(field(product, entry, record, length - 1, 2).is_ok());
        }
    }
    assert_eq!(record_place(product, listed.entry_count, 0), Err(refusal(17, 0, NONE)));
    assert_eq!(joined(product), product);
    let lines = listing(product);
    assert_eq!(lines.iter().filter(|&&byte| byte == b'\n').count(), listed.entry_count + 2);
    assert!(lines.ends_with(b"accepted\n"));
}

#[test]
fn every_call_agrees_with_the_verdict() {
    let mut generator = Generator::new(seed() ^ 1);
    for _ in 0..15_000 {
        let product = generator.any();
        match judge(&product) {
            Verdict::Accepted => check_accepted(&product),
            Verdict::Refused { number, place, entry } => {
                check_refused(&product, Refusal { number, place, entry });
            }
        }
    }
}

#[test]
fn a_seed_gives_its_products_again() {
    let products = |seed| {
        let mut generator = Generator::new(seed);
        (0..20).map(|_| generator.any()).collect::<Vec<_>>()
    };
    assert_eq!(products(7), products(7));
    assert_ne!(products(7), products(8));
    assert_eq!(Generator::at(1, 2).any(), Generator::at(1, 2).any());
}

#[test]
fn bytes_after_the_headers_and_states_change_no_verdict() {
    let mut generator = Generator::new(seed() ^ 2);
    for _ in 0..5000 {
        let mut product = generator.good();
        let listed = directory(&product).unwrap();
        for entry in
            (0..listed.entry_count).filter(|&entry| !listed.names[entry].starts_with(b"STATES"))
        {
            let start = listed.offsets[entry] as usize;
            for index in 0..listed.sizes[entry] as usize {
                product[start + index] = generator.next_number() as u8;
            }
        }
        assert_eq!(directory(&product), Ok(listed));
    }
}
