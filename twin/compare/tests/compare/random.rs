//! Random products, good and damaged: every public call on each, every record of the accepted ones.

use compare::{shared_out, Comparer, Met};
use twin::builder::Generator;
use twin::settings::{number, seed};

/// Compares one share of the products.
fn compare_share(seed: u64, indices: &mut dyn Iterator<Item = u64>) -> (Met, usize) {
    let mut comparer = Comparer::default();
    for index in indices {
        let mut generator = Generator::at(seed, index);
        let product = generator.any();
        comparer.set_origin(format_args!("twin-make any:{seed}:{index}"));
        comparer.compare_most(&product, &mut generator);
    }
    (comparer.met().clone(), comparer.asked())
}

/// So many products and more have every shape among them; fewer may miss one by chance.
const ENOUGH: u64 = 20_000;

/// The floors lie far above none, and well below what is seen in products of any seed.
fn assert_met(met: &Met, products: u64) {
    let seen = format!("of {products} products {met:?}");
    for number in (0..=16).filter(|&number| number != 2) {
        assert!(met.verdicts[number] >= products / 300, "verdict {number}: {seen}");
    }
    for number in 17..=21 {
        assert!(met.answers[number] >= products / 10, "refusal {number}: {seen}");
    }
    assert!(met.answers[22] >= products / 10, "refusal 22: {seen}");
    assert!(met.points_answered >= products / 20, "points answered: {seen}");
    assert!(met.empty_sets_left_out >= products / 100, "empty sets left out: {seen}");
    assert!(met.empty_sets_counted >= products / 100, "empty sets counted: {seen}");
    assert!(met.out_of_entry_order >= products / 50, "sets out of entry order: {seen}");
    if products >= ENOUGH {
        assert_eq!(met.most_entries, 128, "the most entries: {seen}");
        assert_eq!(met.most_entries_out_of_order, 128, "the most out of entry order: {seen}");
        assert!(met.longest_sph >= 40_000, "the longest SPH: {seen}");
    }
}

#[test]
fn random_products_are_answered_alike() {
    let (seed, products) = (seed(), number("TWIN_PRODUCTS", 300_000));
    let shares = shared_out(products, |indices| compare_share(seed, indices));
    let asked: usize = shares.iter().map(|share| share.1).sum();
    let met = shares.iter().fold(Met::default(), |met, share| met.and(&share.0));
    println!("{products} products, {asked} calls; {met:?}");
    assert_met(&met, products);
}
