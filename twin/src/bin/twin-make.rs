//! Writes a product to standard output: a named one, or the one at an index of a seed's random products.
//! Without a name it writes the names.

use std::process::ExitCode;

use twin::builder::{named_product, Generator, CATALOGUE_NAMES, NAMED_PRODUCTS};
use twin::output;

/// The product of `SORT:SEED:INDEX`; each index has its own seed.
fn random_product(name: &str) -> Option<Vec<u8>> {
    let mut parts = name.split(':');
    let sort = parts.next()?;
    let mut generator = Generator::at(parts.next()?.parse().ok()?, parts.next()?.parse().ok()?);
    generator.of_sort(sort)
}

/// A line for each name.
fn names() -> Vec<u8> {
    let named = NAMED_PRODUCTS.iter().map(|named| named.name);
    let names = named.chain(CATALOGUE_NAMES).chain(["wrapping-states"]);
    names.flat_map(|name| [name, "\n"].concat().into_bytes()).collect()
}

fn make(name: Option<String>) -> Result<(), String> {
    let Some(name) = name else { return output::write(&names()) };
    let product = named_product(&name).or_else(|| random_product(&name));
    output::write(&product.ok_or(format!("no product is named {name}"))?)
}

fn main() -> ExitCode {
    output::end("twin-make", make(std::env::args().nth(1)))
}
