//! Writes the text of named products, every public call asked of each; without a name, of the stored ones.

use std::process::ExitCode;

use twin::builder::named_product;
use twin::output;
use twin::vectors::{vectors, VECTOR_PRODUCTS};

fn write_vectors(mut names: Vec<String>) -> Result<(), String> {
    if names.is_empty() {
        names = VECTOR_PRODUCTS.map(String::from).to_vec();
    }
    for name in names {
        let product = named_product(&name).ok_or(format!("no product is named {name}"))?;
        output::write(&vectors(&name, &product))?;
    }
    Ok(())
}

fn main() -> ExitCode {
    output::end("twin-vectors", write_vectors(std::env::args().skip(1).collect()))
}
