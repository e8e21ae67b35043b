//! What the environment sets for the random tests: their seed, and how many products they draw.

use std::env;
use std::ffi::OsString;
use std::io::{self, Write};
use std::process;
use std::sync::OnceLock;
use std::time::{SystemTime, UNIX_EPOCH};

use crate::builder::Generator;

/// The seed of every run that is not given another.
const FIXED_SEED: u64 = 20_070_627;

/// The seed: TWIN_SEED, or a fixed one; `random` draws one, the same for all tests of a program.
///
/// # Panics
/// Where TWIN_SEED is neither a whole number nor `random`.
pub fn seed() -> u64 {
    let set = env::var_os("TWIN_SEED");
    if set.as_deref().is_some_and(|text| text == "random") {
        return drawn_seed();
    }
    let seed = read("TWIN_SEED", set, FIXED_SEED).unwrap_or_else(|error| panic!("{error}, or random"));
    println!("seed {seed} (set TWIN_SEED for another)");
    seed
}

/// A whole number that the environment sets, or its default.
///
/// # Panics
/// Where what is set is no whole number.
pub fn number(name: &str, default: u64) -> u64 {
    read(name, env::var_os(name), default).unwrap_or_else(|error| panic!("{error}"))
}

/// The number that a setting says, its default where nothing is set, or what is wrong with it.
pub fn read(name: &str, set: Option<OsString>, default: u64) -> Result<u64, String> {
    let Some(text) = set else { return Ok(default) };
    let number = text.to_str().and_then(|text| text.parse().ok());
    number.ok_or_else(|| format!("{name} is {text:?}: it takes a whole number below 2^64"))
}

/// A seed out of the time and the process number. It is said past what a test keeps of its output for itself,
/// so that it can be given again.
fn drawn_seed() -> u64 {
    static DRAWN: OnceLock<u64> = OnceLock::new();
    *DRAWN.get_or_init(|| {
        let time =
            SystemTime::now().duration_since(UNIX_EPOCH).map_or(0, |time| time.as_nanos() as u64);
        let seed = Generator::at(time, u64::from(process::id())).next_number();
        let said = writeln!(io::stderr(), "seed {seed}, drawn (TWIN_SEED={seed} gives it again)");
        said.expect("the seed is not said");
        seed
    })
}
