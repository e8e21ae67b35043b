//! The program that lists a product, which `rt run` in crates/listing builds, beside the twin's listing: random products,
//! those of the lengths around the longest that is listed, those of the longest listing, and the named ones.

use std::io::{ErrorKind, Write};
use std::path::{Path, PathBuf};
use std::process::{Command, Output, Stdio};

use compare::{report_of_product, shared_out};
use twin::builder::{named_product, Generator, CATALOGUE_NAMES, NAMED_PRODUCTS};
use twin::settings::{number, seed};
use twin::{listing, LONGEST_LISTED};

/// Sorts of random products that are listed once in twenty times each; otherwise it is any product.
const SORTS: [&str; 5] = ["good-65536", "damaged-65536", "good-65535", "good-65537", "longest-listing"];
const TURN: u64 = 20;

/// The longest listing: `size`, 128 lines of a name of 28 bytes and numbers of 19, 1, 1, 10 and 3 digits, `accepted`.
const LONGEST_LISTING: usize = 11 + (128 * 77 + 10 + 2 * 90 + 3 * 28) + 9;

/// The status of a process that was made but could not become the program.
const NOT_STARTED: i32 = 127;

/// How the program is run: AMBROTHEL_LISTING names it, AMBROTHEL_RUNNER is a command to run it with.
struct Program {
    path: PathBuf,
    runner: Vec<String>,
}

impl Program {
    fn from_environment() -> Program {
        let package = Path::new(env!("CARGO_MANIFEST_DIR"));
        let named = std::env::var_os("AMBROTHEL_LISTING");
        let path = package.join(named.unwrap_or("../../crates/listing/out/listing".into()));
        assert!(
            path.is_file(),
            "No {}: run `rt run` in crates/listing of the repository first, or name the program in AMBROTHEL_LISTING.",
            path.display()
        );
        let runner = std::env::var_os("AMBROTHEL_RUNNER").unwrap_or_default();
        let runner = runner.to_str().expect("AMBROTHEL_RUNNER is no text");
        Program { path, runner: runner.split_whitespace().map(String::from).collect() }
    }

    fn command(&self) -> Command {
        let Some((runner, arguments)) = self.runner.split_first() else {
            return Command::new(&self.path);
        };
        let mut command = Command::new(runner);
        command.args(arguments).arg(&self.path);
        command
    }

    /// Runs it on an input, which comes in two pieces; where it ends before it has read them, what it wrote tells.
    fn run(&self, input: &[u8]) -> std::io::Result<Output> {
        let mut command = self.command();
        command.stdin(Stdio::piped()).stdout(Stdio::piped()).stderr(Stdio::piped());
        let mut child = command.spawn()?;
        let mut pipe = child.stdin.take().expect("a pipe was asked for");
        let (first, rest) = input.split_at(input.len() / 3);
        match pipe.write_all(first).and_then(|()| pipe.write_all(rest)) {
            Err(error) if error.kind() == ErrorKind::BrokenPipe => {}
            written => written?,
        }
        drop(pipe);
        child.wait_with_output()
    }

    /// Compares what it writes with the twin's listing; answers that.
    fn compare(&self, origin: &str, product: &[u8]) -> Vec<u8> {
        let expected = listing(product);
        let run = match self.run(product) {
            Ok(run) if run.status.code() != Some(NOT_STARTED) => run,
            failed => panic!(
                "{} does not start ({failed:?}): it is for x86-64 Linux, and elsewhere AMBROTHEL_RUNNER names a \
                 command that runs it",
                self.path.display()
            ),
        };
        if !run.status.success() || !run.stderr.is_empty() || run.stdout != expected {
            panic!("{}", report(origin, product, &run, &expected));
        }
        expected
    }
}

fn report(origin: &str, product: &[u8], run: &Output, expected: &[u8]) -> String {
    let mut text = String::from("the program does not list as the twin\n");
    text.push_str(&report_of_product(origin, product));
    text.push_str(&format!("  ended:    {}\n", run.status));
    for (said, bytes) in [("program:", &run.stdout[..]), ("errors:", &run.stderr), ("twin:", expected)]
    {
        text.push_str(&format!("  {said:9} {}\n", bytes.escape_ascii()));
    }
    text
}

/// How many of each sort were met.
#[derive(Debug, Default)]
struct Listed {
    accepted: u64,
    accepted_of_65536: u64,
    refused_of_65536: u64,
    accepted_of_65535: u64,
    longer: u64,
    of_longest_listing: u64,
}

impl Listed {
    fn count(&mut self, length: usize, listing: &[u8]) {
        let accepted = listing.ends_with(b"accepted\n");
        self.accepted += u64::from(accepted);
        self.accepted_of_65536 += u64::from(accepted && length == LONGEST_LISTED);
        self.refused_of_65536 += u64::from(!accepted && length == LONGEST_LISTED);
        self.accepted_of_65535 += u64::from(accepted && length == LONGEST_LISTED - 1);
        self.longer += u64::from(length > LONGEST_LISTED);
        self.of_longest_listing += u64::from(listing.len() == LONGEST_LISTING);
        assert!(listing.len() <= LONGEST_LISTING, "{}", listing.escape_ascii());
    }

    fn and(self, other: Listed) -> Listed {
        Listed {
            accepted: self.accepted + other.accepted,
            accepted_of_65536: self.accepted_of_65536 + other.accepted_of_65536,
            refused_of_65536: self.refused_of_65536 + other.refused_of_65536,
            accepted_of_65535: self.accepted_of_65535 + other.accepted_of_65535,
            longer: self.longer + other.longer,
            of_longest_listing: self.of_longest_listing + other.of_longest_listing,
        }
    }
}

/// Lists one share of the random products.
fn list_share(program: &Program, seed: u64, indices: &mut dyn Iterator<Item = u64>) -> Listed {
    let mut listed = Listed::default();
    for index in indices {
        let sort = SORTS.get((index % TURN) as usize).unwrap_or(&"any");
        let product = Generator::at(seed, index).of_sort(sort).expect(sort);
        let listing = program.compare(&format!("twin-make {sort}:{seed}:{index}"), &product);
        listed.count(product.len(), &listing);
    }
    listed
}

/// Of each sort one in twenty is drawn; whether a damaged product is refused and keeps its length is left to chance.
fn assert_listed(listed: &Listed, products: u64) {
    let floor = products / (2 * TURN);
    assert!(listed.accepted >= products / 4, "{listed:?}");
    assert!(listed.accepted_of_65536 >= floor, "{listed:?}");
    assert!(listed.refused_of_65536 >= floor / 3, "{listed:?}");
    assert!(listed.accepted_of_65535 >= floor, "{listed:?}");
    assert!(listed.longer >= floor, "{listed:?}");
    assert!(listed.of_longest_listing >= floor, "{listed:?}");
}

#[test]
fn random_products_are_listed_alike() {
    let (seed, products) = (seed(), number("TWIN_LISTINGS", 2000));
    let program = Program::from_environment();
    let shares = shared_out(products, |indices| list_share(&program, seed, indices));
    let listed = shares.into_iter().fold(Listed::default(), Listed::and);
    println!("{products} products; {listed:?}");
    assert_listed(&listed, products);
}

#[test]
fn named_products_are_listed_alike() {
    let program = Program::from_environment();
    let names = NAMED_PRODUCTS.iter().map(|named| named.name).chain(CATALOGUE_NAMES);
    for name in names {
        program.compare(name, &named_product(name).expect(name));
    }
    program.compare("the empty input", &[]);
}
