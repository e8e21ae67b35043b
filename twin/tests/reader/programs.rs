//! The programs: what they write, and that they say what failed where they cannot read or write.

use std::fs::File;
use std::process::{Command, Output, Stdio};

use twin::builder::{named_product, Generator};

const LIST: &str = env!("CARGO_BIN_EXE_twin-list");
const MAKE: &str = env!("CARGO_BIN_EXE_twin-make");
const VECTORS: &str = env!("CARGO_BIN_EXE_twin-vectors");

fn run(program: &str, name: &str, input: Stdio, output: Stdio) -> Output {
    let names = Some(name).filter(|name| !name.is_empty());
    Command::new(program).args(names).stdin(input).stdout(output).output().expect(program)
}

/// What a program says where it ends with status 1.
fn complaint(run: Output) -> String {
    assert_eq!(run.status.code(), Some(1), "{run:?}");
    String::from_utf8(run.stderr).unwrap()
}

/// A file that every write to fails.
fn full() -> Stdio {
    File::options().write(true).open("/dev/full").expect("/dev/full").into()
}

#[test]
fn a_write_that_fails_is_said() {
    for (program, name) in [
        (LIST, ""),
        (MAKE, "case-b"),
        (MAKE, ""),
        (MAKE, "good:1:1"),
        (VECTORS, "case-a"),
        (VECTORS, ""),
    ] {
        let complaint = complaint(run(program, name, Stdio::null(), full()));
        assert!(complaint.contains(": standard output cannot be written: "), "{complaint}");
    }
}

/// A folder can be opened but not read.
#[test]
fn a_read_that_fails_is_said() {
    let folder = File::open(env!("CARGO_MANIFEST_DIR")).unwrap();
    let run = run(LIST, "", folder.into(), Stdio::piped());
    assert!(run.stdout.is_empty());
    let complaint = complaint(run);
    assert!(complaint.starts_with("twin-list: standard input cannot be read: "), "{complaint}");
}

#[test]
fn a_name_of_no_product_is_said() {
    for name in ["case-z", "good:1", "bad:1:1", "good-x:1:1", "good-1246:1:1", "any-65536:1:1"] {
        let complaint = complaint(run(MAKE, name, Stdio::null(), Stdio::null()));
        assert_eq!(complaint, format!("twin-make: no product is named {name}\n"));
    }
    let complaint = complaint(run(VECTORS, "case-z", Stdio::null(), Stdio::null()));
    assert_eq!(complaint, "twin-vectors: no product is named case-z\n");
}

#[test]
fn products_are_written_whole() {
    let made = |name| run(MAKE, name, Stdio::null(), Stdio::piped());
    let case_b = made("case-b");
    assert!(case_b.status.success() && case_b.stderr.is_empty());
    assert_eq!(Some(case_b.stdout), named_product("case-b"));
    assert!(made("any:3:4").stdout == Generator::at(3, 4).any());
    assert_eq!(made("good-65536:3:4").stdout.len(), 65_536);
    let names = String::from_utf8(made("").stdout).unwrap();
    assert!(names.lines().all(|name| name == "wrapping-states" || named_product(name).is_some()));
    assert_eq!(names.lines().count(), 80);
}
