//! Links the proved library, `libambrothel.a`, and tells the benchmark what the twin is compiled with.

use std::env;
use std::path::PathBuf;
use std::process::Command;

fn main() {
    link_library();
    tell_compiler();
}

/// The library stands in the repository's `target/staticlib`, or in the folder that AMBROTHEL_LIBRARY names.
fn link_library() {
    println!("cargo::rerun-if-env-changed=AMBROTHEL_LIBRARY");
    let package = PathBuf::from(env::var_os("CARGO_MANIFEST_DIR").unwrap_or_default());
    let folder = match env::var_os("AMBROTHEL_LIBRARY") {
        Some(folder) => package.join(folder),
        None => package.join("../../target/staticlib"),
    };
    let library = folder.join("libambrothel.a");
    println!("cargo::rerun-if-changed={}", library.display());
    if !library.is_file() {
        println!(
            "cargo::error=No {}: run `.ci/library` at the root of the repository first, or name the folder of \
             libambrothel.a in AMBROTHEL_LIBRARY.",
            library.display()
        );
        return;
    }
    println!("cargo::rustc-link-search=native={}", folder.display());
    println!("cargo::rustc-link-lib=static=ambrothel");
}

fn tell_compiler() {
    let compiler = env::var_os("RUSTC").unwrap_or("rustc".into());
    let version = Command::new(compiler).arg("--version").output();
    let version = version.map_or(Vec::new(), |output| output.stdout);
    println!("cargo::rustc-env=COMPARE_COMPILER={}", String::from_utf8_lossy(&version).trim());
    let told = |name: &str| env::var(name).unwrap_or_default().replace('\x1f', " ");
    println!("cargo::rustc-env=COMPARE_PROFILE={}", told("PROFILE"));
    println!("cargo::rustc-env=COMPARE_OPTIMIZED={}", told("OPT_LEVEL"));
    println!("cargo::rustc-env=COMPARE_FLAGS={}", told("CARGO_ENCODED_RUSTFLAGS"));
    println!("cargo::rustc-env=COMPARE_FEATURES={}", told("CARGO_CFG_TARGET_FEATURE"));
}
