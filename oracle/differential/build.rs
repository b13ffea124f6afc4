//! Finds the archive of the proved port. It is linked only with the feature
//! `capi`; without the feature this does nothing. With the feature `fuzz` the
//! fuzzer gets libFuzzer's runtime.
use std::{env, path::PathBuf};

const VARIABLE: &str = "SCI3_CAPI";
const NAME: &str = "libcapi.a";
/// Names the runtime, an archive of clang's; it is written in C++.
const LIBFUZZER: &str = "SCI3_LIBFUZZER";

/// Also the build script of the benchmarks, which link the same archive.
pub fn main() {
    println!("cargo::rerun-if-env-changed={VARIABLE}");
    println!("cargo::rerun-if-changed=build.rs");
    if env::var_os("CARGO_FEATURE_CAPI").is_none() {
        return;
    }
    let here = PathBuf::from(env::var_os("CARGO_MANIFEST_DIR").unwrap_or_default());
    // The repository's root is two above this crate. The variable names the
    // archive itself, absolute or from the root.
    let root = here.join("../..");
    let archive = match env::var_os(VARIABLE) {
        Some(path) => root.join(path),
        None => root.join("target/staticlib").join(NAME),
    };
    println!("cargo::rerun-if-changed={}", archive.display());
    if !archive.is_file() {
        println!(
            "cargo::error=the archive of the port {} is missing; `tools/archive` writes it, and {VARIABLE} names another",
            archive.display()
        );
        return;
    }
    // By its whole path, so that it may have any name and no other library
    // of the name can be taken. Argument of every target of this crate.
    println!("cargo::rustc-link-arg={}", archive.display());
    println!("cargo::rerun-if-env-changed={LIBFUZZER}");
    if env::var_os("CARGO_FEATURE_FUZZ").is_some() {
        match env::var(LIBFUZZER) {
            Ok(runtime) => {
                println!("cargo::rustc-link-arg-bin=fuzz={runtime}");
                println!("cargo::rustc-link-arg-bin=fuzz=-lstdc++");
            }
            Err(_) => println!("cargo::error={LIBFUZZER} must name libFuzzer's runtime"),
        }
    }
}
