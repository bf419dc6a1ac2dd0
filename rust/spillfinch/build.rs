//! Links the static library `spillfinch`.

use std::env;
use std::path::Path;

const DEFAULT_DIRECTORY: &str = "../../target/staticlib";

fn main() {
    println!("cargo:rerun-if-changed=build.rs");
    println!("cargo:rerun-if-env-changed=SPILLFINCH_LIB_DIR");
    let package = env::var("CARGO_MANIFEST_DIR").expect("cargo sets CARGO_MANIFEST_DIR");
    let directory =
        env::var("SPILLFINCH_LIB_DIR").unwrap_or_else(|_| String::from(DEFAULT_DIRECTORY));
    let directory = Path::new(&package).join(directory);
    println!("cargo:rerun-if-changed={}", directory.display());
    println!("cargo:rustc-link-search=native={}", directory.display());
    println!("cargo:rustc-link-lib=static=spillfinch");
}
