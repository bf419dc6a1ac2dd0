//! Compiles the byte loop in C that `bench` measures the engine against.

use std::env;
use std::path::Path;
use std::process::Command;

const SOURCE: &str = "src/same_bytes.c";

fn main() {
    println!("cargo:rerun-if-changed={SOURCE}");
    let out = env::var("OUT_DIR").expect("cargo sets OUT_DIR");
    let object = Path::new(&out).join("same_bytes.o");
    let archive = Path::new(&out).join("libsame_bytes.a");
    run(Command::new("cc")
        .args(["-O2", "-c", SOURCE, "-o"])
        .arg(&object));
    run(Command::new("ar").arg("crs").args([&archive, &object]));
    println!("cargo:rustc-link-search=native={out}");
    println!("cargo:rustc-link-lib=static=same_bytes");
}

fn run(command: &mut Command) {
    let status = command.status().expect("cc and ar are installed");
    assert!(status.success(), "{command:?}");
}
