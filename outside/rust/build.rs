//! Links the static library of the verified crates, which this package never makes itself.

use std::env;
use std::path::PathBuf;
use std::process::exit;

/// Names another folder that holds the library.
const ELSEWHERE: &str = "BANKPLOVER_LIBRARY";

fn main() {
    println!("cargo:rerun-if-env-changed={ELSEWHERE}");
    let folder = env::var_os(ELSEWHERE).map_or_else(own_folder, PathBuf::from);
    let archive = folder.join("libbankplover.a");
    println!("cargo:rerun-if-changed={}", archive.display());
    if !archive.is_file() {
        eprintln!("{} is missing.", archive.display());
        eprintln!("Run `outside/library` at the repository's root first.");
        exit(1);
    }
    let elsewhere = env::var_os(ELSEWHERE).is_some();
    if !elsewhere && env::var("CARGO_CFG_TARGET_ARCH").as_deref() != Ok("x86_64") {
        println!("cargo:warning=the library has code for x86-64; source outside/machine first");
    }
    println!("cargo:rustc-link-search=native={}", folder.display());
    println!("cargo:rustc-link-lib=static=bankplover");
}

fn own_folder() -> PathBuf {
    let package = PathBuf::from(env::var_os("CARGO_MANIFEST_DIR").expect("cargo sets it"));
    package.join("../../target/staticlib")
}
