//! Links the proved archives, and makes Rust constants of the numbers in the headers. The archives'
//! folder is PROVED_LIBS, taken from this package's folder, or else ../target/staticlib.

use std::env::var_os;
use std::fs;
use std::path::{Path, PathBuf};

const LIBRARIES: [&str; 4] = ["export_wall", "export_desk", "export_symmetry", "test_probe"];
const HEADERS: [&str; 2] = ["desk.h", "symmetry.h"];

fn main() {
    let package = PathBuf::from(var_os("CARGO_MANIFEST_DIR").expect("cargo sets it"));
    link(&package);
    let text = |name| {
        let header = package.join("../include").join(name);
        println!("cargo:rerun-if-changed={}", header.display());
        fs::read_to_string(&header).expect("the header is there")
    };
    let made = PathBuf::from(var_os("OUT_DIR").expect("cargo sets it")).join("headers.rs");
    fs::write(made, constants(&HEADERS.map(text).concat())).expect("cargo's folder takes it");
}

fn link(package: &Path) {
    println!("cargo:rerun-if-env-changed=PROVED_LIBS");
    let folder = var_os("PROVED_LIBS").unwrap_or_else(|| "../target/staticlib".into());
    let folder = package.join(folder);
    println!("cargo:rustc-link-search=native={}", folder.display());
    for library in LIBRARIES {
        let archive = folder.join(format!("lib{library}.a"));
        println!("cargo:rerun-if-changed={}", archive.display());
        println!("cargo:rustc-link-lib=static={library}");
        assert!(
            archive.is_file(),
            "{} is missing: tools/run builds it, and so does 'rt lib' in crates/{library}_c",
            archive.display()
        );
    }
}

/// A constant for each number that the headers define, and a list of them all. Sums and products of
/// numbers and names are written in Rust as in C.
fn constants(headers: &str) -> String {
    let numbers: Vec<(&str, &str)> = headers.lines().filter_map(defined).collect();
    let constants: String = numbers
        .iter()
        .map(|(name, number)| {
            format!("#[allow(unused_parens)]\npub const {name}: usize = {number};\n")
        })
        .collect();
    let list: String = numbers.iter().map(|(name, _)| format!("(\"{name}\", {name}), ")).collect();
    format!("{constants}pub const DEFINED: [(&str, usize); {}] = [{list}];\n", numbers.len())
}

/// The name and the number of `#define NAME NUMBER`, without the comment that follows.
fn defined(line: &str) -> Option<(&str, &str)> {
    let (name, rest) = line.strip_prefix("#define ")?.split_once(' ')?;
    let number = rest.split("/*").next()?.trim();
    (!number.is_empty()).then_some((name, number))
}
