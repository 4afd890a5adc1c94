//! Links the proved library, and takes the words of the refusals from the C header, where they stand once.
//!
//! Header and library lie in the repository that this crate is part of (`./build yeqontur` makes the library), or
//! under the prefix that it was installed to (`./install PREFIX` puts this crate into PREFIX/share/yeqontur/rust).

use std::path::PathBuf;
use std::{env, fs};

/// Header and library, from this folder, in the repository and where they are installed.
const PLACES: [(&str, &str); 2] = [
    ("../../include/yeqontur.h", "../../target/staticlib"),
    ("../../../include/yeqontur.h", "../../../lib"),
];

/// What cargo says of this build. It is asked when the script runs: a copy of the crate may have a script that was built
/// elsewhere.
fn told(name: &str) -> String {
    env::var(name).unwrap_or_else(|_| panic!("cargo tells {name}"))
}

/// Where the header and the library's folder are.
fn found() -> (PathBuf, PathBuf) {
    let here = PathBuf::from(told("CARGO_MANIFEST_DIR"));
    let places = PLACES.map(|(header, folder)| (here.join(header), here.join(folder)));
    let place = places.into_iter().find(|(header, _)| header.exists());
    let (header, folder) = place.expect("yeqontur.h is neither in the repository nor installed");
    let library = folder.join("libyeqontur.a");
    assert!(
        library.exists(),
        "{} is missing: run `./build yeqontur` in the repository, or ./install again",
        library.display()
    );
    println!("cargo:rerun-if-changed={}", header.display());
    println!("cargo:rerun-if-changed={}", library.display());
    (header, folder)
}

/// A refusal of the header's list, `EACH(number, NAME, "words", "advice")`, as an element of a list in Rust.
fn element(entry: &str) -> String {
    let parts: Vec<&str> = entry.split('"').collect();
    let [names, words, _, advice, ..] = parts[..] else {
        panic!("not a refusal of the list in yeqontur.h: {entry}");
    };
    let (number, _) = names.split_once(',').expect("a number and a name");
    format!("({number}, {words:?}, {advice:?}),\n")
}

/// The list of the header: each refusal's number, words and advice.
fn refusals(header: &str) -> String {
    let start = "#define YEQONTUR_REFUSALS(EACH)";
    let (_, list) = header.split_once(start).expect("the list of refusals");
    let (list, _) = list.split_once("\n\n").expect("the list's end");
    let entries = list.split("EACH(").skip(1);
    format!("&[\n{}]\n", entries.map(element).collect::<String>())
}

/// The crate declares the header's structs once more, so the two are of one version.
fn ask_version(header: &str) {
    let version = told("CARGO_PKG_VERSION");
    let defined = format!("#define YEQONTUR_VERSION_TEXT \"{version}\"\n");
    assert!(
        header.contains(&defined),
        "the crate is version {version}, and the header beside it is not: install both again"
    );
}

fn main() {
    let (header, folder) = found();
    let header = fs::read_to_string(header).expect("the header can be read");
    ask_version(&header);
    let out = PathBuf::from(told("OUT_DIR"));
    fs::write(out.join("refusals.rs"), refusals(&header)).expect("cargo's folder can be written");
    println!("cargo:rustc-link-search=native={}", folder.display());
    println!("cargo:rustc-link-lib=static=yeqontur");
}
