//! Links the archive under test, `target/staticlib/libowsopel.a` of the
//! repository that holds this folder.

use std::path::Path;
use std::process::exit;

fn main() {
    let folder = Path::new(env!("CARGO_MANIFEST_DIR"));
    let repository = folder.parent().expect("this folder lies in a repository");
    let place = repository.join("target").join("staticlib");
    let archive = place.join("libowsopel.a");
    println!("cargo:rerun-if-changed={}", archive.display());
    if !archive.is_file() {
        eprintln!("{} is missing.", archive.display());
        eprintln!("Run `make lib` in the repository first.");
        exit(1);
    }
    println!("cargo:rustc-link-search=native={}", place.display());
    println!("cargo:rustc-link-lib=static=owsopel");
}
