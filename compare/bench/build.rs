//! Links libjournal_bench.a from target/staticlib of the repository.
use std::env;
use std::path::PathBuf;
use std::process::exit;

fn main() {
    let package = PathBuf::from(env::var_os("CARGO_MANIFEST_DIR").unwrap_or_default());
    let folder = package.ancestors().nth(2).map(PathBuf::from).unwrap_or_default().join("target/staticlib");
    let library = folder.join("libjournal_bench.a");
    println!("cargo:rerun-if-changed={}", library.display());
    if !library.is_file() {
        eprintln!("{} is not there: run bindings/library.sh journal_bench", library.display());
        exit(1);
    }
    println!("cargo:rustc-link-search=native={}", folder.display());
    println!("cargo:rustc-link-lib=static=journal_bench");
}
