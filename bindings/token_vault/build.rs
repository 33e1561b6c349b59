//! Links libtoken_vault_abi.a from the folder in VAULT_LIBRARY, which is absolute or relative to the repository's root,
//! or else from target/staticlib of the repository.
use std::env;
use std::path::PathBuf;
use std::process::exit;

fn main() {
    println!("cargo:rerun-if-env-changed=VAULT_LIBRARY");
    let folder = folder();
    let library = folder.join("libtoken_vault_abi.a");
    println!("cargo:rerun-if-changed={}", library.display());
    if !library.is_file() {
        eprintln!("{} is not there: run bindings/library.sh, or name its folder in VAULT_LIBRARY", library.display());
        exit(1);
    }
    println!("cargo:rustc-link-search=native={}", folder.display());
    println!("cargo:rustc-link-lib=static=token_vault_abi");
}

fn folder() -> PathBuf {
    let package = PathBuf::from(env::var_os("CARGO_MANIFEST_DIR").unwrap_or_default());
    let root = package.ancestors().nth(2).map(PathBuf::from).unwrap_or_default();
    let named = env::var_os("VAULT_LIBRARY").filter(|name| !name.is_empty());
    // An absolute path replaces the root.
    root.join(named.unwrap_or_else(|| "target/staticlib".into()))
}
