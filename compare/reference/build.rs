//! Copies the three files of the contract beside their stand-ins, after a test that no byte of them has changed.
use std::path::{Path, PathBuf};
use std::{env, fs};

const FILES: [(&str, &str); 3] = [
    ("lib.rs", "389277219ebd4f0b3398dfbae0e78c0735af35c70f60bb0b20f12537239b6e2c"),
    ("storage.rs", "76304f25c7cdc36a0648a11c24ffcf6076f9ee805741c56664412d4657109f93"),
    ("events.rs", "ab9b363c60b1f98ebe08e9f6ec03b63e0d2914ffffc3556e2691f4e6791392f0"),
];

fn main() {
    println!("cargo:rerun-if-env-changed=VAULT_RUST_SRC");
    println!("cargo:rerun-if-changed=stand_in");
    let root = PathBuf::from(env::var("CARGO_MANIFEST_DIR").expect("a manifest"));
    let out = PathBuf::from(env::var("OUT_DIR").expect("a folder to write to"));
    let source = source(&root);
    for (name, digest) in FILES {
        let path = source.join(name);
        println!("cargo:rerun-if-changed={}", path.display());
        let bytes = fs::read(&path).unwrap_or_else(|e| {
            stop(&format!("the contract's Rust is not here: {}: {e}; VAULT_RUST_SRC names its folder", path.display()))
        });
        if sha256::hex(&bytes) != digest {
            stop(&format!("{} is not the contract's file at commit 560a68810f", path.display()));
        }
        fs::write(out.join(name), bytes).expect("a copy");
    }
    for name in ["errors.rs", "ttl.rs"] {
        fs::copy(root.join("stand_in").join(name), out.join(name)).expect("a copy");
    }
    // The contract's macro names `$crate::storage`, so storage.rs also stands in the crate root.
    let modules = format!(
        "#[path = {:?}]\n#[allow(unused, clippy::all)]\nmod contract;\n#[path = {:?}]\n#[allow(unused, clippy::all)]\npub mod storage;\n",
        out.join("lib.rs"),
        out.join("storage.rs")
    );
    fs::write(out.join("modules.rs"), modules).expect("the modules");
}

/// The folder of the three files: VAULT_RUST_SRC, or beside the repository.
fn source(root: &Path) -> PathBuf {
    match env::var_os("VAULT_RUST_SRC") {
        Some(path) => PathBuf::from(path),
        None => root.join("../../../shared/docs/src/contracts/token-vault/src"),
    }
}

/// Ends the build with one line.
fn stop(line: &str) -> ! {
    eprintln!("{line}");
    std::process::exit(1)
}
