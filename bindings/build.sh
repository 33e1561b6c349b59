#!/bin/sh
# Makes the library where it has to be made (library.sh), builds the tool `vault` over it, and prints the path of the program.
set -eu
root=$(cd "$(dirname "$0")/.." && pwd)
. "$root/bindings/paths.sh"
: "${CARGO_TARGET_DIR:=$root/target/bindings}"
export CARGO_TARGET_DIR
"$root/bindings/library.sh"
cargo build --release --offline --quiet --manifest-path "$root/bindings/Cargo.toml" --package vault >&2
echo "$CARGO_TARGET_DIR/release/vault"
