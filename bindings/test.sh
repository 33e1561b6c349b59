#!/bin/sh
# All tests of the bindings: the Rust crates and the tool, then the calls from C and the example, which print what is stored.
set -eu
if [ $# -gt 0 ]; then
    echo "bindings/test.sh: tests the Rust crate token_vault, the tool vault and the C header over the vault's library
  VAULT_LIBRARY     the folder of another libtoken_vault_abi.a, used as it is
  CARGO_TARGET_DIR  where everything is built (target/bindings)"
    case $1 in -h | --help) exit 0 ;; *) exit 2 ;; esac
fi
root=$(cd "$(dirname "$0")/.." && pwd)
. "$root/bindings/paths.sh"
: "${CARGO_TARGET_DIR:=$root/target/bindings}"
export CARGO_TARGET_DIR
cd "$root"
bindings/library.sh
archive=${VAULT_LIBRARY:-target/staticlib}/libtoken_vault_abi.a
cargo test --offline --quiet --manifest-path bindings/Cargo.toml

built=$CARGO_TARGET_DIR/c
mkdir -p "$built"
# Compiles the C programs with the compiler and options that are given, and runs them.
try() {
    for name in calls example; do
        "$@" -Wall -Wextra -Werror -pedantic -O1 -Ibindings/include "bindings/c/$name.c" -x none "$archive" -o "$built/$name"
    done
    "$built/calls"
    "$built/example" | cmp - bindings/c/example.stdout
    echo "example: as stored, by $1"
}
try gcc -std=c99 -x c
if command -v g++ >/dev/null; then
    try g++ -std=c++11 -x c++
else
    echo "g++ is not here: not tried as C++"
fi
