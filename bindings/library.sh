#!/bin/sh
# library.sh [NAME]: makes target/staticlib/libNAME.a anew unless it was made from the crates as they are now, by this kit; then prints
# nothing. NAME is token_vault_abi, or journal_bench for the benchmark. Where VAULT_LIBRARY names a folder, the libtoken_vault_abi.a there
# is taken as it is. What the prover prints goes to target/library.log.
set -eu
root=$(cd "$(dirname "$0")/.." && pwd)
. "$root/bindings/paths.sh"
name=${1:-token_vault_abi}
case $name in
token_vault_abi | journal_bench) ;;
*) echo "library.sh: unknown library '$name'; it makes token_vault_abi and journal_bench" >&2; exit 2 ;;
esac
if [ "$name" = token_vault_abi ] && [ -n "${VAULT_LIBRARY:-}" ]; then
    if [ ! -f "$VAULT_LIBRARY/libtoken_vault_abi.a" ]; then
        echo "library.sh: VAULT_LIBRARY: $VAULT_LIBRARY has no libtoken_vault_abi.a" >&2
        exit 2
    fi
    echo "library.sh: the archive in $VAULT_LIBRARY is used as it is, whatever the crates say" >&2
    exit 0
fi
cd "$root"
if ! command -v rt >/dev/null; then
    echo "library.sh: rt is not here: it proves the library, see README.md, \"What it needs\"" >&2
    exit 2
fi
archive=target/staticlib/lib$name.a
made_from=$archive.made_from

# One line for the kit, the crates and the archive: another byte in any of them gives another line.
digest() {
    {
        rt version
        cat crates.txt
        find crates -type f \( -path '*/src/*' -o -path '*/specs/*' -o -path '*/proofs/*' \) | LC_ALL=C sort | xargs sha256sum
        sha256sum "$archive"
    } | sha256sum
}

if [ -f "$archive" ] && [ -f "$made_from" ] && [ "$(digest)" = "$(cat "$made_from")" ]; then
    exit 0
fi
if [ "$name" = token_vault_abi ]; then
    echo "Proving the library: some minutes the first time, less where crates were proved before." >&2
    echo "What the prover prints goes to target/library.log." >&2
fi
mkdir -p target/staticlib
if ! (cd "crates/$name" && rt lib) >target/library.log 2>&1; then
    cat target/library.log >&2
    echo "library.sh: $name is not proved" >&2
    exit 1
fi
cp "crates/$name/out/lib$name.a" "$archive"
digest >"$made_from"
