#!/bin/sh
# The programs on inputs that their crates do not store, token_vault_main, on malformed input token_vault_vectors, and with right and wrong
# arguments token_vault_trial; and the options of the scripts.
set -eu
case ${1:-} in
'') ;;
--help | -h)
    echo "compare/test.sh: runs the programs on inputs that their crates do not store, and tries the options of the scripts"
    exit 0
    ;;
*)
    echo "compare/test.sh: unknown option '$1'; it takes none" >&2
    exit 2
    ;;
esac
cd "$(dirname "$0")/.."
compare/program.sh token_vault_main token_vault_vectors token_vault_trial
program=target/bin/token_vault_main

zeros() { head -c "$1" /dev/zero; }
bad() { printf '\001'; zeros 36831; }
balance() { printf '\030'; zeros 447; }
prints() {
    found=$(cat)
    [ "$found" = "$2" ] || { echo "program: $1: '$found', wanted '$2'"; exit 1; }
}
of() { printf 'answer=%s value=0 events=0' "$1"; }
{ bad; balance; zeros 447; } | "$program" | prints "a bad image: 30 comes before 32" "$(of 30; echo; of 30)"
{ zeros 20000; sleep 0.1; zeros 16832; balance; sleep 0.1; printf '\030'; sleep 0.1; zeros 447; } | "$program" | prints "input that comes in parts" "$(of 1; echo; of 1)"
echo "program: 2 inputs"
compare/malformed.sh target/bin/token_vault_vectors
compare/trial.sh target/bin/token_vault_trial

# The scripts: what they do not know is refused with status 2 and a line, before anything runs.
refuses() {
    wanted=$1
    shift
    status=0
    found=$(env "$@" 2>&1) || status=$?
    case "$status:$found" in
    2:"$wanted"*) ;;
    *) echo "scripts: $*: status $status, '$found', wanted '$wanted'"; exit 1 ;;
    esac
}
refuses "compare/run.sh: unknown option '--bnech'" compare/run.sh --bnech
refuses "compare/run.sh: --calls wants a number, not 'many'" compare/run.sh --calls many
refuses "compare/run.sh: --vectors wants a word behind it" compare/run.sh --vectors
refuses "compare/run.sh: --load wants two words behind it" compare/run.sh --load 1
refuses "compare/run.sh: --load wants a number, not '-1'" compare/run.sh --load 18446744073709551615 -1
refuses "compare/run.sh: --load does not take --seed" compare/run.sh --load 1 1000 --seed 3
refuses "compare/run.sh: --bench does not take --seed" compare/run.sh --bench --seed 3
refuses "compare/run.sh: --bench-cells does not take --calls" compare/run.sh --bench-cells --calls 3
refuses "compare/run.sh: --bench and --program do not go together" compare/run.sh --bench --program
refuses "library.sh: VAULT_LIBRARY: $PWD/nowhere has no libtoken_vault_abi.a" VAULT_LIBRARY=nowhere bindings/library.sh
refuses "library.sh: unknown library 'vault'" bindings/library.sh vault
refuses "story.sh: unknown option --fast" ./story.sh --fast
if command -v cargo >/dev/null; then
    refuses "compare/run.sh: the contract's Rust is not here: no lib.rs in $PWD/nowhere" VAULT_RUST_SRC=nowhere compare/run.sh
fi
compare/run.sh --help | grep -q -e --self-test || { echo "scripts: compare/run.sh --help has no usage"; exit 1; }
echo "scripts: wrong options refused"
