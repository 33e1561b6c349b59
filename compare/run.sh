#!/bin/sh
# Compares the vault with the contract's Rust; see usage below.
set -eu

usage() {
    cat <<'END'
compare/run.sh [--calls N] [--seed S] [--jobs J] [--partial]
    the whole comparison: the vectors made again, the calls of the benchmark, planted mistakes, the lines of the program, trial records,
    toll bounds with the moves that they speak of, then at least N calls (2000000) from the seed S (1) on J threads (2), one operation in
    four previewed first; --partial: a pair of operation and answer, of a call or a preview, that was not reached is no failure
compare/run.sh --scenario N [--seed S]
    one scenario of the run alone
compare/run.sh --vectors FOLDER [--seed S]
    writes the vectors of docs/VECTORS.md to a folder: stdin, stdout and the lines of toll bounds
compare/run.sh --program [--seed S] [--partial]
    the program's lines alone, on the streams of the seed, then wrong programs that have to be found
compare/run.sh --self-test [--seed S] [--calls N]
    planted mistakes alone, those in trial records and toll bounds too; each of a call has to be found within N calls (400000)
compare/run.sh --load START N
    N trial records (1 to 4294967295) from the starting number START (0 to 18446744073709551615), made by the library, run through the
    vault and the contract's Rust and compared, with the calls a second of both (docs/PERFORMANCE.md)
compare/run.sh --bench
    times the vault, its previews too, beside the contract's Rust, and the making of trial records and of toll bounds
    (docs/PERFORMANCE.md)
compare/run.sh --bench-cells [--seed S]
    times the two ways to find the changed cells of a call, by words and by bytes (docs/PERFORMANCE.md)
compare/run.sh --help

VAULT_RUST_SRC    the folder of the contract's lib.rs, storage.rs and events.rs (where it is not beside the repository)
VAULT_LIBRARY     the folder of another libtoken_vault_abi.a, used as it is; without it the library is made from the crates as they are
VAULT_PROGRAM     another program in place of target/bin/token_vault_main, used as it is
CARGO_TARGET_DIR  where cargo builds (target/compare)
Relative paths are taken from the folder in which the command is given.
END
}

wrong() {
    echo "compare/run.sh: $1" >&2
    usage >&2
    exit 2
}

root=$(cd "$(dirname "$0")/.." && pwd)
. "$root/bindings/paths.sh"

# ---- options, before anything runs
mode=
calls=
seed=
jobs=
scenario=
start=
records=
folder=
partial=
once() { [ -z "$mode" ] || [ "$mode" = "$1" ] || wrong "$mode and $1 do not go together"; mode=$1; }
number() { case $2 in '' | *[!0-9]*) wrong "$1 wants a number, not '$2'" ;; esac; }
while [ $# -gt 0 ]; do
    option=$1
    shift
    case $option in
    --help | -h) usage; exit 0 ;;
    --bench | --bench-cells | --program | --self-test) once "$option"; continue ;;
    --partial) partial=--partial; continue ;;
    --calls | --seed | --jobs | --scenario | --vectors) [ $# -gt 0 ] || wrong "$option wants a word behind it" ;;
    --load) [ $# -gt 1 ] || wrong "--load wants two words behind it" ;;
    *) wrong "unknown option '$option'" ;;
    esac
    word=$1
    shift
    case $option in
    --vectors) once --vectors; folder=$(absolute "$word"); continue ;;
    --calls) calls=$word ;;
    --seed) seed=$word ;;
    --jobs) jobs=$word ;;
    --scenario) once --scenario; scenario=$word ;;
    --load) once --load; start=$word; number --load "$start"; records=$1; number --load "$records"; shift; continue ;;
    esac
    number "$option" "$word"
done
takes() { # the options that a mode does not read are mistakes
    for given in "calls:$calls" "seed:$seed" "jobs:$jobs" "partial:$partial"; do
        name=${given%%:*}
        [ -z "${given#*:}" ] || case " $1 " in *" $name "*) ;; *) wrong "$mode does not take --$name" ;; esac
    done
}
case $mode in
--bench | --load) takes "" ;;
--vectors | --scenario | --bench-cells) takes "seed" ;;
--program) takes "seed partial" ;;
--self-test) takes "seed calls" ;;
esac

# ---- what is needed
for tool in cargo rt; do
    command -v $tool >/dev/null || { echo "compare/run.sh: $tool is not here, see README.md, \"What it needs\"" >&2; exit 2; }
done
: "${VAULT_RUST_SRC:=$root/../shared/docs/src/contracts/token-vault/src}"
for file in lib.rs storage.rs events.rs; do
    if [ ! -f "$VAULT_RUST_SRC/$file" ]; then
        echo "compare/run.sh: the contract's Rust is not here: no $file in $VAULT_RUST_SRC" >&2
        echo "compare/run.sh: VAULT_RUST_SRC names the folder of lib.rs, storage.rs and events.rs (README.md, \"What it needs\")" >&2
        exit 2
    fi
done
export VAULT_RUST_SRC
: "${CARGO_TARGET_DIR:=$root/target/compare}"
export CARGO_TARGET_DIR

cd "$root"
bindings/library.sh
bindings/library.sh journal_bench
if [ -z "${VAULT_PROGRAM:-}" ]; then
    compare/program.sh token_vault_main
fi
cargo build --release --offline --quiet --manifest-path compare/Cargo.toml
driver=$CARGO_TARGET_DIR/release/driver
bench=$CARGO_TARGET_DIR/release/bench

# ---- the comparison
: "${seed:=1}"
case $mode in
--bench) exec "$bench" ;;
--load) exec "$bench" --load "$start" "$records" ;;
--bench-cells) exec "$bench" --cells --seed "$seed" ;;
--vectors) exec "$driver" --vectors "$folder" --seed "$seed" ;;
--scenario) exec "$driver" --scenario "$scenario" --seed "$seed" ;;
--program) exec "$driver" --program --seed "$seed" $partial ;;
--self-test) exec "$driver" --self-test --seed "$seed" --calls "${calls:-400000}" ;;
esac
vectors=$CARGO_TARGET_DIR/vectors
"$driver" --vectors "$vectors"
cmp "$vectors/stdin" crates/token_vault_vectors/stdin
cmp "$vectors/stdout" crates/token_vault_vectors/stdout
cmp "$vectors/toll_bounds.txt" compare/vectors/toll_bounds.txt
"$bench" --quick
"$driver" --self-test --calls 400000
"$driver" --program --seed 1
compare/program.sh token_vault_trial
outputs=0
for request in "1 1 1" "1 1 127" "0 1 128" "1 1 129" "18446744073709551615 77 1000" "18364758544493064720 4294966271 1025"; do
    "$driver" --trial-records $request >"$CARGO_TARGET_DIR/trial_records"
    target/bin/token_vault_trial $request | cmp - "$CARGO_TARGET_DIR/trial_records"
    outputs=$((outputs + 1))
done
echo "program of trial records: $outputs outputs as the model has them"
exec "$driver" --calls "${calls:-2000000}" --seed "$seed" --jobs "${jobs:-2}" $partial
