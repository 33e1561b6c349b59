#!/bin/sh
# Makes programs of the repository, as token_vault_main, in target/bin from the crates as they are now. The prover's lines are shown
# where it fails. rt makes a program to run it: here on no input and with no argument.
set -eu
cd "$(dirname "$0")/.."
mkdir -p target/bin
for name in "$@"; do
    if ! (cd "crates/$name" && rt run </dev/null) >target/program.log 2>&1; then
        cat target/program.log >&2
        exit 1
    fi
    cp "crates/$name/out/$name" target/bin/
done
