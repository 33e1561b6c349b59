#!/bin/sh
# The program that writes trial records (its path is the first argument) with wrong arguments, at the ends of the numbers, and in two parts.
# Arguments have later faults too where they can: the first is the one that is said.
set -eu
program=$1
folder=$(mktemp -d)
trap 'rm -r "$folder"' EXIT
runs=0

# A program that takes a request for far too many records is stopped behind some thousand of them.
run() { (ulimit -f 4096 && exec "$program" "$@") </dev/null >"$folder/output" 2>"$folder/error" || fail "'$*' ended with status $?"; }
fail() {
    echo "trial records: $1, found $(wc -c <"$folder/output") bytes and:"
    cat "$folder/error"
    exit 1
}

# The fault that the arguments behind it have, by its number.
says() {
    case $1 in
    1) sentence='three arguments are wanted: START, FIRST and COUNT' ;;
    2) sentence='START is not a decimal number from 0 to 18446744073709551615' ;;
    3) sentence='FIRST is not a decimal number from 0 to 18446744073709551615' ;;
    4) sentence='COUNT is not a decimal number from 0 to 18446744073709551615' ;;
    5) sentence='FIRST is 0: record numbers begin at 1' ;;
    6) sentence="the last record's number would be above 4294967295" ;;
    esac
    wanted="token_vault_trial: $1: $sentence"
    shift
    run "$@"
    echo "$wanted" | cmp -s - "$folder/error" || fail "'$*', wanted '$wanted'"
    [ ! -s "$folder/output" ] || fail "'$*', wanted no byte"
    runs=$((runs + 1))
}

# Writes so many records and says nothing.
writes() {
    run "$@"
    [ ! -s "$folder/error" ] && [ "$(wc -c <"$folder/output")" -eq $(($3 * 448)) ] || fail "'$*', wanted $3 records"
    runs=$((runs + 1))
}

says 1
says 1 1
says 1 x ''
says 1 1 1
says 1 1 1 1 1
says 1 x 0 18446744073709551616 ''
digits=$(printf '%0100d' 0 | tr 0 7)
for wrong in '' + - +1 -1 -0 x 1x x1 0x1 1.0 1e3 1,000 01 00 0000000000000000000001 18446744073709551616 18446744073709551617 \
    36893488147419103233 99999999999999999999 100000000000000000000 184467440737095516151 "$digits" ' 1' '1 ' ' ' '1 1' '1é'; do
    says 2 "$wrong" 1 1
    says 2 "$wrong" "$wrong" "$wrong"
    says 2 "$wrong" 0 18446744073709551615
    says 3 1 "$wrong" 1
    says 3 18446744073709551615 "$wrong" "$wrong"
    says 4 1 1 "$wrong"
    says 4 0 0 "$wrong"
    says 4 1 4294967297 "$wrong"
done
says 5 1 0 1
says 5 18446744073709551615 0 0
says 5 1 0 18446744073709551615
says 6 1 1 4294967296
says 6 1 2 4294967295
says 6 1 4294967295 2
says 6 1 4294967296 1
says 6 0 4294967297 0
says 6 1 1 18446744073709551615
says 6 1 18446744073709551615 0
says 6 1 18446744073709551615 1
says 6 1 18446744073709551615 2
says 6 18446744073709551615 18446744073709551615 18446744073709551615

writes 0 1 0
writes 18446744073709551615 4294967296 0
writes 1 4294967295 1
writes 18446744073709551615 1 1
for count in 1 127 128 129 1000 1025; do
    writes 1 1 $count
done

# Two parts are the whole: the second starts from the number that the generator has reached after so many records.
writes 1 1 300
cp "$folder/output" "$folder/whole"
for part in 1:9232803539723513983 127:11192872639250832915 128:8928773047664327425 137:3935996051494101935; do
    count=${part%:*}
    writes 1 1 "$count"
    cp "$folder/output" "$folder/parts"
    writes "${part#*:}" $((count + 1)) $((300 - count))
    cat "$folder/output" >>"$folder/parts"
    cmp "$folder/parts" "$folder/whole" || fail "300 records in parts of $count and $((300 - count))"
done
echo "trial records: $runs runs"
