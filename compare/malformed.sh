#!/bin/sh
# The program that replays the vectors (its path is the first argument) on malformed input, and at two ends of the input at which nothing is said.
# An input has later faults too where it can: the first is the one that is said (docs/VECTORS.md).
set -eu
program=$1
folder=$(mktemp -d)
trap 'rm -r "$folder"' EXIT
inputs=0

zeros() { head -c "$1" /dev/zero; }
byte() { printf "\\$(printf %03o "$1")"; }
half() { byte $(($1 % 256)); byte $(($1 / 256)); }
word() { half $(($1 % 65536)); half $(($1 / 65536)); }
# The head of a list: the lengths of image and journal, how many calls, and bytes 12 to 15.
list() { word "$1"; word "$2"; word "$3"; word "$4"; }
# The head of a call: kind, the lengths of record and event buffer, and bytes 6 and 7.
call() { byte "$1"; byte 0; half "$2"; half "$3"; half "$4"; }
# A list of two calls with an empty image and an empty journal, and the first of them, a begin, which gets one line.
begun() { list 0 0 2 0; call 1 0 0 0; }
empty=e3b0c44298fc1c149afbf4c8996fb92427ae41e4649b934ca495991b7852b855
line="answer=30 value=0 events=0 event_bytes=$empty image=$empty journal=$empty"

# The wanted sentence and the wanted line of standard output, or nothing, for the input that is in the folder.
says() {
    "$program" <"$folder/input" >"$folder/output" 2>"$folder/error"
    { [ -z "$1" ] || echo "token_vault_vectors: $1"; } | cmp - "$folder/error" || fail "$1"
    { [ -z "$2" ] || echo "$2"; } | cmp - "$folder/output" || fail "$1"
    inputs=$((inputs + 1))
}
fail() {
    echo "vectors: input $((inputs + 1)), wanted '$1', found:"
    cat "$folder/error" "$folder/output"
    exit 1
}

: >"$folder/input"
says "" ""
{ list 3 5 0 0; zeros 8; } >"$folder/input"
says "" ""
list 36849 48049 0 1 | head -c 15 >"$folder/input"
says "a list's head is cut short" ""
list 36849 48049 0 1 >"$folder/input"
says "a list's image is longer than 36848 bytes" ""
list 36848 48049 0 1 >"$folder/input"
says "a list's journal is longer than 48048 bytes" ""
list 36848 48048 0 16777216 >"$folder/input"
says "bytes 12 to 15 of a list's head are not zero" ""
{ list 36848 48048 1 0; zeros 36847; } >"$folder/input"
says "a list's image is cut short" ""
{ list 36848 48048 1 0; zeros 36848; zeros 48047; } >"$folder/input"
says "a list's journal is cut short" ""
begun >"$folder/input"
says "a call's head is cut short" "$line"
{ begun; call 6 513 1025 1; } >"$folder/input"
says "a call's kind is above 5" "$line"
for kind in 4 5; do
    { begun; call $kind 513 1025 256; } >"$folder/input"
    says "bytes 6 and 7 of a call's head are not zero" "$line"
done
{ begun; call 4 513 1025 0; } >"$folder/input"
says "a begin, commit, rollback or undo has a record or an event buffer" "$line"
for kind in 0 5; do
    { begun; call $kind 513 1025 0; } >"$folder/input"
    says "a call's record is longer than 512 bytes" "$line"
    { begun; call $kind 512 1025 0; } >"$folder/input"
    says "a call's event buffer is longer than 1024 bytes" "$line"
    { begun; call $kind 512 1024 0; zeros 511; } >"$folder/input"
    says "a call's record is cut short" "$line"
done
echo "vectors: $inputs inputs"
