#!/bin/sh
# A short story through the proved library, by the tool `vault`: its commands are those of bindings/vault/tests/runs/story.run, each
# with what it answers. `story.sh FOLDER` leaves the files of the story in a folder.
set -eu
root=$(cd "$(dirname "$0")" && pwd)
case ${1:-} in
--help | -h)
    echo "story.sh [FOLDER]: runs a short story through the proved library; FOLDER keeps its image and journal"
    exit 0
    ;;
-*)
    echo "story.sh: unknown option $1; try story.sh --help" >&2
    exit 2
    ;;
esac
if ! command -v cargo >/dev/null; then
    echo "story.sh: cargo is not here: it builds the tool, see README.md, \"What it needs\"" >&2
    exit 2
fi
if [ $# -gt 0 ]; then
    mkdir -p "$1"
    folder=$(cd "$1" && pwd)
else
    folder=$(mktemp -d)
    trap 'rm -rf "$folder"' EXIT
fi
. "$root/bindings/paths.sh"
vault=$("$root/bindings/build.sh")
cd "$folder"
# The lines behind a command are its stored answer: only titles and commands are read here.
titled=yes
while IFS= read -r line; do
    case $line in
    '#'*)
        [ "$titled" = yes ] || echo
        titled=yes
        echo "$line"
        ;;
    '$ vault '*)
        titled=no
        echo "$line"
        status=0
        eval "\"\$vault\" ${line#\$ vault }" 2>&1 || status=$?
        [ "$status" -eq 0 ] || echo "[exit $status]"
        ;;
    esac
done <"$root/bindings/vault/tests/runs/story.run"
