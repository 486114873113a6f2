#!/usr/bin/env bash
# Prints the page of a piece: print.sh [FILE], by default examples/first.txt; `-` is standard input.
# A FILE that begins with MThd is a MIDI file, any other is sizes, deltas and words in decimal, one array a line.
# The first time, and where a crate has changed, the printing program is proved and built first: a line for each crate
# on the standard error. After that it starts at once.
set -euo pipefail
file=${1:-"$(dirname "$0")/examples/first.txt"}
[ "$file" = - ] && file=/dev/stdin

# a copy, so that the first bytes of a pipe are not lost
copy=$(mktemp)
trap 'rm -f "$copy"' EXIT
cat < "$file" > "$copy"
program=print
[ "$(head -c 4 "$copy" | tr -d '\0')" = MThd ] && program=print_file
exec 3< "$copy"
rm "$copy"

cd "$(dirname "$0")"
binary=crates/$program/out/$program
changed() { find crates crates.txt -name out -prune -o -type f -newer "$binary" -print -quit; }
if [ ! -x "$binary" ] || [ -n "$(changed)" ]; then
    echo "$program is proved and built first, some minutes; each crate as it is done:" >&2
    said=$(mktemp)
    trap 'rm -f "$said"' EXIT
    if ! (cd "crates/$program" && rt run < /dev/null 2>&1 > /dev/null) | tee "$said" | sed -un 's/^rt: /  /p' >&2; then
        cat "$said" >&2
        exit 1
    fi
    rm "$said"
    touch "$binary"
fi
exec "$binary" <&3 3<&-
