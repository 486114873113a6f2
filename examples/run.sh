#!/usr/bin/env bash
# Compares the header's version with CHANGELOG.md's, builds the library if it is not there, builds the examples, runs
# them, under valgrind where it is installed, and compares what they print with examples/import.out. Leaves with status
# 1 where something differs. CC may name the compiler.
set -eu
cd "$(dirname "$0")/.."
library=crates/acorde/out/libacorde.a
programs=target/examples
flags="-std=c99 -Wall -Wextra -Werror -pedantic -Iinclude"

# the header's version: as one text, as three numbers, and as CHANGELOG.md has it on top
number() { sed -n "s/^#define ACORDE_VERSION$1 \"*\([0-9.]*\)\"*$/\1/p" include/acorde.h; }
top=$(sed -n 's/^## \([0-9.]*\).*/\1/p' CHANGELOG.md | head -n 1)
if [ "$(number "")" != "$(number _MAJOR).$(number _MINOR).$(number _PATCH)" ] || [ "$(number "")" != "$top" ]; then
    echo "acorde.h has $(number ""), in numbers $(number _MAJOR) $(number _MINOR) $(number _PATCH); CHANGELOG.md $top"
    exit 1
fi

[ -f "$library" ] || (cd crates/acorde && rt lib)
mkdir -p "$programs"
for name in first import; do
    ${CC:-gcc} $flags "examples/$name.c" "$library" -o "$programs/$name"
done

under=""
if command -v valgrind > /dev/null; then
    under="valgrind --quiet --leak-check=full --error-exitcode=99"
fi

run() {
    echo "$ $*"
    status=0
    $under "$programs/"$@ || status=$?
    echo "status $status"
}

{
    run first
    run import
    run import examples/first.txt
    run import examples/twelve.txt
    run import examples/first.mid
    run import examples/second.mid
    head -c 40 examples/first.mid > "$programs/cut.mid"
    run import "$programs/cut.mid"
    run import /dev/null
} > "$programs/import.out"

if ! diff examples/import.out "$programs/import.out"; then
    echo "the examples print something else than examples/import.out"
    exit 1
fi
echo "the examples print examples/import.out"
