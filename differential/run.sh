#!/usr/bin/env bash
# Builds the proved library and the reference, then runs a command of the differential run, as
#   differential/run.sh compare SEED COUNT [SECONDS]
# README.md has the commands. Where the library is proved already nothing is proved again.
set -eu
cd "$(dirname "$0")/.."
if ! said=$(cd crates/acorde && rt lib 2>&1); then
    echo "$said" >&2
    exit 1
fi
cd differential
cargo build --quiet --release --offline --features library
exec target/release/differential "$@"
