#!/bin/sh
# Compares the port with the Rust in one process, and times both: compare.sh FAMILY SEED COUNT, on generated sheets, or
# compare.sh worst [FOLDER], on the plans of a folder, by default those of oracle/worst.
set -e
unset CDPATH
called_from=$PWD
cd "$(dirname "$0")"
../scripts/library >&2
cargo build --release --offline --features port --bin compare --target-dir target/linked >&2
mkdir -p target/release
cp target/linked/release/compare target/release/compare
program=$PWD/target/release/compare
cd "$called_from"
"$program" "$@"
