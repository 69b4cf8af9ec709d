#!/bin/sh
# Compares the library's formulas with the reference in one process: compare_formula.sh every, on every short string;
# compare_formula.sh random SEED COUNT, on generated formulas; or compare_formula.sh time, which times both.
set -e
unset CDPATH
called_from=$PWD
cd "$(dirname "$0")"
../scripts/library >&2
cargo build --release --offline --features port --bin compare_formula --target-dir target/linked >&2
mkdir -p target/release
cp target/linked/release/compare_formula target/release/compare_formula
program=$PWD/target/release/compare_formula
cd "$called_from"
"$program" "$@"
