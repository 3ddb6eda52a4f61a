#!/usr/bin/env bash
# Compares a program with the second engine: bash docs/using/compare.sh [PROGRAM], by its whole path; arguments in the same word.
set -euo pipefail
cargo build --quiet --offline --locked --release --manifest-path tests/Cargo.toml --target-dir tests/target
mkdir -p target/using/compare
cd target/using/compare # a run that is read otherwise is left here
program=${1:-../../bin/readrun}
../../../tests/target/release/crosscheck cases "$program"
../../../tests/target/release/crosscheck compare "$program" 500 1
