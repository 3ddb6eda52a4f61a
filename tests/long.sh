#!/usr/bin/env bash
# The long comparison: readrun against the second engine on a million generated runs, most of them small, and the named
# ones; about an hour on one core. Then the account records and the static library on some thousand, every answer and every reading.
#
#     bash tests/long.sh [RUNS [FIRST-SEED [LIBRARY-RUNS]]]      1000000 1 20000
#
# Progress goes to standard error; the counts, as lines 'N runs, N agree', to standard output. What differs ends it with
# status 1 and is left in target/compare. docs/CROSSCHECK.md has what it came to.
set -euo pipefail
cd "$(dirname "$0")/.."
runs=${1:-1000000} seed=${2:-1} library=${3:-20000}
program=$PWD/target/bin/readrun
tests=$PWD/tests

build() { cargo build --quiet --locked --offline --release --manifest-path "$1/Cargo.toml" --target-dir "$1/target"; }

echo "proving and building what is compared; what has not changed is passed over" >&2
mkdir -p target/compare
for name in readrun records_run; do bash tests/program.sh "$name" >target/compare/readrun.log 2>&1; done
if [ "$library" -gt 0 ]; then
    bash tests/staticlib.sh rugxeni >target/compare/staticlib.log 2>&1
    build tests/library
fi
build tests
cd target/compare
"$tests/target/release/crosscheck" cases "$program"
"$tests/target/release/crosscheck" long "$program" "$runs" "$seed"
if [ "$library" -gt 0 ]; then
    "$tests/target/release/crosscheck" records "${program%readrun}records_run" "$library" "$seed"
    "$tests/library/target/release/crosscheck-library" "$library" "$seed"
fi
