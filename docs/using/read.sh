#!/usr/bin/env bash
# Reads a run from a file, then a damaged one from standard input.
set -euo pipefail
mkdir -p target/using
./readrun examples/worked.run | tee target/using/worked.reading
cmp target/using/worked.reading examples/worked.reading
./readrun <examples/cut-short.run | tee target/using/cut-short.reading
cmp target/using/cut-short.reading examples/cut-short.reading
