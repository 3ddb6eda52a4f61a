#!/usr/bin/env bash
# The wrong engines that the gate leaves out for time: applies each crates/NAME/must-fail-more/*.edit to a copy of its crate, and the prover has to
# refuse each engine in the function that it changes. `bash tests/more_edits.sh` tries those of every crate, `bash tests/more_edits.sh NAME...` those
# of some. What the prover says of each edit is left in target/must-fail-more.
set -euo pipefail
cd "$(dirname "$0")/.."
rt all check >/dev/null
python3 tests/wrong_engines.py refused --more "$@"
