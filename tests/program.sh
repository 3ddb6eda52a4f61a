#!/usr/bin/env bash
# Proves and builds a program, with today's command for it, `rt run`, which also runs it once, on no input:
#
#     bash tests/program.sh NAME      leaves target/bin/NAME
#
# What it prints in that run is not shown. The status is 0 only where it is proved and built.
set -euo pipefail
cd "$(dirname "$0")/.."
name=${1:?NAME}
mkdir -p target/bin
rm -f "target/bin/$name"
(cd "crates/$name" && rt run </dev/null >/dev/null)
cp "crates/$name/out/$name" "target/bin/$name.new"
mv "target/bin/$name.new" "target/bin/$name"
