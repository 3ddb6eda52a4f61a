#!/usr/bin/env bash
# Proves a static library and builds its archive, with today's command for it, `rt lib`:
#
#     bash tests/staticlib.sh NAME      leaves target/staticlib/libNAME.a
#
# crates.txt has the line `NAME staticlib: ..`, or `NAME_c staticlib: ..` where NAME is a library that other crates use.
set -euo pipefail
cd "$(dirname "$0")/.."
name=${1:?NAME}
for crate in "$name" "${name}_c"; do
    grep -Eq "^${crate} +staticlib\b.*:" crates.txt || continue
    (cd "crates/$crate" && rt lib)
    mkdir -p target/staticlib
    cp "crates/$crate/out/lib$crate.a" "target/staticlib/lib$name.a.new"
    mv "target/staticlib/lib$name.a.new" "target/staticlib/lib$name.a"
    exit 0
done
echo "staticlib.sh: crates.txt lists no static library $name" >&2
exit 1
