#!/usr/bin/env bash
# Builds the programs of bindings/c, and has them read a run, a damaged one, and write one.
set -euo pipefail
mkdir -p target/using
for program in text readings write_run; do
    cc -std=c99 -O2 "bindings/c/$program.c" bindings/c/files.c -L target/staticlib -lrugxeni -o "target/using/$program"
done
{
    target/using/readings examples/worked.run
    target/using/readings examples/cut-short.run || echo "status $?"
} | tee target/using/c.txt
diff docs/using/c.txt target/using/c.txt
target/using/text examples/group.run | cmp - examples/group.reading
target/using/write_run target/using/c.run
cmp target/using/c.run examples/worked.run
