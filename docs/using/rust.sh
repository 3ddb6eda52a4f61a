#!/usr/bin/env bash
# Builds a package that depends on rugxeni, and has it read a run and a damaged one; then two examples of bindings/rust.
set -euo pipefail
cargo build --quiet --offline --locked --manifest-path docs/using/rust/Cargo.toml --target-dir target/using/rust
{
    target/using/rust/debug/yours examples/group.run
    target/using/rust/debug/yours examples/cut-short.run || echo "status $?"
} 2>&1 | tee target/using/rust.txt
diff docs/using/rust.txt target/using/rust.txt

example() { cargo run --quiet --offline --locked --manifest-path bindings/rust/Cargo.toml --target-dir bindings/rust/target --example "$@"; }
example text examples/group.run | cmp - examples/group.reading
example write | cmp - examples/worked.run
