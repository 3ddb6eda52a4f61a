#!/usr/bin/env bash
# Builds the programs of this folder into target/c and runs them on the examples; says what is wrong, and ends with status 1.
# The archive is looked for in target/staticlib, or in the folder that RUGXENI_LIB names; the compiler is CC, else cc.
set -euo pipefail
root=$(cd "$(dirname "$0")/../.." && pwd)
library=$(realpath -m "${RUGXENI_LIB:-$root/target/staticlib}")
cd "$root"
out=target/c
failed=0

wrong() { echo "bindings/c: $*" >&2; failed=1; }

build() { # PROGRAM
    "${CC:-cc}" -std=c99 -Wall -Wextra -Werror -pedantic -O2 "bindings/c/$1.c" bindings/c/files.c -L "$library" -lrugxeni -o "$out/$1"
}

with_status() { # COMMAND...
    local status=0
    "$@" || status=$?
    echo "status $status"
}

# What `readings` says of a run, by the run's stored reading.
expected() { # READING
    grep -E '^(run|refused) ' "$1"
    if tail -n 1 "$1" | grep -q '^refused '; then echo 'status 1'; return; fi
    echo "log of $(grep -c '^log ' "$1") blocks"
    grep -E '^(account|share) ' "$1"
    echo 'status 0'
}

cannot() { # COMMAND...
    local status=0
    "$@" 2>/dev/null || status=$?
    [ "$status" -eq 2 ] || wrong "status $status, not 2: $*"
}

[ -f "$library/librugxeni.a" ] || { wrong "no librugxeni.a in $library: run 'bash tests/staticlib.sh rugxeni', or set RUGXENI_LIB"; exit 1; }
mkdir -p "$out"
for program in text readings write_run short_buffers; do build "$program"; done

for run in examples/*.run; do
    reading=${run%.run}.reading
    "$out/text" "$run" | cmp - "$reading" || wrong "text $run"
    diff <(with_status "$out/readings" "$run") <(expected "$reading") || wrong "readings $run"
done

# One byte more than a reading has room for.
{ cat examples/full.run; printf x; } >"$out/long.run"
diff <(with_status "$out/text" "$out/long.run") <(printf 'long\nstatus 0\n') || wrong "text of a long run"
diff <(with_status "$out/readings" "$out/long.run") <(printf 'long\nstatus 1\n') || wrong "readings of a long run"

{ "$out/write_run" "$out/written.run" && cmp "$out/written.run" examples/worked.run; } || wrong "write_run"
"$out/short_buffers" || wrong "short_buffers"

cannot "$out/text" examples
cannot "$out/readings" "$out/none.run"
cannot "$out/text" examples/full.run >/dev/full
cannot "$out/write_run" /dev/full
exit "$failed"
