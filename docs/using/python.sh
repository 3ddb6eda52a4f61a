#!/usr/bin/env bash
# Links the shared object; then reads a run and a damaged one, and writes one.
set -euo pipefail
export PYTHONPATH=bindings/python PYTHONDONTWRITEBYTECODE=1
mkdir -p target/using
bash bindings/python/link.sh
{
    python3 bindings/python/examples/read.py examples/group.run
    python3 bindings/python/examples/read.py examples/cut-short.run || echo "status $?"
} 2>&1 | tee target/using/python.txt
diff docs/using/python.txt target/using/python.txt
python3 bindings/python/examples/write.py target/using/python.run
cmp target/using/python.run examples/worked.run
