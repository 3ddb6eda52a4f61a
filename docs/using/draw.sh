#!/usr/bin/env bash
# Draws a run as SVG.
set -euo pipefail
export PYTHONPATH=bindings/python PYTHONDONTWRITEBYTECODE=1
mkdir -p target/using
bash bindings/python/link.sh
python3 bindings/python/examples/draw.py examples/group.run target/using/group.svg
cmp target/using/group.svg docs/pictures/group.svg
