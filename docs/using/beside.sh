#!/usr/bin/env bash
# Holds a log of one's own against a run's. One's own is made from the stored reading here: instance,sequence in each line.
set -euo pipefail
export PYTHONPATH=bindings/python PYTHONDONTWRITEBYTECODE=1
mkdir -p target/using
sed -n 's/^log \(.*\) \(.*\)/\1,\2/p' examples/group.reading >target/using/own-log.csv

bash bindings/python/link.sh
python3 bindings/python/examples/tables.py examples/group.run target/using/group
tail -n +2 target/using/group/log.csv | cut -d , -f 2,3 | diff target/using/own-log.csv -
