#!/usr/bin/env bash
# Links librugxeni.so, which rugxeni.py loads, from the static library: bash bindings/python/link.sh [FOLDER]
# The archive is looked for in the folder RUGXENI_LIB, else where `tests/staticlib.sh` leaves it; the shared object goes to FOLDER, else to target/python.
# The archive's code is position independent. `-z text` and `-z defs` make the linker refuse where that is no longer so, or where a symbol is missing.
set -euo pipefail
root=$(cd "$(dirname "$0")/../.." && pwd)
archive=${RUGXENI_LIB:-$root/target/staticlib}/librugxeni.a
folder=${1:-$root/target/python}
if [ ! -f "$archive" ]; then
    echo "link.sh: no $archive: run \`bash tests/staticlib.sh rugxeni\` at the root of the repository, or set RUGXENI_LIB to the folder that holds it" >&2
    exit 1
fi
mkdir -p "$folder"
"${CC:-cc}" -shared -Wl,-z,text -Wl,-z,defs -Wl,--whole-archive "$archive" -Wl,--no-whole-archive -o "$folder/librugxeni.so"
