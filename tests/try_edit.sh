#!/usr/bin/env bash
# Tries one must-fail edit and prints the prover's first error: tests/try_edit.sh CRATE/NAME
# The edit is made in a copy of the crates outside the repository; what was checked here is not checked there again.
set -euo pipefail
cd "$(dirname "$0")/.."
crate=${1%%/*} name=${1#*/}
edit=crates/$crate/must-fail/$name.edit
[ -f "$edit" ] || { echo "try_edit.sh: there is no $edit" >&2; exit 2; }

(cd "crates/$crate" && rt check >/dev/null)
copy=$(mktemp -d)
trap 'rm -rf "$copy"' EXIT
cp crates.txt "$copy"
tar -cf - --exclude='crates/*/out' crates | tar -xf - -C "$copy"
find "$copy/crates" -name '*.edit' ! -path "$copy/$edit" -delete
cat "$edit"
(cd "$copy" && rt must-fail "$crate") | tail -n 1
python3 tests/edits.py --make "$copy" "$crate" "$name"
(cd "$copy/crates/$crate" && rt check) >"$copy/said" 2>&1 || true
grep -m 1 -A 3 -E ': error|it is not proved' "$copy/said"
