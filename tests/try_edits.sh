#!/bin/sh
# Tries the edits of a folder, tests/FOLDER/CRATE/*.edit, in the place of the gate's: `rt must-fail` in a copy of the crates. Each costs a
# check of its crate over what `rt check` proved. The last line is 'N passed, M failed': passed are the edits that the prover refuses.
set -eu
cd "$(dirname "$0")/.."
work=$(mktemp -d)
trap 'rm -rf "$work"' EXIT
tar -cf - --exclude='crates/*/out' --exclude='crates/*/must-fail' crates crates.txt | tar -xf - -C "$work"
names=
tried=0
for folder in "tests/$1"/*; do
    names="$names $(basename "$folder")"
    mkdir -p "$work/crates/$(basename "$folder")/must-fail"
    cp "$folder"/*.edit "$work/crates/$(basename "$folder")/must-fail"
    tried=$((tried + $(find "$folder" -name '*.edit' | wc -l)))
done
# shellcheck disable=SC2086
(cd "$work" && rt must-fail $names 2>&1) | tee "$work/report" || true
passed=$(grep -c '^rt: must-fail .*: refused, as it must be' "$work/report" || true)
echo "$passed passed, $((tried - passed)) failed"
[ "$passed" -eq "$tried" ] && [ "$passed" -gt 0 ]
