#!/bin/sh
# Right programs that the prover must accept: tests/right/CRATE/*.edit. Each has the shape of the wrong one of its name in
# crates/CRATE/must-fail, so that it is a fact and not its shape that the wrong one is refused for. They are run by hand, after a change of
# a proof or of an edit. The last line is 'N passed, M failed'.
set -eu
cd "$(dirname "$0")"
report=$(mktemp)
trap 'rm -f "$report"' EXIT
# rt reports an edit that the prover accepts as one that is not refused.
./try_edits.sh right >"$report" 2>&1 || true
accepted='NOT REFUSED: the crate is still proved with this edit'
sed -n "s/^rt: must-fail \(.*\): $accepted.*/ok: \1/p" "$report"
sed -n -e "/$accepted/d" -e 's/refused, as it must be/refused/' -e 's/^rt: must-fail /FAILED: /p' -e '/not proved/p' "$report"
passed=$(grep -c "$accepted" "$report" || true)
failed=$(($(find right -name '*.edit' | wc -l) - passed))
echo "$passed passed, $failed failed"
[ "$failed" -eq 0 ] && [ "$passed" -gt 0 ]
