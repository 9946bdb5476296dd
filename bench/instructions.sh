#!/bin/sh
# Counts instructions of one call with valgrind, for the library and for each counterpart: run from the repository's root after
# `tools/library.sh`. It takes some minutes. The count without the last call is taken away, which leaves out what comes before.
set -eu
cd "$(dirname "$0")"
if ! command -v valgrind >/dev/null 2>&1; then
    echo "valgrind is not here: no instructions are counted"
    exit 0
fi
cargo build --offline --release -j1 -q
program=${CARGO_TARGET_DIR:-../target/cargo}/release/bench

count() {
    valgrind --tool=callgrind --callgrind-out-file=/dev/null "$program" --run "$1" "$2" "$3" 2>&1 |
        sed -n 's/.*Collected : \([0-9]*\).*/\1/p'
}

printf '%-24s %-13s %16s %16s\n' case side instructions 'library / side'
"$program" --list | while read -r case side; do
    # A plan, a batch or a row of distances is long enough that what the first call alone does is nothing beside it.
    case $case in
    plan_* | batch_* | distances_*) before=0 ;;
    *) before=1 ;;
    esac
    fewer=$(count "$case" "$side" $before)
    more=$(count "$case" "$side" $((before + 1)))
    instructions=$((more - fewer))
    if [ "$side" = library ]; then
        library=$instructions
    fi
    printf '%-24s %-13s %16s %16s\n' "$case" "$side" "$instructions" "$(awk "BEGIN { printf \"%.2f\", $library / $instructions }")"
done
