#!/bin/sh
# The tests beside the proofs: the proved library and the program bayplan against an engine in Rust, the C header, and the examples. Run
# it from anywhere, best after `rt ci`, whose libraries it builds on. It needs the Rattle kit, cargo (no network) and a C compiler with binutils,
# and for some of it a C++ compiler and python3.
# BAY_ARCHIVE names a library built elsewhere; BAY_SEED gives the random cases another seed.
set -u
cd "$(dirname "$0")/.." || exit 1
root=$(pwd)
export CARGO_TARGET_DIR="${CARGO_TARGET_DIR:-$root/target/cargo}"
work=$(mktemp -d)
trap 'rm -rf "$work"' EXIT
passed=0
failed=0

ok() {
    passed=$((passed + 1))
    echo "ok: $1"
}

bad() {
    failed=$((failed + 1))
    echo "FAILED: $1"
}

finish() {
    echo "$passed passed, $failed failed"
    [ "$failed" -eq 0 ] && [ "$passed" -gt 0 ]
    exit
}

# same NAME EXPECTED PRINTED: the two files are equal.
same() {
    if cmp -s "$2" "$3"; then
        ok "$1"
    else
        bad "$1"
        diff "$2" "$3" | head -10
    fi
}

# counted NAME FILE STATUS: adds the counts of a program's last line, 'N passed, M failed'.
counted() {
    counts=$(tail -1 "$2" | sed -n 's/^\([0-9]*\) passed, \([0-9]*\) failed$/\1 \2/p')
    if [ -z "$counts" ]; then
        bad "$1 ended with status $3 and no counts"
        return
    fi
    passed=$((passed + ${counts% *}))
    failed=$((failed + ${counts#* }))
    if [ "$3" -ne 0 ] && [ "${counts#* }" -eq 0 ]; then
        bad "$1 ended with status $3"
    fi
}

# ---- the library

if [ -n "${BAY_ARCHIVE:-}" ]; then
    archive=$BAY_ARCHIVE
else
    archive=$root/target/staticlib/libbay.a
    if tools/library.sh >"$work/library" 2>&1; then
        ok "tools/library.sh"
    else
        tail -5 "$work/library"
        bad "tools/library.sh"
        finish
    fi
fi

# ---- the engine on the paper's own cases, and the comparisons

(cd tests && cargo test --offline -j1 --lib -q) >"$work/units" 2>&1
counts=$(sed -n 's/^test result: .* \([0-9]*\) passed; \([0-9]*\) failed;.*/\1 \2/p' "$work/units")
if [ -n "$counts" ]; then
    passed=$((passed + ${counts% *}))
    failed=$((failed + ${counts#* }))
    echo "engine: ${counts% *} passed, ${counts#* } failed"
    [ "${counts#* }" -eq 0 ] || cat "$work/units"
else
    cat "$work/units"
    bad "cargo test"
fi

if (cd tests && cargo build --offline -j1 --release -q) >"$work/build" 2>&1; then
    ok "cargo build"
else
    cat "$work/build"
    bad "cargo build"
    finish
fi
programs=$CARGO_TARGET_DIR/release

"$programs/compare" >"$work/compare" 2>&1
status=$?
cat "$work/compare"
counted compare "$work/compare" $status

bayplan=$root/crates/bayplan/out/bayplan
# It is built anew where something has changed since, and run once where it has no files to read.
rm -f "$bayplan"
(cd crates/bayplan && rt run) >"$work/built" 2>&1 </dev/null
if [ -x "$bayplan" ]; then
    ok "crates/bayplan is built"
    "$programs/bayplan_compare" "$bayplan" "$work/folders" >"$work/bayplan" 2>&1
    status=$?
    cat "$work/bayplan"
    counted bayplan_compare "$work/bayplan" $status
    "$programs/digests" tests/digests.txt "$bayplan" "$work/folder" >"$work/digests" 2>&1
    status=$?
    cat "$work/digests"
    counted digests "$work/digests" $status
else
    tail -5 "$work/built"
    bad "crates/bayplan is built"
fi

# ---- the examples

"$programs/make_examples" "$work/examples"
for folder in trailer trailer_one_fact_less truck_two_axles no_way damaged_table; do
    for file in bay.tab start.bay expected.txt; do
        same "examples/$folder/$file as made" "examples/$folder/$file" "$work/examples/$folder/$file"
    done
    if [ -x "$bayplan" ]; then
        (cd "examples/$folder" && "$bayplan") >"$work/printed" 2>&1
        same "bayplan in examples/$folder" "examples/$folder/expected.txt" "$work/printed"
    fi
done
for folder in trailer trailer_one_fact_less truck_two_axles; do
    same "examples/$folder/plan.tree as made" "examples/$folder/plan.tree" "$work/examples/$folder/plan.tree"
done

compiler=
for each in gcc cc; do
    if [ -z "$compiler" ] && command -v $each >/dev/null 2>&1; then
        compiler=$each
    fi
done
if [ -z "$compiler" ]; then
    bad "no C compiler is here"
    finish
fi

# ---- include/bay.h in C and in C++

# header LANGUAGE COMPILER..: the inline functions of the header, compiled so and run.
header() {
    language=$1
    shift
    if "$@" -Wall -Wextra -Werror -pedantic -O1 -Iinclude tests/header.c -x none "$archive" -o "$work/header"; then
        ok "include/bay.h is compiled as $language"
        "$work/header" >"$work/printed" 2>&1
        status=$?
        cat "$work/printed"
        counted "tests/header.c in $language" "$work/printed" $status
    else
        bad "include/bay.h is compiled as $language"
    fi
}

header C99 $compiler -x c -std=c99
plus=
for each in g++ c++; do
    if [ -z "$plus" ] && command -v $each >/dev/null 2>&1; then
        plus=$each
    fi
done
if [ -n "$plus" ]; then
    header C++11 $plus -x c++ -std=c++11
else
    echo "no C++ compiler is here: the header is not tried in C++"
fi

# ---- the examples in C and Python

for program in plan shift team recover distances migrate stack; do
    if $compiler -std=c99 -Wall -Wextra -Werror -O1 -Iinclude examples/c/$program.c "$archive" -o "$work/$program"; then
        ok "examples/c/$program.c is compiled"
    else
        bad "examples/c/$program.c is compiled"
    fi
done
"$work/plan" >"$work/printed" 2>&1
same "examples/c/plan" examples/c/expected_plan.txt "$work/printed"
for folder in trailer_one_fact_less truck_two_axles no_way damaged_table; do
    "$work/plan" examples/$folder/bay.tab examples/$folder/start.bay >"$work/printed" 2>&1
    same "examples/c/plan on $folder" examples/c/expected_plan_$folder.txt "$work/printed"
done
"$work/shift" examples/trailer/bay.tab 02 01 08 10 >"$work/printed" 2>&1
same "examples/c/shift on trailer" examples/c/expected_shift.txt "$work/printed"
"$work/shift" examples/trailer_one_fact_less/bay.tab 01 00 06 08 >"$work/printed" 2>&1
same "examples/c/shift on trailer_one_fact_less" examples/c/expected_shift_trailer_one_fact_less.txt "$work/printed"
"$work/team" examples/trailer/bay.tab 02 22113 >"$work/printed" 2>&1
same "examples/c/team on trailer" examples/c/expected_team.txt "$work/printed"
"$work/team" examples/trailer_one_fact_less/bay.tab 01 22113 >"$work/printed" 2>&1
same "examples/c/team on trailer_one_fact_less" examples/c/expected_team_trailer_one_fact_less.txt "$work/printed"
"$work/team" examples/trailer/bay.tab 02 22143 >"$work/printed" 2>&1
same "examples/c/team with a bad licence" examples/c/expected_team_bad_licence.txt "$work/printed"
for folder in trailer truck_two_axles; do
    # The entries that bayplan prints, without its first line and its last.
    sed '1d;$d' examples/$folder/expected.txt >"$work/entries"
    "$work/recover" examples/$folder/bay.tab examples/$folder/plan.tree >"$work/printed" 2>&1
    same "examples/c/recover on $folder" "$work/entries" "$work/printed"
done
"$work/recover" examples/trailer_one_fact_less/bay.tab examples/trailer_one_fact_less/plan.tree >"$work/printed" 2>&1
same "examples/c/recover on trailer_one_fact_less" examples/c/expected_recover_trailer_one_fact_less.txt "$work/printed"
"$work/recover" examples/trailer/bay.tab examples/truck_two_axles/plan.tree >"$work/printed" 2>&1
same "examples/c/recover with another table" examples/c/expected_recover_another_table.txt "$work/printed"
"$work/distances" examples/trailer/bay.tab >"$work/printed" 2>&1
same "examples/c/distances on trailer" examples/c/expected_distances.txt "$work/printed"
for folder in trailer_one_fact_less damaged_table; do
    "$work/distances" examples/$folder/bay.tab >"$work/printed" 2>&1
    same "examples/c/distances on $folder" examples/c/expected_distances_$folder.txt "$work/printed"
done
"$work/migrate" examples/trailer/bay.tab examples/trailer_one_fact_less/bay.tab 0a 01 - 0 1 2 3 >"$work/printed" 2>&1
same "examples/c/migrate from trailer" examples/c/expected_migrate.txt "$work/printed"
"$work/migrate" examples/trailer_one_fact_less/bay.tab examples/trailer/bay.tab 05 00 1 2 3 4 >"$work/printed" 2>&1
same "examples/c/migrate from trailer_one_fact_less" examples/c/expected_migrate_trailer_one_fact_less.txt "$work/printed"
"$work/migrate" examples/trailer/bay.tab examples/trailer_one_fact_less/bay.tab 0a 01 - 0 0 2 3 >"$work/printed" 2>&1
same "examples/c/migrate with two facts sent to one" examples/c/expected_migrate_bad_map.txt "$work/printed"
"$work/migrate" examples/trailer/bay.tab examples/damaged_table/bay.tab 0a 01 - 0 1 2 3 >"$work/printed" 2>&1
same "examples/c/migrate to damaged_table" examples/c/expected_migrate_damaged_table.txt "$work/printed"
(ulimit -s 256 && "$work/stack") >"$work/printed" 2>&1
same "examples/c/stack on a stack of 256 KiB" examples/c/expected_stack.txt "$work/printed"

if command -v python3 >/dev/null 2>&1; then
    if $compiler -shared -o "$work/libbay.so" -Wl,--whole-archive "$archive" -Wl,--no-whole-archive; then
        ok "a shared object of the library"
        python3 -B examples/python/plan.py "$work/libbay.so" >"$work/printed" 2>&1
        same "examples/python/plan.py" examples/python/expected_plan.txt "$work/printed"
        python3 -B examples/python/test_bay.py "$work/libbay.so" >"$work/printed" 2>&1
        status=$?
        cat "$work/printed"
        counted examples/python/test_bay.py "$work/printed" $status
    else
        bad "a shared object of the library"
    fi
else
    echo "python3 is not here: its module and its example are not run"
fi

finish
