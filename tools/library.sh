#!/bin/sh
# Builds target/staticlib/libbay.a, the library of include/bay.h. Every crate that exports functions to C is a static library of crates.txt: each
# is proved and compiled (rt lib), and the objects of all go into one archive. Run it from anywhere; it needs the Rattle kit and binutils.
# What rt has proved here before is not proved again.
set -eu
cd "$(dirname "$0")/.."
root=$(pwd)
archives=target/staticlib
work=$(mktemp -d)
trap 'rm -rf "$work"' EXIT

crates=$(sed -n 's/^\([a-z0-9_]*\) staticlib:.*/\1/p' crates.txt)
for crate in $crates; do
    if ! (cd "crates/$crate" && rt lib) >"$work/said" 2>&1; then
        cat "$work/said" >&2
        echo "crates/$crate is not proved or not built" >&2
        exit 1
    fi
    # An object has its crate's name in front, so that no two are one.
    mkdir "$work/$crate"
    (cd "$work/$crate" && ar x "$root/crates/$crate/out/lib$crate.a")
    for object in "$work/$crate"/*; do
        mv "$object" "$work/$crate-$(basename "$object")"
    done
    rmdir "$work/$crate"
done
rm -f "$work/said"

twice=$(nm -g --defined-only "$work"/* | sed -n 's/^[0-9a-f]* [A-Z] //p' | sort | uniq -d)
if [ -n "$twice" ]; then
    echo "two crates export the same function: $twice" >&2
    exit 1
fi
mkdir -p "$archives"
rm -f "$archives/libbay.a"
ar rcs "$archives/libbay.a" "$work"/*
echo "$archives/libbay.a has the functions of include/bay.h, of the crates" $crates
