#!/bin/sh
# What reads, writes and allocs of a plain heap in memory take, in nanoseconds: builds the program examples/objects.txt
# beside a copy of the crates that it names, and runs it five times. Needs rt on the path.
# Usage: sh examples/objects.sh
cd "$(dirname "$0")/.." || exit 1
folder=$(mktemp -d) || exit 1
trap 'rm -rf "$folder"' EXIT
for crate in a1_base object_view; do
    mkdir -p "$folder/crates/$crate"
    cp -r "crates/$crate/src" "crates/$crate/specs" "crates/$crate/proofs" "$folder/crates/$crate"
done
mkdir -p "$folder/crates/objects/src"
cp examples/objects.txt "$folder/crates/objects/src/main.rt"
cp HANDLES "$folder"
{
    grep -E '^(a1_base|object_view):' crates.txt
    echo 'objects: a1_base object_view'
} > "$folder/crates.txt"
(cd "$folder/crates/objects" && rt run) > "$folder/log" 2>&1 || { cat "$folder/log"; exit 1; }
for run in 1 2 3 4 5; do
    echo "run $run"
    "$folder/crates/objects/out/objects"
done
