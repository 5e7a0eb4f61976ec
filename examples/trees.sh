#!/bin/sh
# What calls on a tree over a plain heap in memory take, in nanoseconds: builds the program examples/trees.txt beside a
# copy of the crates that it names, and runs it five times. Needs rt on the path.
# Usage: sh examples/trees.sh
cd "$(dirname "$0")/.." || exit 1
folder=$(mktemp -d) || exit 1
trap 'rm -rf "$folder"' EXIT
for crate in a1_base object_view object_btree; do
    mkdir -p "$folder/crates/$crate"
    cp -r "crates/$crate/src" "crates/$crate/specs" "crates/$crate/proofs" "$folder/crates/$crate"
done
mkdir -p "$folder/crates/trees/src"
cp examples/trees.txt "$folder/crates/trees/src/main.rt"
cp HANDLES "$folder"
{
    grep -E '^(a1_base|object_view|object_btree):' crates.txt
    echo 'trees: a1_base object_view object_btree'
} > "$folder/crates.txt"
(cd "$folder/crates/trees" && rt run) > "$folder/log" 2>&1 || { cat "$folder/log"; exit 1; }
for run in 1 2 3 4 5; do
    echo "run $run"
    "$folder/crates/trees/out/trees"
done
