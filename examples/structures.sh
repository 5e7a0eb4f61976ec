#!/bin/sh
# What calls on vertices, lists of half-edges and indexes over a plain heap in memory take, in nanoseconds: builds the
# program examples/structures.txt beside a copy of the crates that it names, and runs it five times. Needs rt on the path.
# Usage: sh examples/structures.sh
cd "$(dirname "$0")/.." || exit 1
folder=$(mktemp -d) || exit 1
trap 'rm -rf "$folder"' EXIT
crates='a1_base a1_value object_view object_btree type_schema vertex_store half_edge_lists secondary_index'
for crate in $crates; do
    mkdir -p "$folder/crates/$crate"
    cp -r "crates/$crate/src" "crates/$crate/specs" "crates/$crate/proofs" "$folder/crates/$crate"
    grep "^$crate:" crates.txt >> "$folder/crates.txt"
done
mkdir -p "$folder/crates/structures/src"
cp examples/structures.txt "$folder/crates/structures/src/main.rt"
cp HANDLES "$folder"
echo "structures: $crates" >> "$folder/crates.txt"
(cd "$folder/crates/structures" && rt run) > "$folder/log" 2>&1 || { cat "$folder/log"; exit 1; }
for run in 1 2 3 4 5; do
    echo "run $run"
    "$folder/crates/structures/out/structures"
done
