#!/bin/sh
# How many nanoseconds one call takes that encodes a value, decodes one, spells its key or reads a request of 100 bytes,
# and beside these serde_json's own reading of that request, each with the drop of what it makes: builds the program
# examples/codecs.txt beside a copy of the crates that it names, and runs it five times. Given a git revision, it takes
# a1_base and a1_json as they were there, and times the two readings alone. Needs rt on the path.
# Usage: sh examples/codecs.sh [REVISION]
cd "$(dirname "$0")/.." || exit 1
folder=$(mktemp -d) || exit 1
trap 'rm -rf "$folder"' EXIT
mkdir -p "$folder/crates/codecs/src"
cp HANDLES "$folder"
if [ $# = 0 ]; then
    names='a1_base a1_value a1_json'
    for crate in $names; do
        mkdir -p "$folder/crates/$crate"
        cp -r "crates/$crate/src" "crates/$crate/specs" "crates/$crate/proofs" "$folder/crates/$crate"
    done
    cp examples/codecs.txt "$folder/crates/codecs/src/main.rt"
else
    names='a1_base a1_json'
    git archive -o "$folder/crates.tar" "$1" crates/a1_base crates/a1_json || exit 1
    tar -x -f "$folder/crates.tar" -C "$folder" || exit 1
    sed -e '/^\/\/ Values,/,$d' -e '/^ghost use/d' -e '/a1_value/d' -e '/^use a1_base/s/{.*}/Bin/' -e '/values(/d' \
        examples/codecs.txt > "$folder/crates/codecs/src/main.rt"
fi
{
    for crate in $names; do
        grep "^$crate:" crates.txt
    done
    echo "codecs: $names serde_json"
} > "$folder/crates.txt"
(cd "$folder/crates/codecs" && rt run) > "$folder/log" 2>&1 || { cat "$folder/log"; exit 1; }
for run in 1 2 3 4 5; do
    echo "run $run"
    "$folder/crates/codecs/out/codecs"
done
