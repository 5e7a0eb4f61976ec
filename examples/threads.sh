#!/bin/sh
# How often a second, in millions, one, two and four threads take turns at a turnstile and at a mutex of std, draw stamps
# of a clock and add to a bare word: builds the program examples/threads.txt beside a copy of the crates that it names, and
# runs it five times. Needs rt on the path.
# Usage: sh examples/threads.sh
cd "$(dirname "$0")/.." || exit 1
folder=$(mktemp -d) || exit 1
trap 'rm -rf "$folder"' EXIT
for crate in a1_base turnstile snapshot_stamps; do
    mkdir -p "$folder/crates/$crate"
    cp -r "crates/$crate/src" "crates/$crate/specs" "crates/$crate/proofs" "$folder/crates/$crate"
done
mkdir -p "$folder/crates/threads/src"
cp examples/threads.txt "$folder/crates/threads/src/main.rt"
cp HANDLES "$folder"
{
    grep -E '^(a1_base|turnstile|snapshot_stamps):' crates.txt
    echo 'threads: a1_base turnstile snapshot_stamps'
} > "$folder/crates.txt"
(cd "$folder/crates/threads" && rt run) > "$folder/log" 2>&1 || { cat "$folder/log"; exit 1; }
for run in 1 2 3 4 5; do
    echo "run $run"
    "$folder/crates/threads/out/threads"
done
