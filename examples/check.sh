#!/bin/sh
# Looks whether the examples are what the gate runs: the scripts and the answers of docs/QUERIES.md and, behind them, of
# docs/REQUESTS.md must be the front of crates/a1/stdin and crates/a1/stdout, and examples/films.script and films.expected
# the front of those. Where a program is given, runs these and examples/write_skew.steps on it too. Prints what differs, and
# ends with 1 then.
# Usage: sh examples/check.sh [PROGRAM]
cd "$(dirname "$0")/.." || exit 1
folder=$(mktemp -d) || exit 1
trap 'rm -rf "$folder"' EXIT
status=0
# The lines of all blocks of this kind in the documents.
blocks() {
    awk -v start="\`\`\`$1" '$0 == "```" { inside = 0 } inside { print } $0 == start { inside = 1 }' docs/QUERIES.md docs/REQUESTS.md
}
# Whether the first file is the front of the second.
is_front() {
    head -n "$(wc -l < "$1")" "$2" | diff "$1" - || { echo "$1 is not the front of $2"; status=1; }
}
# Runs a command of the program on a script and compares what it answers.
answers() {
    "$1" "$2" < "$3" | diff "$4" - || { echo "$3: other answers"; status=1; }
}
blocks script > "$folder/script"
blocks answers > "$folder/answers"
is_front examples/films.script "$folder/script"
is_front examples/films.expected "$folder/answers"
is_front "$folder/script" crates/a1/stdin
is_front "$folder/answers" crates/a1/stdout
if [ $# = 1 ]; then
    answers "$1" run examples/films.script examples/films.expected
    answers "$1" run crates/a1/stdin crates/a1/stdout
    answers "$1" steps examples/write_skew.steps examples/write_skew.expected
fi
exit $status
