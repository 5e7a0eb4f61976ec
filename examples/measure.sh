#!/bin/sh
# Times the built program, and takes its peak memory: on lines that are no request, 16 and 32 MiB of each kind, on puts of
# different vertices, on requests of 1,000 operations on 100,000 vertices, on queries and drops, on events of transactions by
# 35 actors, and on events beside a snapshot that stays. Of five runs the middle one counts; what queries and drops take is what a script takes more than without them. Needs /usr/bin/time (GNU time) and awk.
# Usage: sh examples/measure.sh [PROGRAM]
program=${1:-crates/a1/out/a1}
folder=$(mktemp -d) || exit 1
trap 'rm -rf "$folder"' EXIT
command=run

measure() {
    bytes=$(wc -c < "$folder/script")
    lines=$(wc -l < "$folder/script")
    for run in 1 2 3 4 5; do
        /usr/bin/time -f "%U %S %M" "$program" "$command" < "$folder/script" 2>&1 > "$folder/text"
    done | awk '{ printf "%.2f processor seconds, %d KiB\n", $1 + $2, $3 }' | sort -n | sed -n 3p | sed "s/^/$1: $bytes bytes, $lines lines, /"
}

# The same over a table of SQLite, where there is a Python.
beside() {
    command -v python3 > /dev/null && python3 "$(dirname "$0")/beside.py" "$folder/script"
}

# As many lines as fit into 32 MiB, and half of them.
lines_of() {
    most=$((33554432 / (${#2} + 1)))
    for count in $((most / 2)) "$most"; do
        yes "$2" | head -n "$count" > "$folder/script"
        measure "$1"
    done
}

lines_of "empty requests" "1 "
lines_of "requests that are no JSON" "1 hello"
lines_of "requests of 1,000 bytes that are no JSON" "1 $(head -c 998 /dev/zero | tr '\0' x)"
# A graph with a type of vertices of two attributes, and then as many puts, one a line.
puts='function key(i) { return (i * 7919) % 1000003 }
function put(i) { return "{\"put\":{\"graph\":\"t/g\",\"type\":\"film\",\"v\":{\"id\":\"f" key(i) "\",\"year\":" i "}}}" }
function set(i) { return "{\"set\":{\"graph\":\"t/g\",\"type\":\"film\",\"id\":\"f" key(i) "\",\"v\":{\"year\":" i + 1 "}}}" }
BEGIN {
    print "1 {\"do\":[{\"create_tenant\":\"t\"},{\"create_graph\":\"t/g\"}]}"
    print "1 {\"do\":[{\"create_vertex_type\":{\"graph\":\"t/g\",\"type\":\"film\",\"attrs\":[{\"name\":\"id\",\"kind\":\"text\"},{\"name\":\"year\",\"kind\":\"int\"}]}}]}"
    for (i = 0; i < count; i++) print "1 {\"do\":[" put(i) "]}"
    for (r = 0; r < loads; r++) {
        printf "1 {\"do\":["
        for (i = 0; i < 1000; i++) printf "%s%s", (i ? "," : ""), put(r * 1000 + i)
        print "]}"
    }
    for (r = 0; r < sets; r++) {
        printf "1 {\"do\":["
        for (i = 0; i < 1000; i++) printf "%s%s", (i ? "," : ""), set((i * 100 + r) % 100000)
        print "]}"
    }
}'
for count in 10000 20000 100000 200000; do
    awk -v count="$count" "$puts" > "$folder/script"
    measure "puts of different vertices"
    beside
done
for sets in 0 100; do
    awk -v loads=100 -v sets="$sets" "$puts" > "$folder/script"
    measure "100,000 vertices, and then $sets requests of 1,000 sets each"
    beside
done

# Vertices 0 to count - 1 with the edges of a mode, and then as many queries or drops, one a line:
#   id    no edges; each vertex by its id
#   hop   edges from vertex 0 to so many others; how many these are
#   hops  the same, and as many edges from each of those; how many two hops reach
#   drop  an edge from each vertex to the next; vertices go
queries='function id(i) { return "f" (i * 7919) % 1000003 }
function add(op) { printf "%s%s", (n % 1000 ? "," : "1 {\"do\":["), op; if (++n % 1000 == 0) print "]}" }
function flush() { if (n % 1000) print "]}"; n = 0 }
function put(i) { return "{\"put\":{\"graph\":\"t/g\",\"type\":\"film\",\"v\":{\"id\":\"" id(i) "\",\"year\":" i "}}}" }
function end(i) { return "{\"type\":\"film\",\"id\":\"" id(i) "\"}" }
function edge(i, j) { return "{\"link\":{\"graph\":\"t/g\",\"type\":\"next\",\"from\":" end(i) ",\"to\":" end(j) "}}" }
function ask(i, rest) { return "1 {\"ask\":{\"_type\":\"film\",\"id\":\"" id(i) "\"" rest "},\"graph\":\"t/g\"}" }
function hop(rest) { return ",\"_out_edge\":{\"_type\":\"next\",\"_vertex\":{\"_type\":\"film\"" rest "}}" }
BEGIN {
    counted = ",\"_select\":[\"_count(*)\"]"
    print "1 {\"do\":[{\"create_tenant\":\"t\"},{\"create_graph\":\"t/g\"}]}"
    print "1 {\"do\":[{\"create_vertex_type\":{\"graph\":\"t/g\",\"type\":\"film\",\"attrs\":[{\"name\":\"id\",\"kind\":\"text\"},{\"name\":\"year\",\"kind\":\"int\"}]}},{\"create_edge_type\":{\"graph\":\"t/g\",\"type\":\"next\",\"attrs\":[]}}]}"
    for (i = 0; i < count; i++) add(put(i))
    flush()
    if (mode == "hop" || mode == "hops") for (i = 1; i <= fan; i++) add(edge(0, i))
    if (mode == "hops") for (i = 1; i <= fan; i++) for (j = 1; j <= fan; j++) add(edge(i, i * fan + j))
    if (mode == "drop") for (i = 0; i < count; i++) add(edge(i, (i + 1) % count))
    flush()
    for (k = 0; k < lines; k++) {
        if (mode == "id") print ask(k % count, "")
        if (mode == "hop") print ask(0, hop(counted))
        if (mode == "hops") print ask(0, hop(hop(counted)))
        if (mode == "drop") print "1 {\"do\":[{\"drop\":{\"graph\":\"t/g\",\"type\":\"film\",\"id\":\"" id(k * 3 % count) "\"}}]}"
    }
}'
asks() {
    for lines in 0 "$4"; do
        awk -v mode="$1" -v count="$2" -v fan="$3" -v lines="$lines" "$queries" > "$folder/script"
        measure "$2 vertices, $5, and then $lines lines"
        beside
    done
}
asks id 50000 0 100000 "each asked for by its id"
asks id 100000 0 100000 "each asked for by its id"
asks hop 100000 500 1000 "one hop over 500 edges"
asks hop 100000 1000 1000 "one hop over 1,000 edges"
asks hops 100000 15 1000 "two hops over 15 times 15 edges"
asks hops 100000 30 1000 "two hops over 30 times 30 edges"
asks drop 10000 0 3000 "with an edge to the next each, of which some go"
asks drop 100000 0 3000 "with an edge to the next each, of which some go"

# Vertices with the ids 0 to 100,000, and then a query whose set would have one too many, and one that counts 100,000 of them.
awk 'BEGIN {
    print "1 {\"do\":[{\"create_tenant\":\"t\"},{\"create_graph\":\"t/g\"},{\"create_vertex_type\":{\"graph\":\"t/g\",\"type\":\"n\",\"attrs\":[{\"name\":\"id\",\"kind\":\"int\"}]}}]}"
    for (i = 0; i <= 100000; i++) printf "%s{\"put\":{\"graph\":\"t/g\",\"type\":\"n\",\"v\":{\"id\":%d}}}%s", (i % 1024 ? "," : "1 {\"do\":["), i, (i % 1024 == 1023 || i == 100000 ? "]}\n" : "")
    print "1 {\"ask\":{\"_type\":\"n\"},\"graph\":\"t/g\"}"
    print "1 {\"ask\":{\"_type\":\"n\",\"id\":{\"_ge\":1},\"_select\":[\"_count(*)\"]},\"graph\":\"t/g\"}"
}' > "$folder/script"
measure "100,001 vertices, and then two queries over all of them"

# Rounds of 35 transactions side by side: each reads an object, locks another, and installs it where what it read still
# stands. Each round collects on one node.
events='function line(text) { if (n++ < count) print text }
function place(i) { i %= objects; return i % 3 ":" int(i / 3) }
BEGIN {
    objects = 3000
    for (i = 0; i < objects; i++) line("load " place(i) " " sprintf("%08x", i))
    for (round = 1; n < count; round++) {
        for (a = 1; a <= 35; a++) line("begin " a "." round)
        for (a = 1; a <= 35; a++) line("read " a "." round " " place(round * 37 + a))
        for (a = 1; a <= 35; a++) line("lock " a "." round " " place(round * 37 + a * 2) " " sprintf("%08x", round))
        for (a = 1; a <= 35; a++) line("draw " a "." round)
        for (a = 1; a <= 35; a++) line("check " a "." round " " place(round * 37 + a))
        for (a = 1; a <= 35; a++) line("put " a "." round " " place(round * 37 + a * 2))
        for (a = 1; a <= 35; a++) line("unlock " a "." round " " place(round * 37 + a * 2))
        for (a = 1; a <= 35; a++) line("shut " a "." round)
        line("collect " round % 3)
    }
}'
command=steps
for count in 200000 400000; do
    awk -v count="$count" "$events" > "$folder/script"
    measure "events of 35 actors"
done

# One transaction that keeps its snapshot from the start on, and one after another of which each updates the next of 1,000
# objects; behind every tenth event a collection on one node, which can remove nothing.
pinned='function line(text) { if (n++ < count) print text }
function place(i) { i %= objects; return i % 3 ":" int(i / 3) }
BEGIN {
    objects = 1000
    for (i = 0; i < objects; i++) line("load " place(i) " " sprintf("%08x", i))
    line("begin 1.1")
    for (round = 1; n < count; round++) {
        line("begin 2." round)
        line("lock 2." round " " place(round) " " sprintf("%08x", round))
        line("draw 2." round)
        line("put 2." round " " place(round))
        line("shut 2." round)
        if (round % 2 == 0) line("collect " round % 3)
    }
}'
for count in 250000 500000; do
    awk -v count="$count" "$pinned" > "$folder/script"
    measure "events beside an old snapshot"
done
