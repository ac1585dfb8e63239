#!/bin/sh
# Instructions that a proof takes of a property of a ring of latches, and of those of counters.
#
# Run at the top of the repository. Makes rings of 25 to 200 latches, one of which is set at first and
# hands its value on where an input says so, with the property that at most one is set, and counts the
# instructions of the program that proves it, where valgrind is there, less those of a run on a node of
# one equation. Ends with status 1 where the property is not shown, or where a ring of twice as many
# latches takes five times as many instructions or more: the search looks at more clauses, and
# each layer of the query is wider. Behind them 5 to 50 counters at the depth 1, with the seconds that
# z3 takes for the same queries, where it is there. The word `latches` leaves the counters out.
set -eu

top=$(pwd)
program=$top/crates/kind/out/kind
work=$(mktemp -d)
trap 'rm -rf "$work"' EXIT
. bench/counters.sh

# A ring of `$1` latches.
ring_of() {
    awk -v count="$1" '
    function listed(name,   i, text) {
        text = name "0"
        for (i = 1; i < count; i++) text = text ", " name i
        return text
    }
    BEGIN {
        last = count - 1
        print "node ring(move : bool) returns (" listed("set") " : bool);"
        print "var " listed("one") ", " listed("seen") " : bool;"
        print "let"
        for (i = 0; i < count; i++)
            printf "  set%d = %s -> if move then pre set%d else pre set%d;\n", i, i ? "false" : "true", i ? i - 1 : last, i
        print "  seen0 = set0;\n  one0 = true;"
        for (i = 1; i < count; i++) {
            printf "  seen%d = seen%d or set%d;\n", i, i - 1, i
            printf "  one%d = one%d and not (seen%d and set%d);\n", i, i - 1, i - 1, i
        }
        printf "  --%%PROPERTY \"one at most\" one%d;\ntel\n", last
    }'
}

# The instructions of the program on these words.
counted() {
    valgrind --tool=callgrind --callgrind-out-file="$work/counts" \
        "$program" prove "$@" >"$work/printed" 2>"$work/log" || true
    awk '/Collected/ { print $4 }' "$work/log"
}

# The program is built where it is missing or older than its sources.
./kind prove examples/debounce.lus >/dev/null || [ $? -eq 1 ]
if ! command -v valgrind >/dev/null; then
    echo "valgrind is not there: nothing is counted"
    exit 0
fi

echo 'node main(a : bool) returns (x : bool); let x = a; tel' >"$work/one"
base=$(counted "$work/one")
echo "latches instructions each growth"
earlier=0
for latches in 25 50 100 200; do
    ring_of $latches >"$work/ring"
    count=$(($(counted "$work/ring") - base))
    grep -q '^valid property "one at most"' "$work/printed" || { cat "$work/printed"; echo "not shown"; exit 1; }
    awk -v n=$latches -v c="$count" -v p="$earlier" 'BEGIN {
        printf "%d %.0f %.1f %s\n", n, c, c / n, p ? sprintf("%.3f", c / p) : "-"
        if (p && c / p >= 5) exit 1
    }' || { echo "too slow"; exit 1; }
    earlier=$count
done

[ "${1-}" = latches ] && exit 0
echo "counters instructions each growth seconds z3_seconds"
earlier=0
for number in 5 10 25 50; do
    counters $number >"$work/counters"
    from=$(date +%s.%N)
    "$program" prove --depth 1 "$work/counters" >"$work/printed" || true
    to=$(date +%s.%N)
    # Counter i stops at 1 + i * i mod 5, so the property below its end breaks within the depth where that is 1.
    wanted=$(awk -v n=$number 'BEGIN { b = int(n / 5); print "summary valid " n " falsifiable " b " unknown " n - b }')
    [ "$(tail -n 1 "$work/printed")" = "$wanted" ] || { tail -n 1 "$work/printed"; echo "not the answer"; exit 1; }
    count=$(($(counted --depth 1 "$work/counters") - base))
    awk -v n=$number -v c="$count" -v p="$earlier" -v from="$from" -v to="$to" -v z="$(rival queries $number 1)" 'BEGIN {
        printf "%d %.0f %.1f %s %.2f %s\n", n, c, c / n, p ? sprintf("%.3f", c / p) : "-", to - from, z
    }'
    earlier=$count
done
