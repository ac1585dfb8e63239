#!/bin/sh
# What the search costs, beside minisat on the same files where it is there: conflicts, seconds,
# instructions by propagation, and conflicts and propagations a second, for pigeon holes, random
# clauses of three literals near the threshold of 4.26 clauses a variable, ten seeds each, and a chain
# of 10,000 implications. Instructions need valgrind, and are those of the search less those of reading
# the file alone; seconds are those of a whole run. The word `quick` takes three seeds.
set -eu
cd "$(dirname "$0")/../crates/search_trial"
rt run -- data/four.cnf search >/dev/null 2>&1
program=$PWD/out/search_trial
work=$(mktemp -d)
trap 'rm -rf "$work"' EXIT
seeds="1 2 3 4 5 6 7 8 9 10"
[ "${1-}" = quick ] && seeds="1 2 3"

pigeons() {
    awk -v n="$1" 'BEGIN {
        m = n - 1
        print "p cnf " n * m " " n + m * n * (n - 1) / 2
        for (p = 0; p < n; p++) { for (h = 1; h <= m; h++) printf "%d ", p * m + h; print "0" }
        for (h = 1; h <= m; h++) for (p = 0; p < n; p++) for (q = 0; q < p; q++)
            print "-" p * m + h " -" q * m + h " 0"
    }'
}

random() {
    awk -v n="$1" -v seed="$2" 'BEGIN {
        srand(seed)
        m = int(n * 4.26)
        print "p cnf " n " " m
        for (i = 0; i < m; i++) {
            a = int(rand() * n) + 1
            do b = int(rand() * n) + 1; while (b == a)
            do c = int(rand() * n) + 1; while (c == a || c == b)
            print (rand() < 0.5 ? a : -a) " " (rand() < 0.5 ? b : -b) " " (rand() < 0.5 ? c : -c) " 0"
        }
    }'
}

chain() {
    awk -v n="$1" 'BEGIN {
        print "p cnf " n " " n
        for (i = n - 1; i > 0; i--) print "-" i " " i + 1 " 0"
        print "1 0"
    }'
}

# The instructions of a run, and the calls of the function that puts a literal on the trail.
counted() {
    valgrind --tool=callgrind --callgrind-out-file="$work/calls" "$@" 2>&1 | sed -n 's/.*Collected : //p'
    awk '/^c?fn=/ {
            id = $0; sub(/^c?fn=/, "", id); name = id
            sub(/\).*/, ")", id); sub(/^\([0-9]*\) ?/, "", name)
            if (name != "") names[id] = name
            if (/^cfn/) called = id
        }
        /^calls=/ { split($1, part, "="); if (names[called] ~ /Assignment::push/) count += part[2] }
        END { print count + 0 }' "$work/calls"
}

seconds() {
    start=$(date +%s.%N)
    "$@" >"$work/out" 2>&1 || true
    end=$(date +%s.%N)
    echo "$start $end" | awk '{ printf "%.3f", $2 - $1 }'
}

theirs() {
    command -v minisat >/dev/null || { echo "- - - 0"; return; }
    time=$(seconds minisat "$1")
    conflicts=$(sed -n 's/^conflicts *: *\([0-9]*\).*/\1/p' "$work/out")
    propagations=$(sed -n 's/^propagations *: *\([0-9]*\).*/\1/p' "$work/out")
    set -- $(counted minisat "$1")
    echo "$conflicts $time $1 $propagations"
}

row() {
    time=$(seconds "$program" "$2" search)
    answer=$(cat "$work/out")
    whole=$(counted "$program" "$2" search)
    read=$(counted "$program" "$2" read)
    echo "$1 $answer $time" $whole $read $(theirs "$2") | awk '
    function rate(count, seconds) { return seconds > 0 ? sprintf("%.0f", count / seconds) : "-" }
    {
        spent = $5 - $7
        each = $6 > 0 ? spent / $6 : 0
        theirs = $12 > 0 ? $11 / $12 : 0
        printf "%-14s %-13s %8s %8s %12.0f %8s %6.0f | %8s %8s %12s %8s %6.0f %5.2f | %8s %9s %8s %9s\n",
            $1, $2, $3, $4, spent, $6, each, $9, $10, $11, $12, theirs, (theirs > 0 ? each / theirs : 0),
            rate($3, $4), rate($6, $4), rate($9, $10), rate($12, $10)
    }' | tee -a "$work/rows"
}

# The medians of the conflicts and of the ratio of instructions per propagation.
medians() {
    for column in 3 9 14; do
        grep "^$1" "$work/rows" | awk -v c=$column '{ print $c }' | sort -n |
            awk '{ x[NR] = $1 } END { m = int((NR + 1) / 2); print NR % 2 ? x[m] : (x[m] + x[m + 1]) / 2 }'
    done | tr '\n' ' ' | awk -v name="$1" '{
        printf "%s: median of conflicts %s, of minisat %s, of the ratio by propagation %s\n", name, $1, $2, $3
    }'
}

echo "file, answer, conflicts, seconds, instructions, literals put on the trail, instructions for each |"
echo "minisat: conflicts, seconds, instructions, propagations, instructions for each; ratio of these |"
echo "conflicts and propagations a second; those of minisat"
for n in 6 7 8; do
    pigeons $n >"$work/pigeons$n"
    row "pigeons$n" "$work/pigeons$n"
done
for n in 100 150; do
    for seed in $seeds; do
        random $n "$seed" >"$work/random"
        row "random$n.$seed" "$work/random"
    done
    medians "random$n"
done
chain 10000 >"$work/chain"
row chain "$work/chain"
