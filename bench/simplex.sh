#!/bin/sh
# What the simplex costs: instructions of a check by pivot, and by pivot and entry, for chains of differences of 250 to
# 1,000 columns, and for dense random systems of 20 to 60 columns, three seeds each. Needs valgrind. The instructions are
# those of a run with the check, less those of one without. The pivots are the least budget that is enough, and the
# entries are those of the rows after the check. A program may be named that is taken in place of this tree's.
set -eu
cd "$(dirname "$0")/../crates/simplex_cases"
program=${1-$PWD/out/simplex_cases}
[ $# -gt 0 ] || (rt run >/dev/null 2>&1) || [ -x "$program" ]
work=$(mktemp -d)
trap 'rm -rf "$work"' EXIT
cd "$work"

instructions() {
    printf '%s\n' "$@" >calls
    valgrind --tool=callgrind --callgrind-out-file=/dev/null "$program" 2>&1 | sed -n 's/.*Collected : //p'
}

# What a line of calls answers.
answer() {
    printf '%s\n' "$1" "$2" zeros >calls
    "$program" | sed -n "$3p" | sed 's/.*: [a-z]* *\([0-9]*\).*/\1/'
}

is_enough() {
    printf '%s\n' "$1" "ends $2" >calls
    "$program" >answers
    ! grep -q '^ends .*: pivots' answers
}

pivots() {
    low=0
    high=100000
    while [ $low -lt $high ]; do
        middle=$(((low + high) / 2))
        if is_enough "$1" $middle; then high=$middle; else low=$((middle + 1)); fi
    done
    echo $low
}

row() {
    check=$(($(instructions "$1" 'ends 100000') - $(instructions "$1")))
    count=$(pivots "$1")
    entries=$(answer "$1" 'ends 100000' 3)
    echo "$1 $count $entries $check $2" | awk '{
        growth = $NF ? sprintf("%.3f", $(NF - 1) / $NF) : "-"
        name = $1 " " $2 (NF > 6 ? " " $3 : "")
        p = $(NF - 3); e = $(NF - 2); i = $(NF - 1)
        printf "%-12s %7d %8d %12d %7s %10.1f %8.2f\n", name, p, e, i, growth, i / p, i / p / e
    }'
}

echo "system        pivots  entries instructions  growth  per pivot  per pivot and entry"
before=0
for columns in 250 500 1000; do
    row "chain $columns" $before
    before=$check
done
for columns in 20 40 60; do
    for seed in 1 2 3; do
        row "dense $columns $seed" 0
    done
done
