#!/bin/sh
# What it costs to make a base: instructions per hint literal and clause for a refutation of n steps over
# a query of 5 n clauses, n from 1,000 to 64,000. Needs valgrind. The instructions are those of a run
# that builds system and refutation and makes the base, less those of a run that only builds them.
set -eu
cd "$(dirname "$0")/../crates/solver_cases"
rt run -- facts 1000 check >/dev/null 2>&1
program=out/solver_cases

instructions() {
    valgrind --tool=callgrind --callgrind-out-file=/dev/null "$program" facts "$1" "$2" 2>&1 |
        sed -n 's/.*Collected : //p'
}

echo "       n   instructions  growth  per clause or hint literal"
before=0
for n in 1000 2000 4000 8000 16000 32000 64000; do
    count=$(($(instructions $n check) - $(instructions $n build)))
    # Each of n steps hints clauses of 1, 1 and 3 literals, and the last one two of 1; the query has
    # 5 n + 3 clauses.
    echo "$n $count $before $((10 * n + 5)) $("$program" facts $n check)" | awk '{
        growth = $3 ? sprintf("%.3f", $2 / $3) : "-"
        printf "%8d  %13d  %6s  %26.1f  (%s %s %s)\n", $1, $2, growth, $2 / $4, $5, $6, $7
        if ($3 && ($2 / $3 < 1.9 || $2 / $3 > 2.1)) exit 1
    }' || { echo "not linear"; exit 1; }
    before=$count
done
