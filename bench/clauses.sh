#!/bin/sh
# What the clause form costs: instructions per part of a query of n conditions, n from 1,000 to 64,000.
#
# Needs valgrind. The instructions are those of a run that builds the query and makes its clauses, less
# those of a run that only builds it. Ends with status 1 where a doubling of n does not double them to
# within 5 %.
set -eu
cd "$(dirname "$0")/../crates/solver_cases"
rt run -- clauses 1000 make >/dev/null 2>&1
program=out/solver_cases

instructions() {
    valgrind --tool=callgrind --callgrind-out-file=/dev/null "$program" clauses "$1" "$2" 2>&1 |
        sed -n 's/.*Collected : //p'
}

echo "       n     instructions  growth  per part"
before=0
for n in 1000 2000 4000 8000 16000 32000 64000; do
    made=$(($(instructions $n make) - $(instructions $n build)))
    echo "$n $made $before" |
        awk '{
            growth = $3 ? $2 / $3 : 2
            printf "%8d  %15d  %6s  %8.1f\n", $1, $2, ($3 ? sprintf("%.3f", growth) : "-"), $2 / (15 * $1)
            if (growth < 1.9 || growth > 2.1) exit 1
        }' || { echo "not linear"; exit 1; }
    before=$made
done
