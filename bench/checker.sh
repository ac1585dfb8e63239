#!/bin/sh
# What the proof checker costs: instructions per hint literal for a chain of n implications, and per
# term for a theory part of n lines, n from 1,000 to 64,000. Needs valgrind. The instructions are those
# of a run that builds the proof and checks it, less those of a run that only builds it.
set -eu
cd "$(dirname "$0")/../crates/checker_cases"
rt run -- 1000 lines check >/dev/null 2>&1
program=out/checker_cases

instructions() {
    valgrind --tool=callgrind --callgrind-out-file=/dev/null "$program" "$1" "$2" "$3" 2>&1 |
        sed -n 's/.*Collected : //p'
}

steps() {
    "$program" "$1" lines check
}

echo "       n                    chain  growth  per hint literal   theory lines  growth  per term"
before_chain=0
before_lines=0
for n in 1000 2000 4000 8000 16000 32000 64000; do
    chain=$(($(instructions $n flags check) - $(instructions $n flags build)))
    both=$(($(instructions $n lines check) - $(instructions $n lines build)))
    lines=$((both - chain))
    # Each of n steps hints clauses of 1 and 2 literals, and the last one two clauses of 1; each of n
    # lines takes an atom of 2 terms and, but for the first, the line before with 2.
    echo "$n $chain $before_chain $((3 * n + 2)) $lines $before_lines $((4 * n - 2)) $(steps $n)" |
        awk '{
            growth = $3 ? sprintf("%.3f", $2 / $3) : "-"
            other = $6 ? sprintf("%.3f", $5 / $6) : "-"
            printf "%8d  %23d  %6s  %16.1f  %13d  %6s  %8.1f  (%s %s %s)\n",
                $1, $2, growth, $2 / $4, $5, other, $5 / $7, $8, $9, $10
        }'
    before_chain=$chain
    before_lines=$lines
done
