#!/bin/sh
# What the engines cost on programs with numbers.
#
# Run at the top of the repository. Makes nodes of 5 to 50 counters, each with a property that holds and one that
# breaks after at most five instants, a counter that breaks a property at instant 200, one that stops at 1,000 and
# would break its property behind the depth of 100, and a shift register of ten steps, whose property is inductive
# with ten states alone. Prints the seconds of a proof and, where valgrind is there, its instructions; and where z3 is
# there the seconds that it takes for the queries of the same turns, written in SMT-LIB: at each instant up to the
# break, and by induction with as many states. The first figure is of queries that each say their own path, the second
# of queries that share one, which grows by a state from one to the next. Then the counter that breaks late at smaller
# depths: what each further instant costs. Ends with status 1 where an answer is not the one worked out by hand. The
# word `quick` leaves out 25 and 50 counters, the late break and the counter that stops.
set -eu

top=$(pwd)
program=$top/crates/kind/out/kind
work=$(mktemp -d)
trap 'rm -rf "$work"' EXIT
. bench/counters.sh

# A shift register of ten steps that is never fed.
register() {
    awk 'BEGIN {
        print "node shift() returns (x0, x1, x2, x3, x4, x5, x6, x7, x8, x9 : bool);\nlet"
        for (i = 0; i < 10; i++) printf "  x%d = false -> pre x%d;\n", i, (i + 1) % 10
        print "  --%PROPERTY \"off\" not x0;\ntel"
    }'
}

# The seconds and the instructions of a proof with these words, whose last line is to be `$1`, and behind them `$3`.
row() {
    wanted=$1
    name=$2
    other=$3
    shift 3
    start=$(date +%s.%N)
    "$program" prove "$@" >"$work/printed" || true
    end=$(date +%s.%N)
    [ "$(tail -n 1 "$work/printed")" = "$wanted" ] || { tail -n 1 "$work/printed"; echo "$name: not the answer"; exit 1; }
    count=-
    if command -v valgrind >/dev/null; then
        count=$(valgrind --tool=callgrind --callgrind-out-file="$work/counts" "$program" prove "$@" 2>&1 >"$work/again" |
            awk '/Collected/ { print $4 }' || true)
    fi
    echo "$name $start $end $count $other" | awk '{ printf "%s %.2f %s %s %s\n", $1, $3 - $2, $4, $5, $6 }'
}

# The program is built where it is missing or older than its sources.
./kind prove examples/debounce.lus >/dev/null || [ $? -eq 1 ]
sizes="5 10 25 50"
if [ "${1-}" = quick ]; then sizes="5 10"; fi
echo "source seconds instructions z3_seconds z3_seconds_one_path"
for count in $sizes; do
    counters $count >"$work/counters"
    row "summary valid $count falsifiable $count unknown 0" "counters_$count" "$(rival queries $count 20) $(rival queries $count 20 kept)" \
        "$work/counters"
done
printf 'node main() returns (n : int);\nlet\n  n = 0 -> pre n + 1;\n  --%%PROPERTY "below" n < 200;\ntel\n' >"$work/late"
[ "${1-}" = quick ] ||
    row "summary valid 0 falsifiable 1 unknown 0" breaks_at_200 "$(rival queries late 200) $(rival queries late 200 kept)" \
        --depth 200 "$work/late"
printf 'node main() returns (n : int);\nlet\n  n = 0 -> if pre n < 1000 then pre n + 1 else pre n;\n  --%%PROPERTY "below" n < 900;\ntel\n' >"$work/stops"
[ "${1-}" = quick ] ||
    row "summary valid 0 falsifiable 0 unknown 1" stops_at_1000 "- -" --depth 100 "$work/stops"
register >"$work/register"
row "summary valid 1 falsifiable 0 unknown 0" register_10 "$(rival register_queries 10) $(rival register_queries 10 kept)" \
    "$work/register"
for depth in 25 50 100; do
    row "summary valid 0 falsifiable 0 unknown 1" "depth_$depth" "- -" --depth $depth "$work/late"
done
