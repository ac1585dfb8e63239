#!/bin/sh
# Instructions that a replay takes per equation and instant, and the reading of a trace per byte.
#
# Run at the top of the repository. Makes nodes of 50 and of 100 equations with four inputs, and
# traces of 1, 250, 500 and 1,001 instants, and counts the instructions of the program on them, where
# valgrind is there. What is done once, whatever the number of instants, is what a run on one instant
# takes more than on the same trace with a word behind its `end`, which is refused once all its lines
# are read; the replay of a trace is what its run takes more than that; the reading is what a refused
# run takes more than where the trace has no lines. Ends with status 1 where a replay takes 400
# instructions or more for each equation at an instant, does not double with the instants or with the
# equations, or where the reading takes 60 instructions a byte or more.
#
# Behind that the same of programs of 60 and of 120 equations of other kinds: with numbers, on two
# clocks, with calls (half of them two deep), with calls that run while a condition is true, on a
# clock that is on once in 1,000 instants, and with modes. A replay may take 400 instructions for
# each equation, with those in callees, and 800 for each mode at an instant, and is to double with the instants and
# with the equations. What is done once may grow fourfold where the equations double.
#
# Last, the program of the slow clock with that clock on once in 1,000 instants may cost no more than with it always on;
# and what a replay of a node of nearly 20,000 variables at 1,001 instants holds at most.
set -eu

top=$(pwd)
program=$top/crates/kind/out/kind
work=$(mktemp -d)
trap 'rm -rf "$work"' EXIT

# A node of `$1` equations, of every operator.
source_of() {
    awk -v count="$1" 'BEGIN {
        print "node main(door, motor, brake, stop : bool)\nreturns ("
        for (i = 0; i < count; i++) printf "  signal_%d%s\n", i, i + 1 < count ? "," : " : bool);\nlet"
        split("door motor brake stop", inputs, " ")
        for (i = 0; i < count; i++) {
            a = inputs[i % 4 + 1]
            b = i ? "signal_" (i - 1) : "motor"
            x = "signal_" i
            if (i % 4 == 0) e = a " and (" b " or pre " x ")"
            if (i % 4 == 1) e = "false -> (if " a " then not pre " b " else " b ")"
            if (i % 4 == 2) e = "(" b " xor " a ") = (pre " x " => " b ")"
            if (i % 4 == 3) e = "not (" a " <> " b ")"
            printf "  %s = %s;\n", x, e
        }
        printf "  --%%PROPERTY \"last\" %s or not %s;\ntel\n", x, x
    }'
}

# A trace of `$1` instants, behind whose end line `$2` stands.
trace_of() {
    awk -v count="$1" -v behind="$2" 'BEGIN {
        print "trace main " count
        split("door motor brake stop", inputs, " ")
        seed = 1
        for (i = 1; i <= 4; i++) {
            printf "%s", inputs[i]
            for (t = 0; t < count; t++) {
                seed = (seed * 16807) % 2147483647
                printf " %s", seed % 2 ? "true" : "false"
            }
            print ""
        }
        print "end" behind
    }'
}

# A program of the kind `$1` with `$2` equations; of calls and modes with as many of these.
program_of() {
    awk -v kind="$1" -v count="$2" '
    function listed(name, many,   i, text) {
        text = name "0"
        for (i = 1; i < many; i++) text = text ", " name i
        return text
    }
    # the signal before the `i`-th one
    function before(i) { return i ? "signal" (i - 1) : "value" }
    function numbers(i,   b, x) {
        b = before(i); x = "signal" i
        if (i % 5 == 0) return "(value + " b " + 3 * pre " x ") mod 1000"
        if (i % 5 == 1) return "0 -> (if " b " < value then pre " b " - 4 else " b ")"
        if (i % 5 == 2) return b " * 7 div 5 + value"
        if (i % 5 == 3) return "-" b " + 2"
        return "(if " b " >= value then value else " b ")"
    }
    BEGIN {
        print "node step(u : int; back : bool) returns (k : int);"
        print "let k = if back then 0 else ((0 -> pre k) + u) mod 1000; tel"
        print "node twice(u : int; back : bool) returns (k : int);"
        print "let k = step(step(u, back), false) - 1; tel"
        many = kind == "clocks" || kind == "slow" ? count / 3 : kind == "modes" ? 1 : count
        print "node main(fast, rare : bool; value : int) returns (" listed("signal", many) " : int);"
        if (kind == "modes") {
            print "(*@contract"
            for (i = 0; i < count; i++)
                printf "  mode m%d (require value > %d; ensure signal0 > %d;);\n", i, i - 100, i - 101
            print "  mode low (require value <= -100;);\n*)"
        }
        if (kind == "clocks") print "var " listed("f", many) " : int when fast; " listed("g", many) " : int when not rare;"
        if (kind == "slow") print "var " listed("f", many) " : int when rare; " listed("h", many) " : int;"
        print "let"
        for (i = 0; i < many; i++) {
            b = before(i); x = "signal" i
            if (kind == "numbers") print "  " x " = " numbers(i) ";"
            if (kind == "calls") print "  " x " = " (i % 2 ? "step" : "twice") "(" b ", rare);"
            if (kind == "condacts") print "  " x " = condact(" (i % 2 ? "fast" : "not fast") ", step(" b ", rare), " i ");"
            if (kind == "clocks") {
                print "  f" i " = 0 -> (pre f" i " + (" b " when fast)) mod 100;"
                print "  g" i " = (" b " when not rare) + 1;"
                print "  " x " = (merge fast (true -> f" i ") (false -> value when not fast)) - (merge rare (true -> 0) (false -> g" i "));"
            }
            if (kind == "slow") {
                print "  f" i " = 1 -> pre f" i " + 1;"
                print "  h" i " = condact(rare, step(" b ", fast), " i ");"
                print "  " x " = merge rare (true -> f" i ") (false -> (0 -> pre " x ") when not rare);"
            }
            if (kind == "modes") print "  " x " = value;"
        }
        print "  --%PROPERTY \"last\" " x " > " x " - 1;\ntel"
    }'
}

# A trace of `$1` instants for it, behind whose end line `$2` stands; `rare` is true at every `$3`th instant.
numbers_of() {
    awk -v count="$1" -v behind="$2" -v every="$3" 'BEGIN {
        print "trace main " count
        seed = 1
        for (t = 0; t < count; t++) {
            seed = (seed * 16807) % 2147483647
            fast = fast " " (seed % 3 ? "true" : "false")
            rare = rare " " (t % every == 3 % every ? "true" : "false")
            value = value " " seed % 199 - 99
        }
        print "fast" fast "\nrare" rare "\nvalue" value "\nend" behind
    }'
}

# The instructions of the program on the source `$1` and the trace `$2`.
counted() {
    valgrind --tool=callgrind --callgrind-out-file="$work/counts" \
        "$program" replay "$1" "$2" >"$work/printed" 2>"$work/log" || true
    awk '/Collected/ { print $4 }' "$work/log"
}

# The program is built where it is missing or older than its sources.
./kind replay examples/toggle.lus examples/toggle.trace >/dev/null || [ $? -eq 1 ]
if ! command -v valgrind >/dev/null; then
    echo "valgrind is not there: nothing is counted"
    exit 0
fi
# The C library keeps no small freed pieces apart, since it would gather them at one size and not at
# another.
export GLIBC_TUNABLES=glibc.malloc.mxfast=0

for equations in 50 100; do
    source_of $equations >"$work/source_$equations"
done
printf 'trace main 1\nend x\n' >"$work/no_lines"
for instants in 1 250 500 1001; do
    trace_of $instants "" >"$work/trace_$instants"
    trace_of $instants " x" >"$work/refused_$instants"
done

echo "equations instants once instructions each growth-by-instants growth-by-equations"
for equations in 50 100; do
    earlier=0
    whole=$(counted "$work/source_$equations" "$work/trace_1")
    once=$((whole - $(counted "$work/source_$equations" "$work/refused_1")))
    for instants in 250 500 1001; do
        whole=$(counted "$work/source_$equations" "$work/trace_$instants")
        grep -q "^lawful $instants of $instants" "$work/printed"
        read=$(counted "$work/source_$equations" "$work/refused_$instants")
        count=$((whole - read - once))
        fewer=0
        if [ $equations -eq 100 ]; then fewer=$(cat "$work/replay_$instants"); fi
        echo "$count" >"$work/replay_$instants"
        awk -v e=$equations -v n=$instants -v o="$once" -v c="$count" -v p="$earlier" -v f="$fewer" 'BEGIN {
            each = c / e / (n - 1)
            by_instants = p ? sprintf("%.3f", c / p) : "-"
            by_equations = f ? sprintf("%.3f", c / f) : "-"
            printf "%d %d %d %d %.1f %s %s\n", e, n, o, c, each, by_instants, by_equations
            if (each >= 400 || (p && (c / p < 1.8 || c / p > 2.2)) || (f && (c / f < 1.8 || c / f > 2.2))) exit 1
        }' || { echo "too slow, or not linear"; exit 1; }
        earlier=$count
    done
done

echo "instants bytes instructions per-byte"
base=$(counted "$work/source_50" "$work/no_lines")
for instants in 250 500 1001; do
    bytes=$(($(wc -c <"$work/refused_$instants") - $(wc -c <"$work/no_lines")))
    count=$(($(counted "$work/source_50" "$work/refused_$instants") - base))
    awk -v n=$instants -v b=$bytes -v c="$count" 'BEGIN {
        printf "%d %d %d %.1f\n", n, b, c, c / b
        if (c / b >= 60) exit 1
    }' || { echo "too slow"; exit 1; }
done

for instants in 1 250 500 1001; do
    numbers_of $instants "" 1000 >"$work/numbers_$instants"
    numbers_of $instants " x" 1000 >"$work/unread_$instants"
done

# What a replay of the kind's program of `$1` equations on `$2` instants takes more than the reading.
replayed() {
    whole=$(counted "$work/kind_$1" "$work/numbers_$2")
    grep -q "^lawful $2 of $2" "$work/printed"
    read=$(counted "$work/kind_$1" "$work/unread_$2")
    echo $((whole - read))
}

echo "kind equations instants once instructions each growth-by-instants growth-by-equations growth-of-once"
for kind in numbers clocks calls condacts slow modes; do
    for equations in 60 120; do
        program_of $kind $equations >"$work/kind_$equations"
        once=$(replayed $equations 1)
        fewer_once=0
        if [ $equations -eq 120 ]; then fewer_once=$(cat "$work/once"); fi
        echo "$once" >"$work/once"
        earlier=0
        for instants in 250 500 1001; do
            count=$(($(replayed $equations $instants) - once))
            fewer=0
            if [ $equations -eq 120 ]; then fewer=$(cat "$work/kind_replay_$instants"); fi
            echo "$count" >"$work/kind_replay_$instants"
            awk -v k=$kind -v e=$equations -v n=$instants -v o="$once" -v g="$fewer_once" -v c="$count" -v p="$earlier" -v f="$fewer" 'BEGIN {
                # of calls that are two deep and not, and of conditions, the equations in callees count
                own = k == "calls" ? 3 * e : k == "condacts" ? 2 * e : k == "slow" ? 4 * e / 3 : e
                each = c / own / (n - 1)
                by_instants = p ? sprintf("%.3f", c / p) : "-"
                by_equations = f ? sprintf("%.3f", c / f) : "-"
                of_once = g ? sprintf("%.3f", o / g) : "-"
                printf "%s %d %d %d %d %.1f %s %s %s\n", k, e, n, o, c, each, by_instants, by_equations, of_once
                if (each >= (k == "modes" ? 800 : 400) || (p && (c / p < 1.8 || c / p > 2.2)) || (f && (c / f < 1.8 || c / f > 2.2)) || (g && o / g >= 4)) exit 1
            }' || { echo "too slow, or not linear"; exit 1; }
            earlier=$count
        done
    done
done

# The program of the slow clock where that clock is on once in 1,000 instants, and where it is always on.
program_of slow 60 >"$work/kind_60"
slow=$(($(replayed 60 1001) - $(replayed 60 1)))
for instants in 1 1001; do
    numbers_of $instants "" 1 >"$work/numbers_$instants"
    numbers_of $instants " x" 1 >"$work/unread_$instants"
done
always=$(($(replayed 60 1001) - $(replayed 60 1)))
echo "slow clock: $slow instructions, always on: $always"
[ "$slow" -le "$always" ] || { echo "a slow clock costs more"; exit 1; }

# The most that a replay may be asked for: a node with as many variables as a system may have, at as many instants as
# a trace may have. Memory is what the program held at most.
largest() {
    awk 'BEGIN {
        print "node part(a : bool) returns (x_0 : bool);\nvar"
        for (i = 1; i < 1000; i++) print "  x_" i " : bool;"
        print "let\n  x_0 = a;"
        for (i = 1; i < 1000; i++) print "  x_" i " = not x_" i - 1 ";"
        print "tel\nnode main(a : bool) returns (y : bool);\nlet\n  y = true"
        for (i = 0; i < 19; i++) print "    and part(a)"
        print "  ; --%PROPERTY \"some\" y or not y;\ntel"
    }'
}
largest >"$work/largest"
awk 'BEGIN {
    print "trace main 1001"
    printf "a"
    for (t = 0; t < 1001; t++) printf " true"
    print "\nend"
}' >"$work/long"
if [ -x /usr/bin/time ]; then
    /usr/bin/time -q -f "largest: %M KB, %U seconds" "$program" replay "$work/largest" "$work/long" || [ $? -eq 10 ]
fi
