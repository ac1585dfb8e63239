#!/bin/sh
# What the translation costs, and the trace of a path.
#
# Run at the top of the repository. Makes programs whose main node calls one node 5 to 40 times, that node with 40
# equations, half of them calls, and counts the instructions of `kind prove` where valgrind is there: without a property,
# where the source is read, checked and translated, and with the property `false`, where a query is made and answered by
# a path of one state, and its trace is printed. What is read and checked is the same declarations with a line for each
# call, so that what each further call costs is the translation of its frame, with the query, its answer and the trace.
# Ends with status 1 where a further call costs more, by a tenth or more, than one of half as many did.
set -eu

top=$(pwd)
program=$top/crates/kind/out/kind
work=$(mktemp -d)
trap 'rm -rf "$work"' EXIT

# A program with `$1` calls, and in its main node the line `$2`.
program_of() {
    awk -v count="$1" -v item="$2" 'BEGIN {
        print "node step(u : int; back : bool) returns (k : int);"
        print "let k = if back then 0 else (0 -> pre k) + u; tel"
        print "node part(a : bool; x : int) returns (y39 : int);"
        print "(*@contract guarantee y39 >= 0; mode on (require a; ensure y39 < 9;); *)\nvar"
        for (i = 0; i < 39; i++) printf "  y%d%s\n", i, i < 38 ? "," : " : int;\nlet"
        for (i = 0; i < 40; i++) {
            b = i % 8 ? "y" (i - 1) : "x"
            if (i % 4 == 0) printf "  y%d = step(%s, a);\n", i, b
            if (i % 4 == 1) printf "  y%d = 0 -> pre %s + x;\n", i, b
            if (i % 4 == 2) printf "  y%d = if a then %s else x;\n", i, b
            if (i % 4 == 3) printf "  y%d = condact(a, step(%s, false), %d);\n", i, b, i
        }
        print "tel\nnode main(a : bool; x : int) returns ("
        for (i = 0; i < count; i++) printf "  z%d%s\n", i, i + 1 < count ? "," : " : int);\nlet"
        for (i = 0; i < count; i++) printf "  z%d = part(a, x);\n", i
        print "  " item "\ntel"
    }'
}

# The instructions of a proof of the file `$1`, whose last line is to be `$2`.
counted() {
    valgrind --tool=callgrind --callgrind-out-file="$work/counts" "$program" prove "$1" >"$work/printed" 2>"$work/log" || true
    [ "$(tail -n 1 "$work/printed")" = "$2" ] || { tail -n 1 "$work/printed" >&2; echo "not the answer" >&2; exit 1; }
    awk '/Collected/ { print $4 }' "$work/log"
}

# The program is built where it is missing or older than its sources.
./kind prove examples/debounce.lus >/dev/null || [ $? -eq 1 ]
if ! command -v valgrind >/dev/null; then
    echo "valgrind is not there: nothing is counted"
    exit 0
fi

# The rows of one kind of program: its name, the line of its main node, and the last line of its proof.
rows() {
    before=0
    each_before=0
    for calls in 5 10 20 40; do
        program_of $calls "$2" >"$work/source"
        count=$(counted "$work/source" "$3")
        awk -v kind="$1" -v n=$calls -v c="$count" -v b="$before" -v p="$each_before" 'BEGIN {
            each = b ? (c - b) / (n / 2) : 0
            printf "%s %d %d %s %s\n", kind, n, c, b ? sprintf("%d", each) : "-", p ? sprintf("%.3f", each / p) : "-"
            if (p && each > 1.1 * p) exit 1
        }' || { echo "a further call costs more"; exit 1; }
        if [ "$before" -gt 0 ]; then each_before=$(((count - before) * 2 / calls)); fi
        before=$count
    done
}

echo "program calls instructions each-further-call growth"
rows translation "" "summary valid 0 falsifiable 0 unknown 0"
rows trace '--%PROPERTY "none" false;' "summary valid 0 falsifiable 1 unknown 0"
