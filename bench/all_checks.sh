#!/bin/sh
# Instructions that the three checks take together per byte, and how they grow with the source.
#
# Run at the top of the repository. Makes sources of 128 KB to 1 MB, of nodes with contracts, each of which calls the
# one before it but for the first of each ten, and counts the instructions of the program check_cases where it reads and
# checks the source, less those where it reads it alone; and those of a node of 2,000 equations in the
# worst order, each of which needs the one behind it. Ends with status 1 where a source is refused, where the checks
# take 700 instructions a byte or more, where they do not double with the size, or where that node takes a second.
set -eu

top=$(pwd)
program=$top/crates/check_cases/out/check_cases
work=$(mktemp -d)
trap 'rm -rf "$work"' EXIT

# At most `$1` bytes of such a source, filled up with blanks.
source_of() {
    awk -v size="$1" 'function node(n, parts,    text, k) {
        text = "node step_" n "(a, b : int; c : bool) returns (x, y : int; ok : bool);\n" \
            "(*@contract\n  assume \"positive\" a > 0;\n  var total : int = a + b;\n" \
            "  guarantee x >= 0 => ok;\n  mode fast (require c; ensure \"up\" true -> x = pre x + 1;);\n" \
            "  mode slow (require not c and total > 0;);\n*)\n" \
            "var t : int when c; u, v : bool; p, q : int;\n"
        for (k = 0; k < parts; k++) text = text "  w_" k ", z_" k " : int;\n"
        text = text "const limit : int = most - 1;\nlet\n" \
            "  -- the value of step " n " stays below its limit\n" \
            "  x = if c then ((((a + b) * (3 - limit)) div 3) mod 7) else 0 -> pre x + 1;\n" \
            "  t = a when c;\n  u = condact(c, low(a, b), false);\n" \
            "  (y, ok) = both(a, merge c (true -> t) (false -> 0 when not c));\n"
        for (k = 0; k < parts; k++)
            text = text "  w_" k " = if u or v then a + " (k ? "w_" k - 1 : "b") " else 0 -> pre (z_" k " - 1);\n" \
                "  z_" k " = (w_" k " + p) * 3 - (b -> pre w_" k ") div 5; -- part " k "\n"
        if (n % 10) text = text "  (p, q, v) = step_" n - 1 "(a, b, c);\n"
        else text = text "  p = a; q = b; v = c;\n"
        return text "  assert a < 5 and not (b = 3 or u xor v);\n" \
            "  check \"fits\" y <= 9223372036854775807;\ntel\n"
    }
    BEGIN {
        text = "const most : int = 4096;\n" \
            "function low(p, q : int) returns (s : bool);\nlet s = p < q + most; tel\n" \
            "node both(p, q : int) returns (r : int; s : bool);\nlet r = p -> pre r + q; s = low(r, q); tel\n"
        for (i = 0; ; i++) {
            if (written + length(text) > size) break
            printf "%s", text
            written += length(text)
            text = node(1000 + i, 16)
        }
        while (written++ < size) printf " "
    }'
}

# A node of 2,000 equations, each of which needs the one behind it.
worst() {
    awk 'BEGIN {
        print "node main() returns (x_0 : bool);\nvar"
        for (i = 1; i < 2000; i++) print "  x_" i " : bool;"
        print "let"
        for (i = 0; i < 1999; i++) print "  x_" i " = not x_" i + 1 ";"
        print "  x_1999 = true;\ntel"
    }'
}

# The instructions of the program on the source, where it does `$1`.
counted() {
    valgrind --tool=callgrind --callgrind-out-file="$work/counts" \
        "$program" "$1" "$work/source" >"$work/printed" 2>"$work/log"
    awk '/Collected/ { print $4 }' "$work/log"
}

source_of 4096 >"$work/source"
(cd crates/check_cases && rt run -- read "$work/source" >"$work/build" 2>&1) || { cat "$work/build"; exit 1; }
if ! command -v valgrind >/dev/null; then
    echo "valgrind is not there: nothing is counted"
    exit 0
fi
# The C library keeps no small freed pieces apart, since it would gather them at one size and not at
# another.
export GLIBC_TUNABLES=glibc.malloc.mxfast=0
echo "bytes instructions per-byte growth"
before=0
for kilobytes in 128 256 512 1024; do
    bytes=$((kilobytes * 1024))
    source_of $bytes >"$work/source"
    alone=$(counted read)
    checked=$(counted checked)
    [ "$(cat "$work/printed")" = taken ] || { cat "$work/printed"; exit 1; }
    awk -v b=$bytes -v c=$((checked - alone)) -v p="$before" 'BEGIN {
        growth = p ? sprintf("%.3f", c / p) : "-"
        printf "%d %d %.1f %s\n", b, c, c / b, growth
        if (c / b >= 700 || (p && (c / p < 1.8 || c / p > 2.2))) exit 1
    }' || { echo "too slow, or not linear"; exit 1; }
    before=$((checked - alone))
done
worst >"$work/source"
alone=$(counted read)
start=$(date +%s.%N)
"$program" checked "$work/source" >"$work/printed"
end=$(date +%s.%N)
checked=$(counted checked)
[ "$(cat "$work/printed")" = taken ] || { cat "$work/printed"; exit 1; }
echo "worst order: $start $end $((checked - alone))" | awk '{
    printf "%s %s %.2f seconds %d instructions\n", $1, $2, $4 - $3, $5
    if ($4 - $3 >= 1) exit 1
}' || { echo "too slow"; exit 1; }
