#!/bin/sh
# Instructions that reading a source takes per byte, and how they grow with the source.
#
# Run at the top of the repository. Makes sources of 128 KB to 1 MB, of nodes with contracts and
# expressions of every form, and counts the instructions of the program reading_cases on each, less
# those that it takes for an empty file, where valgrind is there.
set -eu

. bench/per_byte.sh

# At most `$1` bytes of such a source, filled up with blanks.
source_of() {
    awk -v size="$1" 'BEGIN {
        for (i = 0; ; i++) {
            n = 1000 + i
            text = "node step_" n "(a, b : int; c : bool) returns (x, y : int; ok : bool);\n" \
                "(*@contract\n  assume \"positive\" a > 0;\n  guarantee x >= 0 => ok;\n" \
                "  mode fast (require c; ensure \"up\" true -> x = pre x + 1;);\n*)\n" \
                "var t : int when c; u : bool;\nconst limit : int = 4096;\nlet\n" \
                "  -- the value of step " n " stays below its limit\n" \
                "  x = if c then ((((a + b) * (3 - limit)) div 3) mod 7) else 0 -> pre x + 1;\n" \
                "  t = a when c;\n  u = condact(c, check_" n "(a, b), false);\n" \
                "  (y, ok) = both(a, merge c (true -> t) (false -> 0 when not c));\n" \
                "  assert a < 5 and not (b = 3 or u xor ok);\n" \
                "  check \"fits\" y <= 9223372036854775807;\n  --%PROPERTY x >= 0;\ntel\n"
            if (written + length(text) > size) break
            printf "%s", text
            written += length(text)
        }
        while (written++ < size) printf " "
    }'
}

# The C library keeps no small freed pieces apart, since it would gather them at one size and not at
# another.
export GLIBC_TUNABLES=glibc.malloc.mxfast=0
measure declarations 400
