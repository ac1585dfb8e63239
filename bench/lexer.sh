#!/bin/sh
# Instructions that the lexer takes per byte, and how they grow with the source.
#
# Run at the top of the repository. Makes sources of 128 KB to 1 MB, of names, numbers, nested
# expressions, annotations and comments, and counts the instructions of the program reading_cases on
# each, less those that it takes for an empty file, where valgrind is there.
set -eu

. bench/per_byte.sh

# The first `$1` bytes of such a source; a line that would be cut is left out, for blanks.
source_of() {
    awk -v size="$1" 'BEGIN {
        for (i = 0; ; i++) {
            kind = i % 8
            n = 100 + i % 900
            if (kind == 0) line = "-- the value of step " n " stays below its limit\n"
            if (kind == 1) line = "(* block " n ",\n   over two lines *)\n"
            if (kind == 2) line = "  total_" n " = (total + input_1 * 17) - limit_" n ";\n"
            if (kind == 3) line = "  deep_" n " = ((((a + b) * (c - 4096)) div 3) mod (d + (e - 1)));\n"
            if (kind == 4) line = "  ready = if speed <= 120 and not brake then true -> pre ready else a <> b;\n"
            if (kind == 5) line = "  x = y;\n"
            if (kind == 6) line = "  --%PROPERTY \"step " n "\" total_" n " >= 0 => ready;\n"
            if (kind == 7) line = "  wide_" n " = 9223372036854775807 - count_" n ";\n"
            if (written + length(line) > size) break
            printf "%s", line
            written += length(line)
        }
        while (written++ < size) printf " "
    }'
}

measure tokens 60
