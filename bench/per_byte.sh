# Instructions per byte of a program on sources of 128 KB to 1 MB: what the benchmarks of lexer and
# reader share. They run at the top of the repository, and define `source_of`, which prints a source
# of `$1` bytes.

top=$(pwd)
work=$(mktemp -d)
trap 'rm -rf "$work"' EXIT

# How many `$what` the program `$program` counts in a file, and its instructions on it.
counted() {
    printed=$(valgrind --tool=callgrind --callgrind-out-file="$work/counts" "$program" "$what" "$1" 2>"$work/log")
    echo "$printed $(awk '/Collected/ { print $4 }' "$work/log")"
}

# Builds the crate reading_cases, which prints how many `$1` a file has, and counts its instructions on
# each size less those on an empty file, where valgrind is there. Ends with status 1 where they are `$2`
# a byte or more, or do not double with the size.
measure() {
    what=$1
    (cd crates/reading_cases && rt run -- "$what" data/toggle.lus >"$work/build" 2>&1) || { cat "$work/build"; exit 1; }
    program=$top/crates/reading_cases/out/reading_cases
    if ! command -v valgrind >/dev/null; then
        echo "valgrind is not there: nothing is counted"
        exit 0
    fi
    : >"$work/empty"
    start=$(counted "$work/empty" | cut -d' ' -f2)
    echo "an empty file: $start instructions"
    echo "bytes $what instructions per-byte growth"
    before=0
    for kilobytes in 128 256 512 1024; do
        bytes=$((kilobytes * 1024))
        source_of $bytes >"$work/source"
        row=$(counted "$work/source")
        count=$((${row#* } - start))
        awk -v b=$bytes -v t="${row% *}" -v c="$count" -v p="$before" -v most="$2" 'BEGIN {
            growth = p ? sprintf("%.3f", c / p) : "-"
            printf "%d %d %d %.1f %s\n", b, t, c, c / b, growth
            if (c / b >= most || (p && (c / p < 1.9 || c / p > 2.1))) exit 1
        }' || { echo "too slow, or not linear"; exit 1; }
        before=$count
    done
}
