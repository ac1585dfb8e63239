#!/bin/sh
# Tries the wrong bodies of crates/NAME/wrong, each of which the prover must refuse, for each crate that
# is named. The gate tries those of crates/NAME/must-fail alone. They are tried in a copy of the crates,
# which begins with what checks here have kept.
set -eu
cd "$(dirname "$0")/.."
top=$(pwd)
[ $# -gt 0 ] || { echo "usage: bench/wrong.sh NAME.."; exit 2; }
work=$(mktemp -d)
trap 'rm -rf "$work"' EXIT
tar cf - --exclude=out crates crates.txt HANDLES | tar xf - -C "$work"
cd "$work"
for name in "$@"; do
    [ -d "$top/crates/$name/wrong" ] || { echo "$name has no folder wrong"; exit 2; }
    rm -rf "crates/$name/must-fail"
    mv "crates/$name/wrong" "crates/$name/must-fail"
done
rt must-fail "$@"
