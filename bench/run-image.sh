#!/bin/sh
# The speed of nn_image over the linked tree beside plain C: images of directories of a hundred files with a block each, written and read.
# Wants a C compiler. The arguments are how many files, 100 3000 10000 30000 without them.
# The line `walk` is one walk over the tree by itself: a writer makes three, and goes once over the children of each directory.
set -eu
cd "$(dirname "$0")/.."
[ $# -gt 0 ] || set -- 100 3000 10000 30000
work=$(mktemp -d)
trap 'rm -rf "$work"' EXIT

"${CC:-cc}" -O2 -o "$work/c" bench/image.c
(cd crates/bench_image && rt run) >"$work/build.log" 2>&1 || { cat "$work/build.log" >&2; exit 1; }

for files in "$@"; do
    "$work/c" "$files" "$work/image" >>"$work/theirs.txt"
    crates/bench_image/out/bench_image "$work/image" >>"$work/ours.txt"
done

awk '
    function line(what, bytes, nodes, ours, theirs) {
        printf "%6s %8d %10d %12d %12.1f %10s %10s\n", what, nodes, bytes, ours, bytes / nodes * 1000 / ours, theirs, theirs == "" ? "" : sprintf("%.1f", bytes / nodes * 1000 / theirs)
    }
    FNR == NR { theirs[$1, $3] = $4; next }
    FNR == 1 { printf "%6s %8s %10s %12s %12s %10s %10s\n", "", "nodes", "bytes", "ours ns/node", "ours MB/s", "C ns/node", "C MB/s" }
    $5 != "true" { print "the image written isn'"'"'t the one read:", $0; bad = 1; next }
    { line($1, $2, $3, $4, theirs[$1, $3]) }
    END {
        exit bad
    }' "$work/theirs.txt" "$work/ours.txt"
