#!/bin/sh
# The speed of nn_record and nn_segment beside C with zlib: records of a mkdir written one by one, and a segment of them read.
# Wants a C compiler and zlib's header (Debian: zlib1g-dev). The argument is how many records, 1000000 without it.
set -eu
cd "$(dirname "$0")/.."
count=${1:-1000000}
work=$(mktemp -d)
trap 'rm -rf "$work"' EXIT

"${CC:-cc}" -O2 -o "$work/c" bench/segment.c -lz
(cd crates/bench_segment && rt run -- 0) >"$work/build.log" 2>&1 || { cat "$work/build.log" >&2; exit 1; }

for turn in 1 2 3; do
    crates/bench_segment/out/bench_segment "$count" 2>>"$work/ours.txt"
    "$work/c" "$count" 2>>"$work/theirs.txt"
done

# The second and the last column are what was found: where they differ, one of the two is wrong.
paste -d ' ' "$work/ours.txt" "$work/theirs.txt" | awk '
    BEGIN { printf "%6s %12s %12s %10s\n", "", "ours MB/s", "C MB/s", "time / C" }
    $2 != $6 || $4 != $8 { print "the two differ"; bad = 1 }
    { printf "%6s %12d %12d %10.2f\n", $1, $3, $7, $7 / $3 }
    END { exit bad }'
