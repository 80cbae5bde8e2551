#!/bin/sh
# The speed of nn_wire's crc32 beside that of zlib: megabytes in a second of processor time, for three sizes of a block.
# Wants a C compiler and zlib's header (Debian: zlib1g-dev). The argument is the megabytes for each size, 1000 without it.
set -eu
cd "$(dirname "$0")/.."
amount=${1:-1000}
work=$(mktemp -d)
trap 'rm -rf "$work"' EXIT

"${CC:-cc}" -O3 -o "$work/zlib" bench/crc32.c -lz
(cd crates/bench_wire && rt run -- 0) >"$work/build.log" 2>&1 || { cat "$work/build.log" >&2; exit 1; }

crates/bench_wire/out/bench_wire "$amount" 2>"$work/ours.txt"
"$work/zlib" "$amount" 2>"$work/theirs.txt"

# The third column is the checksums joined: where they differ, one of the two is wrong.
paste -d ' ' "$work/ours.txt" "$work/theirs.txt" | awk '
    BEGIN { printf "%8s %12s %12s %7s\n", "block", "nn_wire MB/s", "zlib MB/s", "ratio" }
    $3 != $6 { print "the checksums differ at " $1; bad = 1 }
    { printf "%8d %12d %12d %7.2f\n", $1, $2, $5, $2 / $5 }
    END { exit bad }'
