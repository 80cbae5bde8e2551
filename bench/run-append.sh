#!/bin/sh
# Records of 55 bytes put behind a segment in progress and synced one by one, through FileHost and in C, in turns on one disk.
# The argument is how many records a turn has, 2000 without it; the second is the folder to work in, a temporary one without it.
set -eu
cd "$(dirname "$0")/.."
count=${1:-2000}
work=$(mktemp -d "${2:-.}/append.XXXXXX")
trap 'rm -rf "$work"' EXIT

"${CC:-cc}" -O2 -o "$work/c" bench/append.c
(cd crates/bench_files && rt run -- 0) >"$work/build.log" 2>&1 || { cat "$work/build.log" >&2; exit 1; }

seconds() {
    mkdir "$work/dir"
    begin=$(date +%s%N)
    "$@" "$count" "$work/dir"
    end=$(date +%s%N)
    rm -r "$work/dir"
    echo $((end - begin))
}

for turn in 1 2 3 4 5; do
    echo "$(seconds crates/bench_files/out/bench_files) $(seconds "$work/c")"
done | awk -v count="$count" '
    BEGIN { printf "%12s %12s %7s\n", "FileHost us", "C us", "ratio" }
    { printf "%12.1f %12.1f %7.2f\n", $1 / count / 1000, $2 / count / 1000, $1 / $2; ours += $1; theirs += $2 }
    END { printf "%12.1f %12.1f %7.2f  all turns\n", ours / count / NR / 1000, theirs / count / NR / 1000, ours / theirs }'
