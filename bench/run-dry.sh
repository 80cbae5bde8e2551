#!/bin/sh
# The speed of reading a script that never touches the tree, comments and lines without a reading, beside a C loop that splits the
# same file into words. Seconds are those of the processor. The argument is how many megabytes, 60 without it.
set -eu
cd "$(dirname "$0")/.."
megabytes=${1:-60}
program=${PROGRAM:-crates/nn_cli/out/nn_cli}
work=$(mktemp -d)
trap 'rm -rf "$work"' EXIT

"${CC:-cc}" -O2 -o "$work/c" bench/words.c
test -x "$program" || (cd crates/nn_cli && rt run -- state . >/dev/null)

lines() {
    awk -v bytes="$((megabytes * 1000000))" -v line="$1" 'BEGIN { for (n = 0; n + length(line) < bytes; n += length(line) + 1) print line }'
}
seconds() {
    { TIMEFORMAT='%U %S'; bash -c "TIMEFORMAT='%U %S'; time $1 <\"$work/script\" >/dev/null" 2>&1; } | awk '{ print $1 + $2 }'
}
report() {
    lines "$2" >"$work/script"
    ours=$(seconds "$program dry")
    theirs=$(seconds "$work/c")
    awk -v name="$1" -v mb="$megabytes" -v a="$ours" -v b="$theirs" 'BEGIN { printf "%-28s %8.0f MB/s %8.0f MB/s in C\n", name, mb / (a + 0.001), mb / (b + 0.001) }'
}

report "comments of 60 bytes" "# a comment of sixty bytes, which is read and has no answer."
report "words without a reading" "mkdir /user/hdfs/part-00001 and three more words than it takes"
