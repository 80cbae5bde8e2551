#!/bin/sh
# What the tree costs under `dry`: instructions of a command over generated files, of a `create` in one directory in scattered order, and of
# a node that `list /` says; and the bytes that a node takes in memory, by the peak of the process less that over as many bytes of comments.
# Besides, instructions of a line that `generate` says. They are told by valgrind; like the peak they hold on a busy machine. The arguments
# are how many files, 10000 100000 500000 without them. LISTED is how many nodes are listed, 300000 without it, and WIDE how many files the
# one directory has, "1000 100000" without it. PEER, where it is set, is another program with the same commands, which is measured beside.
set -eu
cd "$(dirname "$0")/.."
[ $# -gt 0 ] || set -- 10000 100000 500000
listed=${LISTED:-300000}
ours=${PROGRAM:-$PWD/crates/nn_cli/out/nn_cli}
work=$(mktemp -d "${TMPDIR:-/tmp}/tree.XXXXXX")
trap 'rm -rf "$work"' EXIT
test -x "$ours" || (cd crates/nn_cli && rt run -- state . > /dev/null)

# So many files at most that, with a directory for each hundred and the root, there are so many nodes.
files_of() {
    echo $((($1 - 1) * 100 / 101))
}
nodes_of() {
    echo $(($1 + ($1 + 99) / 100 + 1))
}
# Of a program with these words, over the standard input.
counted() {
    valgrind --tool=cachegrind --cache-sim=no --cachegrind-out-file=/dev/null "$@" 2>&1 > /dev/null | awk '/I *refs:/ { gsub(",", "", $NF); print $NF }'
}
instructions() {
    counted "$1" dry < "$work/$2"
}
peak() {
    /usr/bin/time -f %M "$1" dry < "$work/$2" 2>&1 > /dev/null
}
scattered() {
    awk -v count="$1" 'BEGIN { print "mkdir /w"; for (n = 0; n < count; n++) print "create /w/f" n * 7919 % count " 3" }'
}

: > "$work/nothing"
for files in "$@"; do "$ours" generate "$files" > "$work/files$files"; done
for files in ${WIDE:-1000 100000}; do scattered "$files" > "$work/wide$files"; done
held=$(files_of "$listed")
"$ours" generate "$held" > "$work/held"
{ cat "$work/held"; echo 'list /'; } > "$work/list"

for program in "$ours" ${PEER:+"$PEER"}; do
    echo "$program"
    bare=$(instructions "$program" nothing)
    first=
    for files in "$@"; do
        commands=$(wc -l < "$work/files$files")
        each=$((($(instructions "$program" "files$files") - bare) / commands))
        first=${first:-$each}
        echo "  dry over $files files: $each instructions a command, $((each * 100 / first)) % of the first"
    done
    for files in ${WIDE:-1000 100000}; do
        echo "  $files files in one directory in scattered order: $((($(instructions "$program" "wide$files") - bare) / files)) instructions a file"
    done
    nodes=$(nodes_of "$held")
    echo "  a listing of $nodes nodes: $((($(instructions "$program" list) - $(instructions "$program" held)) / nodes)) instructions a node"
    lines=$(wc -l < "$work/held")
    echo "  generate $held: $((($(counted "$program" generate "$held") - $(counted "$program" generate 1)) / lines)) instructions a line"
    for files in "$@"; do
        sed 's/^./#/' "$work/files$files" > "$work/comments"
        echo "  $files files in memory: $((($(peak "$program" "files$files") - $(peak "$program" comments)) * 1024 / $(nodes_of "$files"))) bytes a node"
    done
done
