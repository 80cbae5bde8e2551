#!/bin/sh
# What a start over an image, and a checkpoint, cost: instructions of a run without a line, and of one with the line `checkpoint`, less those
# of a run over an empty namespace; and what a start costs more where it does the records again that made the nodes, and writes their image.
# Files of one block each stand in directories of a hundred. Instructions are told by valgrind, and hold on a busy machine. Memory of a start
# is the peak of the process. What a checkpoint takes besides the tree is told by the most that was allocated at a time in a run that makes
# the nodes, so that no image was loaded in it, with the line at its end and without it. The arguments are how many files, 20000 without
# them, and the folder to work in, a temporary one without it. PEER, where it is set, is another program with the same commands, which is
# measured beside.
set -eu
cd "$(dirname "$0")/.."
files=${1:-20000}
ours=${PROGRAM:-$PWD/crates/nn_cli/out/nn_cli}
work=$(mktemp -d "${2:-${TMPDIR:-/tmp}}/checkpoint.XXXXXX")
trap 'rm -rf "$work"' EXIT
test -x "$ours" || (cd crates/nn_cli && rt run -- state . > /dev/null)

awk -v files="$files" 'BEGIN {
    for (n = 0; n < files; n++) {
        if (n % 100 == 0) { dir = "/g" n / 100; print "mkdir " dir }
        file = dir "/f" n
        print "create " file " 3\nblock " file " " 1 + n * 9000 % 134217728 "\nclose " file
    }
}' > "$work/files"
: > "$work/nothing"
echo checkpoint > "$work/line"
cat "$work/files" "$work/line" > "$work/files_line"
nodes=$((files + (files + 99) / 100 + 1))

instructions() {
    valgrind --tool=cachegrind --cache-sim=no --cachegrind-out-file=/dev/null "$1" run "$work/d" < "$work/$2" 2>&1 > /dev/null | awk '/I *refs:/ { gsub(",", "", $NF); print $NF }'
}
peak() {
    /usr/bin/time -f %M "$1" run "$work/d" < "$work/$2" 2>&1 > /dev/null
}
allocated() {
    valgrind --tool=dhat --dhat-out-file=/dev/null "$1" run "$work/d" < "$work/$2" 2>&1 > /dev/null | awk '/At t-gmax/ { gsub(",", ""); print $4 }'
}
fresh() {
    rm -rf "$work/d"
    mkdir "$work/d"
    "$1" format --cluster c1 --namespace 7 "$work/d" > /dev/null
}

for program in "$ours" ${PEER:+"$PEER"}; do
    echo "$program, $nodes nodes"
    fresh "$program"
    bare=$(instructions "$program" nothing)
    bare_line=$(instructions "$program" line)
    bare_peak=$(peak "$program" nothing)
    fresh "$program"
    made_line=$(allocated "$program" files_line)
    fresh "$program"
    made=$(allocated "$program" files)
    # The first start after a run reads its records, the second the image alone.
    again=$(instructions "$program" nothing)
    start=$(instructions "$program" nothing)
    line=$(instructions "$program" line)
    echo "  a start over the image: $(((start - bare) / nodes)) instructions a node"
    echo "  a start over the records: $(((again - start) / $(wc -l < "$work/files"))) instructions a record more"
    echo "  a checkpoint: $(((line - start - bare_line + bare) / nodes)) instructions a node"
    echo "  memory: $((($(peak "$program" nothing) - bare_peak) * 1024 / nodes)) bytes a node at a start over the image; a checkpoint takes $(((made_line - made) / 1000)) kB besides the tree"
done
