#!/bin/sh
# What a command of `run` costs on a namespace of 11 nodes and on one of 1,011, and what a start reads. Files are made, get a block, are
# closed and deleted, so that the namespace stays as large as it is. Costs are those of a script of 2,000 commands less those of one of 400.
# Then what a command of `run --generate` costs, over GENERATED files, 20000 without it.
# Instructions are told by valgrind, calls of the system by strace; both hold on a busy machine too. The argument is the folder to work
# in, a temporary one without it. PEER, where it is set, is another program with the same commands, which is measured beside.
set -eu
cd "$(dirname "$0")/.."
ours=${PROGRAM:-$PWD/crates/nn_cli/out/nn_cli}
work=$(mktemp -d "${1:-${TMPDIR:-/tmp}}/run.XXXXXX")
trap 'rm -rf "$work"' EXIT
test -x "$ours" || (cd crates/nn_cli && rt run -- state . > /dev/null)
generated=${GENERATED:-20000}

nodes() {
    awk -v files="$1" 'BEGIN { for (d = 0; d < 10; d++) { print "mkdir /g" d; for (f = 0; f < files; f++) print "create /g" d "/f" f " 3" } }'
}
commands() {
    awk -v count="$1" 'BEGIN {
        for (n = 0; n < count; n += 4) {
            file = "/g" n % 10 "/x" n
            print "create " file " 3\nblock " file " 134217728\nclose " file "\ndelete " file
        }
    }' > "$work/script$1"
}
commands 400
commands 2000
commands 0

# So many name directories that hold the nodes, anew.
dirs() {
    rm -rf "$work"/d[0-9]
    for i in $(seq "$1"); do cp -r "$work/base" "$work/d$i"; done
    ls -d "$work"/d[0-9]
}
# Of a run over so many directories, with this script, and with options where there are some.
instructions() {
    program=$1 count=$2 script=$3
    shift 3
    valgrind --tool=cachegrind --cache-sim=no --cachegrind-out-file=/dev/null "$program" run "$@" $(dirs "$count") < "$work/script$script" 2>&1 > /dev/null | awk '/I *refs:/ { gsub(",", "", $NF); print $NF }'
}
# How often each call of the system was made.
calls() {
    program=$1 count=$2 script=$3
    shift 3
    strace -f -qq -o "$work/trace" "$program" run "$@" $(dirs "$count") < "$work/script$script" > /dev/null
    sed -E 's/^[0-9]+ +//; s/\(.*//' "$work/trace" | sort | uniq -c
}
# What is behind two such tables, for each of so many commands.
each_call() {
    awk -v commands="$1" '
        FNR == NR { few[$2] = $1; next }
        { more = ($1 - few[$2]) / commands; if (more != 0) printf "    %-12s %.3f a command\n", $2, more }' "$work/few" "$work/many"
}

# A name directory with so many files in each of ten directories.
base() {
    rm -rf "$work/base"
    mkdir "$work/base"
    "$ours" format --cluster c1 --namespace 7 "$work/base" > /dev/null
    nodes "$1" > "$work/nodes"
    "$ours" run "$work/base" < "$work/nodes" > /dev/null
}

for program in "$ours" ${PEER:+"$PEER"}; do
    echo "$program"
    base 0
    few=$(instructions "$program" 1 400)
    many=$(instructions "$program" 1 2000)
    echo "  11 nodes, 1 directory: $(((many - few) / 1600)) instructions a command"
    base 100
    for count in 1 2; do
        few=$(instructions "$program" "$count" 400)
        many=$(instructions "$program" "$count" 2000)
        echo "  1,011 nodes, $count directories: $(((many - few) / 1600)) instructions a command"
        calls "$program" "$count" 400 > "$work/few"
        calls "$program" "$count" 2000 > "$work/many"
        each_call 1600
    done
    base 0
    bare=$(instructions "$program" 1 0)
    many=$(instructions "$program" 1 0 --generate "$generated")
    commands=$((3 * generated + (generated + 99) / 100))
    echo "  run --generate $generated, 1 directory: $(((many - bare) / commands)) instructions a command"
    calls "$program" 1 0 > "$work/few"
    calls "$program" 1 0 --generate 100 > "$work/many"
    each_call 301
done
base 100

# A start over one directory: the bytes that are read of each file, beside those that it has.
strace -f -y -e trace=read,pread64,readv -o "$work/trace" "$ours" run $(dirs 1) < /dev/null > /dev/null
read=$(awk -v at="$work/d1/current/" 'index($0, at) { n += $NF } END { print n + 0 }' "$work/trace")
echo "a start reads $read bytes of the $(cat "$work"/base/current/* | wc -c) that stand in current, of which $(cat "$work"/base/current/fsimage_0000000000000000000 "$work"/base/current/edits_* | wc -c) are the image and the segment"
