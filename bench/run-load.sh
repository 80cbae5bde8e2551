#!/bin/sh
# What loading a folder on a disk costs: an image of 3,001 nodes alone, with records that touch no node, and with as many that
# each set the mode of a file. The first difference is what reading a record costs, the second what the tree does.
# Wants a C compiler and zlib's header (Debian: zlib1g-dev). The argument is how many records, 100000 without it.
# With COUNTS=1 the instructions follow, by valgrind, and the bytes read beside those on the disk, by strace; they hold on a
# busy machine too.
set -eu
cd "$(dirname "$0")/.."
records=${1:-100000}
files=2970
nodes=3001
last=$((3 * files))
work=$(mktemp -d)
trap 'rm -rf "$work"' EXIT
ours=crates/bench_load/out/bench_load

"${CC:-cc}" -O2 -o "$work/images" bench/image.c
"${CC:-cc}" -O2 -o "$work/segments" bench/load.c -lz
(cd crates/bench_load && rt run) >"$work/build.log" 2>&1 || { cat "$work/build.log" >&2; exit 1; }

# Makes a folder with the image, and with records of this kind where there is one.
make() {
    current=$work/$1/current
    name=$(printf 'fsimage_%019d' "$last")
    mkdir -p "$current"
    printf 'namespaceID=7\nclusterID=c1\ncTime=0\nstorageType=NAME_NODE\nblockpoolID=BP-7\nlayoutVersion=-1001\n' >"$current/VERSION"
    "$work/images" "$files" "$current/$name" >/dev/null
    printf '%s *%s\n' "$(md5sum <"$current/$name" | cut -d ' ' -f 1)" "$name" >"$current/$name.md5"
    [ "$1" = image ] || "$work/segments" "$files" "$records" "$1" >"$current/$(printf 'edits_%019d-%019d' $((last + 1)) $((last + records)))"
}
for kind in image marks modes; do make "$kind"; done

for turn in 1 2 3; do
    for kind in image marks modes; do echo "$kind $("$ours" "$work/$kind")"; done
done | awk -v records="$records" -v nodes="$nodes" -v last="$last" '
    $2 != last + ($1 == "image" ? 0 : records) { print "the folder loaded otherwise:", $0; exit 1 }
    !($1 in took) || $4 < took[$1] { took[$1] = $4 }
    END {
        printf "an image of %d nodes        %10.0f ns a node\n", nodes, took["image"] / nodes
        printf "%d records without a node %7.0f ns a record\n", records, (took["marks"] - took["image"]) / records
        printf "%d records that set a mode %6.0f ns a record\n", records, (took["modes"] - took["image"]) / records
    }'

[ "${COUNTS:-0}" = 1 ] || exit 0
instructions() {
    valgrind --tool=cachegrind --cache-sim=no --cachegrind-out-file=/dev/null "$ours" "$work/$1" 2>&1 | awk '/I *refs:/ { gsub(",", "", $NF); print $NF }'
}
image=$(instructions image)
marks=$(instructions marks)
modes=$(instructions modes)
awk -v records="$records" -v nodes="$nodes" -v a="$image" -v b="$marks" -v c="$modes" 'BEGIN {
    printf "instructions: %.0f a node of the image, %.0f a record without a node, %.0f one that sets a mode\n", a / nodes, (b - a) / records, (c - a) / records
}'
for kind in image marks modes; do
    read=$(strace -f -y -e trace=pread64,read,preadv,readv "$ours" "$work/$kind" 2>&1 >/dev/null | awk -v at="$work/$kind/current/" 'index($0, at) { n += $NF } END { print n + 0 }')
    disk=$(cat "$work/$kind"/current/* | wc -c)
    echo "$kind: $read bytes read, $disk on the disk"
done
