#!/bin/sh
# Records of 74 bytes put behind a segment in one, two and four name directories and synced in batches of 1, 64, 1,000 and
# 4,096: by the journal, by the same program in C with zlib, and as many bytes written and synced by themselves, which is
# what the disk takes, in turns on one disk. Wants a C compiler and zlib's header (Debian: zlib1g-dev).
# The arguments are how many batches a turn has, 12 without it, how many turns each has, 60 without it, and the folder to work
# in, the current one without it. Of all batches that of the fastest tenth which took longest stands for each: other work on the
# disk only slows, and most of them may have met some.
# With COUNTS=1 the instructions a record follow, by valgrind, and the calls of the system a batch, by strace; they hold on a
# busy machine too. SIZES are the batches to try, as "1 64".
set -eu
cd "$(dirname "$0")/.."
batches=${1:-12}
turns=${2:-60}
work=$(mktemp -d "${3:-.}/journal.XXXXXX")
trap 'rm -rf "$work"' EXIT
ours=crates/bench_journal/out/bench_journal
sizes=${SIZES:-1 64 1000 4096}

"${CC:-cc}" -O2 -o "$work/c" bench/journal.c -lz
"${CC:-cc}" -O2 -shared -fPIC -o "$work/gaps.so" bench/gaps.c -ldl
(cd crates/bench_journal && rt run) >"$work/build.log" 2>&1 || { cat "$work/build.log" >&2; exit 1; }

# Runs one of the three, `ours`, `plain` or `limit`, behind other words where there are some: $2 records in batches of $3 in $4
# directories, made anew.
run() {
    rm -rf "$work"/dir*
    set -- "$1" "$2" "$3" "$4" $(seq -f "$work/dir%g" "$4")
    case $1 in
        ours) name=$ours ;;
        *) name="$work/c $1" ;;
    esac
    records=$2 batch=$3
    shift 4
    mkdir "$@"
    for dir in "$@"; do mkdir "$dir/current"; done
    $front $name "$records" "$batch" "$@"
}

for count in 1 2 4; do
    for batch in $sizes; do
        rm -f "$work"/gaps-*
        for n in $(seq "$turns"); do
            # None of them always comes behind the same one.
            for name in $([ $((n % 2)) = 0 ] && echo ours plain limit || echo limit plain ours); do
                front="env LD_PRELOAD=$work/gaps.so EACH=$count GAPS=$work/gaps-$name"
                run "$name" $((batches * batch)) "$batch" "$count"
            done
        done
        for name in ours plain limit; do
            sort -n "$work/gaps-$name" | awk '{ took[NR] = $1 } END { print took[int(NR / 10) + 1] }'
        done | xargs echo "$count" "$batch"
    done
done | awk '
    NR == 1 { printf "%4s %6s %14s %14s %14s %10s\n", "dirs", "batch", "ours us/batch", "C us/batch", "disk us/batch", "disk/ours" }
    { printf "%4d %6d %14.1f %14.1f %14.1f %10.2f\n", $1, $2, $3 / 1000, $4 / 1000, $5 / 1000, $5 / $3 }'

[ "${COUNTS:-0}" = 1 ] || exit 0
# What a run of $2 records more costs: its instructions, and its calls of the system.
instructions() {
    front="valgrind --tool=cachegrind --cache-sim=no --cachegrind-out-file=/dev/null"
    run "$@" 2>&1 | awk '/I *refs:/ { gsub(",", "", $NF); print $NF }'
}
calls() {
    front="strace -f -qq -o $work/trace"
    run "$@"
    wc -l <"$work/trace"
}
printf '%4s %6s %15s %15s %8s %16s %16s\n' dirs batch 'ours instr/rec' 'C instr/rec' ours/C 'ours calls/batch' 'C calls/batch'
for count in 1 2 4; do
    for batch in $sizes; do
        few=$((batch * 2)) many=$((batch * 2 + 8192 / batch * batch))
        for name in ours plain; do
            echo $(($(instructions "$name" "$many" "$batch" "$count") - $(instructions "$name" "$few" "$batch" "$count")))
            echo $(($(calls "$name" "$many" "$batch" "$count") - $(calls "$name" "$few" "$batch" "$count")))
        done | xargs echo "$count" "$batch" "$((many - few))"
    done
done | awk '{ printf "%4d %6d %15.0f %15.0f %8.2f %16.2f %16.2f\n", $1, $2, $4 / $3, $6 / $3, $4 / $6, $5 * $2 / $3, $7 * $2 / $3 }'
