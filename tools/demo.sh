#!/bin/sh
# Runs the program, PROGRAM, over folders of its own in a temporary place, and says before each step what it shows.
# Usage: demo.sh PROGRAM
set -eu
case $1 in
    /*) program=$1 ;;
    *) program=$PWD/$1 ;;
esac
place=$(mktemp -d)
trap 'rm -rf "$place"' EXIT
tools=$(cd "$(dirname "$0")" && pwd)
cp "$tools/quick.script" "$tools/beside.awk" "$place"
cd "$place"

shows() {
    printf '== %s\n' "$1"
}

run() {
    printf '$ namenode %s\n' "$*"
    status=0
    "$program" "$@" || status=$?
    printf '[status %s]\n\n' "$status"
}

shows 'An empty folder, and one whose current holds a VERSION: state names what each is.'
mkdir -p empty formatted/current
: > formatted/current/VERSION
run state empty formatted

shows 'A name directory that is not there refuses the command: status 2, and the number of the directory.'
run state empty formatted missing

shows 'No operation leaves removed.tmp beside both current/VERSION and previous: the directory is inconsistent, and why is said.'
mkdir -p formatted/previous formatted/removed.tmp
run state formatted

shows 'A new namespace in eight name directories.'
mkdir a b c d e f g h
run format --cluster=c1 --namespace 7 a b c d e f g h
run state a b c d e f g h

shows 'What a formatted directory holds. The MD5 file is one that md5sum reads.'
(cd a/current && echo '$ cd a/current; ls; md5sum -c fsimage_0000000000000000000.md5' && ls && md5sum -c fsimage_0000000000000000000.md5)
echo

shows 'A directory that holds a state is never formatted over: the second format is refused, and changes nothing.'
run format --cluster=c1 --namespace 7 a b c d e f g h

shows 'A run over two of them. Each line is answered once its record is synced in both.'
printf 'mkdir /logs\ncreate /logs/today 3\ndirs\n' > script
echo '$ cat script'
cat script
run run a b < script

shows 'The same program, killed by SIGKILL in the middle of a run: what it had said by then.'
mkfifo lines
"$program" run a b < lines > said &
killed=$!
exec 3> lines
printf 'block /logs/today 134217728\nclose /logs/today\nmkdir /logs/old\n' >&3
until [ "$(wc -l < said)" -ge 4 ] || ! kill -0 "$killed" 2> /dev/null; do sleep 0.05; done
kill -9 "$killed"
wait "$killed" 2> /dev/null || echo "\$ namenode run a b   [killed, status $?]"
exec 3>&-
cat said
echo

shows 'Half a record more stands at the end of the segment of b, as a power loss may leave it.'
segment=$(ls b/current/edits_inprogress_*)
head -c 30 "$segment" | tail -c 22 > half
cat half >> "$segment"
ls -l a/current/edits_inprogress_* "$segment" | awk '{ print $5, $NF }'
echo
run state a b

shows 'A start over each choice of the two: a alone, b alone, both. Each has all that was answered. (Copies are taken, since a start writes.)'
cp -r a a.alone
cp -r b b.alone
echo 'list /' > script
run run a.alone < script
run run b.alone < script
run run a b < script

if command -v python3 > /dev/null; then
    shows 'A plain reader in Python, which shares no code with the program, reads the same from the folders.'
    echo '$ python3 tools/reader.py a b'
    python3 "$tools/reader.py" a b
    echo

    shows 'Runs over real folders, a row after another: starts, refusals, failing calls, signals, closed descriptors.'
    python3 "$tools/rows.py" "$program"
    echo
fi

shows 'A script on a namespace in memory: names, quotas, refusals, a listing. Each line stands beside its answer.'
echo '$ namenode dry < quick.script'
"$program" dry < quick.script > answers
awk -v answers=answers -f beside.awk quick.script
