#!/bin/sh
# Runs the tests of the host over real folders, and the program, under strace, keeps their changes and syncs in docs/SYNCS.md, and
# fails where a changed name isn't followed by the sync of the folder that holds it, or where an answer is said before a
# written record is synced. PROGRAM, where it is set, is the program.
set -eu
cd "$(dirname "$0")/.."
if ! command -v strace > /dev/null; then
    echo 'strace is not installed: nothing was traced'
    exit 0
fi
place=$(mktemp -d)
trap 'rm -rf "$place"' EXIT

calls=mkdir,openat,write,fsync,fdatasync,rename,unlink,unlinkat,rmdir
(cd crates/tests_host && strace -ff -y -qq -e trace=$calls -o "$place/trace" rt try --test) > "$place/out" 2>&1 || {
    cat "$place/out"
    exit 1
}

# The process of the test of changes, by the folder that it made.
made='^mkdir("\([^"]*/nn_files_changes_[0-9]*\)".*'
traced=$(grep -l "$made" "$place"/trace.* | head -n 1)
root=$(sed -n "s|$made|\1|p" "$traced" | head -n 1)

# Its changes and syncs, with paths from that folder on.
grep -F "$root" "$traced" \
    | grep -E '^(mkdir|write|fsync|fdatasync|rename|unlink|unlinkat|rmdir)\(|O_TRUNC|O_APPEND' \
    | grep -vE "^(mkdir|rmdir)\(\"$root\"" \
    | sed -e "s|$root/||g" -e "s|$root|.|g" -e 's/AT_FDCWD<[^>]*>, //' -e 's/|O_NOCTTY//' -e 's/|O_CLOEXEC//' \
        -e 's/[0-9]*</</g' -e 's/) *= /) = /' > "$place/changes"

# A change wants the sync of the folder that holds its name, before the next change.
awk '
    function holder(path) { return path ~ /\// ? substr(path, 1, index(path, "/") - 1) : "." }
    function fail(where) { print "no sync of " wanted where; failed = 1 }
    /^(mkdir|rename|unlink|rmdir)\(|O_TRUNC/ {
        if (wanted != "") fail(" before " $0)
        split($0, part, "\"")
        wanted = holder(part[2])
        changes++
    }
    /^fsync/ && index($0, "<" wanted ">") { wanted = "" }
    END {
        if (wanted != "") fail(" at the end")
        if (changes == 0) { print "no change was traced"; failed = 1 }
        exit failed
    }
' "$place/changes"

# A run over two directories, its start left out: what it writes, syncs, names and says.
program=${PROGRAM:-$PWD/crates/nn_cli/out/nn_cli}
test -x "$program" || (cd crates/nn_cli && rt run -- state . > /dev/null)
mkdir "$place/a" "$place/b"
printf 'mkdir /logs\nlist /logs\nroll\n' > "$place/script"
"$program" format --cluster c1 --namespace 7 "$place/a" "$place/b" > /dev/null
strace -y -qq -s 10 -e trace=$calls -o "$place/run" "$program" run "$place/a" "$place/b" < "$place/script" > "$place/said"
grep -E '^(mkdir|write|fsync|fdatasync|rename|unlink|unlinkat|rmdir)\(|O_TRUNC' "$place/run" \
    | sed -e "s|<$place/said>|<output>|" -e "s|$place/||g" -e 's/AT_FDCWD<[^>]*>, //' -e 's/|O_NOCTTY//' -e 's/|O_CLOEXEC//' \
        -e 's/[0-9]*</</g' -e 's/) *= /) = /' -e '/edits/s/"\\.*"\.*, /"..", /' \
    | sed -n '/started/,$p' > "$place/steps"
awk '
    /^write\(<output>/ { for (file in pending) { print "said before the sync of " file; exit failed = 1 }; said++; next }
    /^write/ { split($0, part, /[<>]/); pending[part[2]] = 1 }
    /^f(data)?sync/ { split($0, part, /[<>]/); delete pending[part[2]] }
    END {
        if (said < 5 && !failed) { print "no answers were traced"; failed = 1 }
        exit failed
    }
' "$place/steps"

{
    cat << 'END'
# What is synced, and when

That each call makes just these changes and syncs, in this order, and that one of them that fails fails the call, is tested in the gate over a runtime that writes its calls down: `tests_host/src/syncs.rt` has the table. What stands here is a trace of the system's own calls while the test of changes runs, made by `tools/trace-syncs.sh`. Paths go from the name directory on, and `.` is the directory itself; looks are left out.

- A name that is made, renamed or removed is followed by an `fsync` of the folder that holds it: of the subfolder for a file, of the directory for a subfolder.
- A file that is made is itself synced too, since one that was emptied has to stay empty.
- `fdatasync` makes an append last, and the file's length with it.
- The segment in progress is opened once for all its appends and syncs. It is closed before its file is renamed, removed or made anew, and opened again by the next append.
- What the journal appends and syncs, and when, is in `FORMATS.md`, "A segment's life": records are one append and one sync in each live directory, holders first.
- A `settle` is an `fsync` of each file, of each subfolder and of the directory.

END
    printf '```\n'
    cat "$place/changes"
    printf '```\n'
    cat << 'END'

## A run

The program over two directories, `a` and `b`, with a script of `mkdir /logs`, `list /logs` and `roll`, from the moment at which it says that it started. A record is written and synced in each directory before its answer goes out, and nothing else is done for a command; a roll ends the segment in each directory, and then begins the next one in each.

END
    printf '```\n'
    cat "$place/steps"
    printf '```\n'
} > docs/SYNCS.md
echo "traced $(grep -c 'sync(' "$place/changes") syncs: see docs/SYNCS.md"
