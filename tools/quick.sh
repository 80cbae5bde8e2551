#!/bin/sh
# Tells the story of two name directories before any proof: they fail and lose power, and what was kept is shown.
set -eu
cd "$(dirname "$0")/.."
place=$(mktemp -d)
trap 'rm -rf "$place"' EXIT

cat <<'SAID'
Compiles the program and the story without their proofs, which takes about a minute, and tells the story: the program runs over
disks in memory, which fail and lose power, and starts again over what is left.
SAID
if ! (cd crates/story && rt try --steps 1 --seconds 300) > "$place/told" 2> "$place/notes" < /dev/null; then
    cat "$place/told" "$place/notes" >&2
    exit 1
fi
cat "$place/told"
printf '\nNothing was proved: `make demo` proves the program and runs it over real folders, `make test` proves everything.\n'
