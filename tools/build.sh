#!/bin/sh
# Proves a library and all that it stands on, each crate once those below it are proved and as many side by side as there are
# processors; without a name those of the program, which is then built: crates/nn_cli/out/nn_cli.
# Usage: build.sh [-n] [LIBRARY]      -n: says only in which order, and which crates each waits for
# JOBS, where it is set, is how many crates are proved at a time.
set -eu
cd "$(dirname "$0")/.."
says=
if [ "${1:-}" = -n ]; then
    says=-n
    shift
fi
crate=${1:-nn_cli}
JOBS=${JOBS:-$(nproc)}
BEGUN=$(date +%s)
# Beside the repository, so that what is built there can be linked into it.
PLACE=$(mktemp -d ../build.XXXXXX 2> /dev/null || mktemp -d)
export JOBS BEGUN PLACE
unset MAKEFLAGS MFLAGS
trap 'rm -rf "$PLACE"' EXIT
trap 'exit 1' INT TERM
mkdir "$PLACE/running"

# crates.txt as rules of make: a crate waits for all libraries of the repository below it.
sed 's/#.*//' crates.txt | awk '
    function add(name,   i, count, deps) {
        count = split(uses[name], deps, " ")
        for (i = 1; i <= count; i++)
            if (deps[i] in uses && !index(below, " " deps[i] " ")) {
                add(deps[i])
                below = below deps[i] " "
            }
    }
    /:/ {
        name = $1
        sub(/:.*/, "", name)
        sub(/^[^:]*:/, "")
        uses[name] = $0
    }
    END {
        for (name in uses) {
            below = " "
            add(name)
            printf ".PHONY: %s\n%s:%s\n\t@sh tools/prove.sh $@ $^\n", name, name, below
        }
    }
' > "$PLACE/order"

if [ -n "$says" ]; then
    make -s -n -f "$PLACE/order" "$crate" | sed 's/^sh tools\/prove.sh //'
    exit
fi
echo "Proves what $crate stands on, $JOBS crates at a time, and then $crate. The whole program takes 15 to 20 minutes on four"
echo 'processors, and less where some of it was proved here before. Each line says which crate is done, and when.'
make -s -j "$JOBS" -f "$PLACE/order" "$crate" || {
    echo "$crate was not built, since not all is proved: see above." >&2
    exit 1
}
