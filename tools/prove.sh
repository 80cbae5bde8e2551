#!/bin/sh
# Proves one crate, for build.sh, over the libraries below it, which are built already.
# Usage: prove.sh CRATE BELOW..
#
# rt lets only one run at a time work on a crate and those below it. So each library is proved in a copy of the sources of its
# own, into which those below it are linked, and what was built is moved back.
set -eu
name=$1
shift
begun=$(date +%s)

ends() {
    now=$(date +%s)
    printf '%3d min  %s%s (%d s)\n' $(((now - BEGUN) / 60)) "$name" "$1" $((now - begun))
}

if [ -f "crates/$name/src/main.rt" ]; then
    (cd "crates/$name" && rt run -- state .) > "$PLACE/log" 2>&1 || {
        cat "$PLACE/log" >&2
        exit 1
    }
    ends ' is built'
    exit
fi

copy=$PLACE/$name
built=crates/$name/out
mkdir "$copy"
tar cf - --exclude=out crates.txt crates | tar xf - -C "$copy"
for below in "$@"; do
    mkdir "$copy/crates/$below/out"
    cp -al "crates/$below/out/rlib" "$copy/crates/$below/out" 2> /dev/null || cp -a "crates/$below/out/rlib" "$copy/crates/$below/out"
done
mkdir -p "$built" "$copy/$built"
mv "$built/incremental" "$built/rlib" "$copy/$built" 2> /dev/null || :

# A crate that is alone takes all processors, and any two at least.
: > "$PLACE/running/$name"
each=$((JOBS / $(ls "$PLACE/running" | wc -l)))
[ "$each" -ge 2 ] || [ "$JOBS" -lt 4 ] || each=2
[ "$each" -ge 1 ] || each=1
status=0
(cd "$copy/crates/$name" && rt lib --jobs "$each") > "$copy/log" 2>&1 || status=$?
rm "$PLACE/running/$name"

mv "$copy/$built/incremental" "$copy/$built/rlib" "$built" 2> /dev/null || :
if [ "$status" -ne 0 ]; then
    cat "$copy/log" >&2
    ends ' is not proved' >&2
    exit 1
fi
rm -rf "$copy"
ends ''
