#!/bin/sh
# Says for each crate of crates.txt how many crates the longest chain down from it has, and which they are, the lowest first.
# The crates of a chain are proved one after another, so a build from nothing takes no less than its longest chain.
set -eu
cd "$(dirname "$0")/.."
sed 's/#.*//' crates.txt | awk '
    # The longest chain that ends at a crate. Libraries of the toolchain are none of ours.
    function chain_to(name,   i, count, deps, one, best) {
        if (name in chain) return chain[name]
        count = split(below[name], deps, " ")
        for (i = 1; i <= count; i++)
            if (deps[i] in below) {
                one = chain_to(deps[i])
                if (length_of(one) > length_of(best)) best = one
            }
        return chain[name] = best " " name
    }
    function length_of(text,   words) { return split(text, words, " ") }
    /:/ {
        name = $1
        sub(/:.*/, "", name)
        sub(/^[^:]*:/, "")
        below[name] = $0
    }
    END { for (name in below) print length_of(chain_to(name)) chain_to(name) }
' | sort -n
