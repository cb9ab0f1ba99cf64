#!/usr/bin/env bash
# Prints what a run of the gate cost, crate by crate, as docs/GATE.md has it. The first word is the file that
# `S3R_GATE_TIMES=FILE .ci/run` wrote; the lines and the chain are those of the repository that this script lies in.
set -u
times=$(realpath "${1:?the file that S3R_GATE_TIMES named}") || exit 1
cd "$(dirname "$0")/.." || exit 1

# Lines of code, definitions and proofs, a crate a line.
lines() {
    local name
    while read -r name; do
        echo "lines $name $(
            find "crates/$name" -name out -prune -o -type f \( -name '*.rt' -o -name '*.antt' \) -exec cat {} + | wc -l
        )"
    done < <(names)
}

# The crates' names, in the order of crates.txt.
names() { sed -n 's/#.*//; s/^ *\([a-z0-9_]*\)[^:]*:.*/\1/p' crates.txt; }

# What each crate stands on, as `needs NAME BELOW ..`.
needs() { sed -n 's/#.*//; s/^ *\([a-z0-9_]*\)[^:]*:/needs \1 /p' crates.txt; }

{
    lines
    needs
    cat "$times"
} | awk '
    $1 == "lines" { order[++count] = $2; size[$2] = $3; whole += $3 }
    $1 == "needs" { for (i = 3; i <= NF; i++) below[$2, ++depth[$2]] = $i }
    $1 == "machine" { sub(/^machine /, ""); machine = $0 }
    $1 == "whole" { spent = $2; clock = $3 }
    $1 == "proof" || $1 == "tests" || $1 == "edits" { cost[$1, $2] = $3; span[$1, $2] = $5 - $4; sum[$1] += $3 }

    # Seconds by the clock of the longest chain of proofs that ends with this crate, whose next below is before[name].
    function chain(name,  i, low, most) {
        if (name in longest) return longest[name]
        most = 0
        for (i = 1; i <= depth[name]; i++) {
            low = below[name, i]
            if (low in size && chain(low) > most) { most = chain(low); before[name] = low }
        }
        return longest[name] = most + (("proof", name) in span ? span["proof", name] : 0)
    }
    function path(name) { return (name in before ? path(before[name]) ", " : "") name }
    function shown(what, name) { return (what, name) in cost ? cost[what, name] : "-" }
    END {
        printf "%.0f processor minutes for %d lines\n\n", spent / 60, whole
        printf "On a machine of %s, in %.0f minutes by the clock.\n\n", machine, clock / 60
        print "| crate | lines | proof | tests | edits | proof by the clock |"
        print "|---|---|---|---|---|---|"
        for (i = 1; i <= count; i++) {
            name = order[i]
            if (top == "" || chain(name) > chain(top)) top = name
            printf "| %s | %d | %s | %s | %s | %s |\n", name, size[name], shown("proof", name), shown("tests", name),
                shown("edits", name), (("proof", name) in span ? span["proof", name] : "-")
        }
        printf "| all | %d | %d | %d | %d | |\n\n", whole, sum["proof"], sum["tests"], sum["edits"]
        print "Seconds, of the processors where not by the clock; the proof of a program is with its builds. What the whole has"
        print "beside these rows is the command itself, running the programs and the scripts, and what was too short to be seen."
        printf "The longest chain of proofs took %.0f minutes by the clock: %s.\n", chain(top) / 60, path(top)
    }'
