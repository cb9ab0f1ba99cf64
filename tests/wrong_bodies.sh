#!/usr/bin/env bash
# Tries the wrong bodies of tests/wrong_bodies/NAME/*.edit: edits of the crate NAME that the prover must refuse. Each
# takes half a minute to a minute, so the gate passes them over and tries only those in crates/NAME/must-fail. Run this by
# hand for a crate when its contracts, or the definitions that they cite, have changed:
#
#     tests/wrong_bodies.sh s3r_json s3r_routes
#
# Without names it tries all. It works on a copy outside the repository. What `rt lib` has built in a crate's out/ isn't
# proved again; the rest is proved first, since an edit of a crate that isn't proved itself shows nothing. The status
# is 1 if an edit was not refused or could not be tried.
set -u
top=$(cd "$(dirname "${BASH_SOURCE[0]}")/.." && pwd) || exit 1
copy=$(mktemp -d) || exit 1
trap 'rm -rf "$copy"' EXIT
refused=0 failed=0

copy_crates() {
    local crate part
    git init -q "$copy" && cp "$top/crates.txt" "$copy" || return 1
    # Without the file no handle is allowed.
    if [[ -f $top/HANDLES ]]; then cp "$top/HANDLES" "$copy" || return 1; fi
    for crate in "$top"/crates/*/; do
        crate=$(basename "$crate")
        mkdir -p "$copy/crates/$crate/out" || return 1
        for part in src specs proofs out/rlib; do
            if [[ -d $top/crates/$crate/$part ]]; then
                cp -a "$top/crates/$crate/$part" "$copy/crates/$crate/$part" || return 1
            fi
        done
    done
}

# Proves a crate and those below, where they aren't built. What rt says is only shown where it fails.
prove() {
    local verb=lib
    [[ -f crates/$1/src/main.rt ]] && verb=check
    (cd "crates/$1" && rt "$verb" >"$copy/said" 2>&1) && return
    tail -n 20 "$copy/said"
    echo "$1 is not proved, so its wrong bodies were not tried"
    return 1
}

try_edits() {
    local edits=("$top/tests/wrong_bodies/$1"/*.edit) right
    if [[ ! -f ${edits[0]} ]]; then
        echo "there are no edits in tests/wrong_bodies/$1"
        failed=$((failed + 1))
        return
    fi
    if ! prove "$1"; then
        failed=$((failed + ${#edits[@]}))
        return
    fi
    mkdir "crates/$1/must-fail" && cp "${edits[@]}" "crates/$1/must-fail" || exit 1
    rt must-fail "$1" 2>&1 | tee said
    right=$(grep -c "^rt: must-fail $1/.*\.edit: refused, as it must be" said)
    refused=$((refused + right)) failed=$((failed + ${#edits[@]} - right))
}

copy_crates && cd "$copy" || exit 1
if [[ $# == 0 ]]; then
    for name in "$top"/tests/wrong_bodies/*/; do set -- "$@" "$(basename "$name")"; done
fi
for name; do try_edits "$name"; done
echo "$refused refused, $failed not refused or not tried"
[[ $failed == 0 ]]
