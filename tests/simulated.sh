#!/usr/bin/env bash
# Runs scripts of the simulator, and compares what each prints with its lines that begin with `=`, byte for byte. The first
# word is the program, `crates/s3r_simulator/out/s3r_simulator` where there is none; the others are the scripts, all of
# tests/simulated where there is none.
set -u
program=$(realpath "${1:-crates/s3r_simulator/out/s3r_simulator}") || exit 1
here=$(realpath "$(dirname "$0")") || exit 1
scripts=("${@:2}")
[[ ${#scripts[@]} -gt 0 ]] || scripts=("$here"/simulated/*.script)

wrong=0
for script in "${scripts[@]}"; do
    printed=$("$program" <"$script" | sed 's/$/./'; exit "${PIPESTATUS[0]}")
    status=$?
    expected=$(grep -E '^=( |$)' "$script" | sed 's/^= \{0,1\}//; s/$/./')
    if [[ $printed != "$expected" || ($status != 0 && $status != 2) ]]; then
        echo "$script: status $status" >&2
        diff <(echo "$expected" | sed 's/\.$//') <(echo "$printed" | sed 's/\.$//') >&2
        wrong=$((wrong + 1))
    fi
done
if [[ $wrong != 0 ]]; then
    echo "$wrong of ${#scripts[@]} scripts printed something else" >&2
    exit 1
fi
echo "${#scripts[@]} scripts printed what they say"
