#!/usr/bin/env bash
# Runs each block of docs/TRANSCRIPTS.md over an empty folder, and compares every byte that comes out. The first word is
# the program, `crates/s3r/out/s3r` where there is none.
set -u
program=$(realpath "${1:-crates/s3r/out/s3r}") || exit 1
page=$(realpath "$(dirname "$0")/../docs/TRANSCRIPTS.md") || exit 1
work=$(mktemp -d) || exit 1
trap 'rm -rf "$work"' EXIT
cd "$work" || exit 1

blocks=0
regions=''
while IFS= read -r line; do
    case "$line" in
    '```s3r '*)
        regions=${line#'```s3r '}
        rm -rf folder && mkdir folder || exit 1
        : >input
        : >expected
        ;;
    '```')
        "$program" folder "$regions" do <input >output
        status=$?
        if [[ $status != 0 ]] || ! cmp -s expected output; then
            echo "block $((blocks + 1)) of $page: status $status" >&2
            diff <(tr -d '\r' <expected) <(tr -d '\r' <output) >&2
            exit 1
        fi
        blocks=$((blocks + 1))
        ;;
    '>> '*) printf '%s' "${line#'>> '}" >>input ;;
    '<< '*) printf '%s' "${line#'<< '}" >>expected ;;
    '>') printf '\r\n' >>input ;;
    '<') printf '\r\n' >>expected ;;
    '> '*) printf '%s\r\n' "${line#'> '}" >>input ;;
    '< '*) printf '%s\r\n' "${line#'< '}" >>expected ;;
    esac
done <"$page"
echo "$blocks transcripts came out as they are written"
