#!/usr/bin/env bash
# Measures how fast a volume is read at its first touch. It makes a volume of 100 buckets with 100 versions each by the
# program itself, with bodies of as many bytes as the second word says (8 where there is none). Then it answers one request
# over it, and does the same over an empty volume. The best of five runs of each, and `cat` of the same file, are printed. The
# first word is the program, `crates/s3r/out/s3r` where there is none. It is no part of the gate.
set -u
program=$(realpath "${1:-crates/s3r/out/s3r}") || exit 1
size=${2:-8}
folder=$(mktemp -d) || exit 1
trap 'rm -rf "$folder"' EXIT
cd "$folder" || exit 1
mkdir full empty

requests() {
    local body bucket key
    body=$(printf '%*s' "$size" '')
    for bucket in {100..199}; do
        printf 'PUT /b%s HTTP/1.1\r\nContent-Length: 0\r\n\r\n' "$bucket"
        for key in {1..100}; do
            printf 'PUT /b%s/k%s HTTP/1.1\r\nContent-Length: %s\r\n\r\n%s' "$bucket" "$key" "$size" "$body"
        done
    done
}

ask() { printf 'HEAD /b100 HTTP/1.1\r\n\r\n' | "$program" "$1" 1 do >/dev/null; }

# The least of five runs, in microseconds.
best() {
    local least=0 start spent
    for _ in 1 2 3 4 5; do
        start=$(date +%s%N)
        "$@"
        spent=$((($(date +%s%N) - start) / 1000))
        [[ $least == 0 || $spent -lt $least ]] && least=$spent
    done
    echo "$least"
}

requests | "$program" full 1 do >/dev/null || exit 1
bytes=$(stat -c %s full/volume-0)
copied() { cat full/volume-0 >/dev/null; }
awk -v bytes="$bytes" -v full="$(best ask full)" -v none="$(best ask empty)" -v copied="$(best copied)" 'BEGIN {
    spent = full - none
    printf "10100 records, %d bytes: %.1f ms beside %.1f ms for an empty volume\n", bytes, full / 1000, none / 1000
    printf "%.0f records a second, %.0f MB a second; cat: %.1f ms\n", 10100 / spent * 1e6, bytes / spent, copied / 1000
}'
