#!/usr/bin/env bash
# Kills the program a hundred times while it serves puts, and opens its folder again each time: each object whose
# answer was out is there. The first word is the program, `crates/s3r/out/s3r` where there is none.
set -u
program=$(realpath "${1:-crates/s3r/out/s3r}") || exit 1
folder=$(mktemp -d) || exit 1
trap 'rm -rf "$folder"' EXIT
cd "$folder" || exit 1

request() { printf '%s %s HTTP/1.1\r\nHost: d\r\nContent-Length: %d\r\n\r\n%s' "$1" "$2" "${#3}" "$3"; }

# So many lines of a file begin with this.
lines() { grep -a -c -- "^$1" "$2" || true; }

# Six puts, each a moment after the one before.
feed() {
    for i in 1 2 3 4 5 6; do
        request PUT "/killed/$1-$i" "body"
        sleep "0.00$((RANDOM % 4 + 1))"
    done
    sleep 1
}

request PUT /killed '' | "$program" . 1 do >output || exit 1
: >gets
answered=0
for round in $(seq 100); do
    # A pipe and an output of its own: what the round before has left in them isn't read. A program that is killed before it
    # has opened its input has written no output.
    rm -f input && mkfifo input && : >output || exit 1
    "$program" . 1 do <input >output &
    served=$!
    feed "$round" >input 2>/dev/null &
    feeder=$!
    sleep "0.0$((RANDOM % 60 + 10))"
    kill -KILL "$served" "$feeder" 2>/dev/null
    wait "$served" "$feeder" 2>/dev/null
    out=$(lines x-amz-version-id output)
    for i in $(seq "$out"); do
        request GET "/killed/$round-$i" '' >>gets
    done
    answered=$((answered + out))
    "$program" . 1 do <gets >output
    status=$?
    found=$(tr -s '\r' '\n' <output | grep -a -c '^\(body\)\?HTTP/1.1 200')
    if [[ $status != 0 || $found != "$answered" ]]; then
        echo "round $round: status $status, $found of $answered objects" >&2
        exit 1
    fi
done
echo "killed 100 times, and each of the $answered objects whose answer was out is there"
