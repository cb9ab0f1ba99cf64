#!/usr/bin/env bash
# Kills the program a hundred times within puts and copies over two regions, and opens its folder again each time. Then what is
# pending is carried: each object whose answer was out is at the destination once. The first word is the program,
# `crates/s3r/out/s3r` where there is none.
set -u
program=$(realpath "${1:-crates/s3r/out/s3r}") || exit 1
folder=$(mktemp -d) || exit 1
trap 'rm -rf "$folder"' EXIT
cd "$folder" || exit 1

request() { printf '%s %s HTTP/1.1\r\nHost: d\r\nContent-Length: %d\r\n\r\n%s' "$1" "$2" "${#3}" "$3"; }

# Four puts with a copy behind each, each pair a moment after the one before.
feed() {
    for i in 1 2 3 4; do
        request PUT "/src/$1-$i" "body"
        request POST '/_s3r/copy?from=0&to=1' ''
        sleep "0.0$((RANDOM % 20 + 10))"
    done
    sleep 1
}

{
    request PUT /src ''
    request PUT /dst '{"LocationConstraint":"r1"}'
    request PUT '/src?replication' '{"Rules":[{"Status":"Enabled","Destination":{"Bucket":"arn:aws:s3:::dst"}}]}'
} | "$program" . 2 do >output || exit 1
: >answered
for round in $(seq 100); do
    # A pipe and an output of its own: what the round before has left in them isn't read.
    rm -f input && mkfifo input && : >output || exit 1
    "$program" . 2 do <input >output &
    served=$!
    feed "$round" >input 2>/dev/null &
    feeder=$!
    sleep "0.0$((RANDOM % 60 + 10))"
    kill -KILL "$served" "$feeder" 2>/dev/null
    wait "$served" "$feeder" 2>/dev/null
    for i in $(seq "$(grep -a -c '^x-amz-version-id' output || true)"); do
        echo "\"Key\":\"$round-$i\"" >>answered
    done
done

# No more tasks were prescribed than there were puts.
{
    for _ in $(seq 401); do request POST '/_s3r/copy?from=0&to=1' ''; done
    request GET '/dst?versions' ''
} | "$program" . 2 do >output || exit 1
grep -a -o '"Key":"[^"]*"' output | sort >there
twice=$(uniq -d there | wc -l)
lost=$(sort answered | comm -23 - there | wc -l)
idle=$(grep -a -c '{"Copy":"Idle"}' output || true)
if [[ $twice != 0 || $lost != 0 || $idle == 0 || ! -s answered ]]; then
    echo "of $(wc -l <answered) objects $lost are not at the destination, and $twice are there twice" >&2
    exit 1
fi
echo "killed 100 times within copies, and each of the $(wc -l <answered) objects whose answer was out is at its destination once"
