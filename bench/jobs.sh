#!/usr/bin/env bash
# Measures what a line of a job costs, and whether it grows with the lines that are done. A job that tags an object goes through a
# manifest in four quarters, each a run of the program of its own that makes as many rounds. What opening the volume costs is
# measured before each quarter and taken away. It prints the lines a second of each quarter. The first word is the program, the
# second how many lines there are (20,000). It is no part of the gate.
set -u
program=$(realpath "${1:-crates/s3r/out/s3r}") || exit 1
lines=${2:-20000}
folder=$(mktemp -d) || exit 1
trap 'rm -rf "$folder"' EXIT
cd "$folder" || exit 1
quarter=$((lines / 4))

ask() { printf '%s %s HTTP/1.1\r\nHost: d\r\nContent-Length: %d\r\n\r\n%s' "$1" "$2" "${#3}" "$3"; }

# Answers the requests of a file over the folder, and prints the microseconds that it took.
spent() {
    local start
    start=$(date +%s%N)
    "$program" . 1 do <"$1" >answers || exit 1
    echo $((($(date +%s%N) - start) / 1000))
}

manifest=$(for ((i = 0; i < lines; i++)); do echo 'ops,k'; done)
job='{"ClientRequestToken":"t","Operation":{"S3PutObjectTagging":{"TagSet":[{"Key":"a","Value":"b"}]}},"Priority":1,"Manifest":{"Spec":{'
job+='"Format":"S3BatchOperations_CSV_20180820","Fields":["Bucket","Key"]},"Location":{"ObjectArn":"arn:aws:s3:::ops/m"}},"Report":{"Enabled":false}}'
{
    ask PUT /ops ''
    ask PUT /ops/k hello
    ask PUT /ops/m "$manifest"
    ask POST /v20180820/jobs "$job"
    ask POST '/_s3r/work?rounds=3' ''
} >start
ask HEAD /ops/k '' >touch
ask POST "/_s3r/work?rounds=$quarter" '' >work
printf 'prepared in %d milliseconds\n' $(($(spent start) / 1000))
for part in 1 2 3 4; do
    opened=$(spent touch)
    worked=$(spent work)
    done=$(sed -n 's/.*"Lines":\([0-9]*\).*/\1/p' answers)
    awk -v part="$part" -v done="$done" -v opened="$opened" -v worked="$worked" 'BEGIN {
        printf "quarter %d: %d lines, %.0f a second; opening took %.0f milliseconds\n", part, done, done / (worked - opened) * 1e6, opened / 1e3
    }'
done
ask POST '/_s3r/job?region=0' '' >last
spent last >/dev/null
tail -n 1 answers
echo
