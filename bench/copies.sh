#!/usr/bin/env bash
# Measures what it costs to carry a task from one region to another. Over a world in memory it counts the calls of the outside that a
# turn of the copier makes: those of a run that puts and copies, less those of one that puts as many and asks for as many answers. Over
# real files it prints how many tasks a second are carried, beside puts a second in the same run. The first word is the simulator,
# the second the program, the third how many objects there are (2,000). It is no part of the gate.
set -u
simulator=$(realpath "${1:-crates/s3r_simulator/out/s3r_simulator}") || exit 1
program=$(realpath "${2:-crates/s3r/out/s3r}") || exit 1
objects=${3:-2000}
folder=$(mktemp -d) || exit 1
trap 'rm -rf "$folder"' EXIT
cd "$folder" || exit 1
rules='{"Rules":[{"Status":"Enabled","Destination":{"Bucket":"arn:aws:s3:::dst"}}]}'

# The calls of a run in memory that puts each object, and then asks this of it.
calls() {
    "$simulator" <<SCRIPT | sed -n 's/^calls //p'
world 2
ask PUT /src
ask PUT /dst {"LocationConstraint":"r1"}
ask PUT /src?replication $rules
times $objects ask PUT /src/k{i} hello
times $objects ask $1
do
calls
SCRIPT
}

ask() { printf '%s %s HTTP/1.1\r\nContent-Length: %d\r\n\r\n%s' "$1" "$2" "${#3}" "$3"; }

puts() { for ((i = 0; i < objects; i++)); do ask PUT "/src/k$i" hello; done; }

copies() { for ((i = 0; i < objects; i++)); do ask POST '/_s3r/copy?from=0&to=1' ''; done; }

# Answers the requests of a file over the folder, and prints the microseconds that it took.
spent() {
    local start
    start=$(date +%s%N)
    "$program" . 2 do <"$1" >answers || exit 1
    echo $((($(date +%s%N) - start) / 1000))
}

copying=$(calls 'POST /_s3r/copy?from=0&to=1')
asking=$(calls 'HEAD /src')
{ ask PUT /src ''; ask PUT /dst '{"LocationConstraint":"r1"}'; ask PUT '/src?replication' "$rules"; } >buckets
puts >puts
copies >copies
spent buckets >/dev/null
put=$(spent puts)
copied=$(spent copies)
applied=$(grep -c '{"Copy":"Applied"' answers)
awk -v objects="$objects" -v calls="$((copying - asking))" -v put="$put" -v copied="$copied" -v applied="$applied" 'BEGIN {
    printf "%d tasks: %.2f calls of the outside each besides the answer\n", objects, calls / objects
    printf "%d applied: %.0f tasks a second, beside %.0f puts a second\n", applied, applied / copied * 1e6, objects / put * 1e6
}'
