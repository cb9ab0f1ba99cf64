#!/usr/bin/env bash
# Watches what a run of the gate starts, until that run ends or this script is told to. Then it prints the machine, the
# run's times, and for each crate's proof, tests and edits a line: what it was, the crate, its processor seconds, and
# when it began and ended, in seconds since the start. The first word is the process number of the run, which starts
# this itself where S3R_GATE_TIMES names a file: `S3R_GATE_TIMES=/tmp/times .ci/run`. It only reads /proc.
set -u
run=$1
ticks=$(getconf CLK_TCK) || exit 1
declare -A parent=() kind=() used=() begun=() seen=()

# The fields of a process behind its name: 0 is its state, 1 its parent, 11 and 12 its ticks, 13 and 14 those of
# children that ended, 19 when it began.
fields_of() {
    local line
    read -r line 2>/dev/null <"/proc/$1/stat" || return 1
    read -ra fields <<<"${line##*) }"
}

ticks_now() {
    local seconds
    read -r seconds _ </proc/uptime
    now=$((10#${seconds%.*} * ticks + 10#${seconds#*.} * ticks / 100))
}

is_of_run() {
    local at=$1
    while [[ -n $at && $at -gt 1 ]]; do
        [[ $at == "$run" ]] && return 0
        at=${parent[$at]:-}
    done
    return 1
}

# What a check is for. An edit is tried in a folder of its own, and compilers that a check starts count with it.
kind_of() {
    local pid=$1 key=$2 words at crate='' what=proof
    mapfile -d '' -t words 2>/dev/null <"/proc/$pid/cmdline" || return 1
    for at in "${!words[@]}"; do
        [[ ${words[at]} == --crate-name ]] && crate=${words[at + 1]:-}
        [[ ${words[at]} == --test ]] && what=tests
    done
    if [[ -z $crate ]]; then
        at=${key_of[${parent[$pid]}]:-none}
        kind[$key]=${kind[$at]:-}
        return
    fi
    at=$(readlink "/proc/$pid/cwd" 2>/dev/null) || return 1
    [[ $at == */rt-edit-* ]] && what=edits
    kind[$key]="$what $crate"
}

look() {
    local path pid key
    declare -A key_of=() spent=()
    parent=()
    ticks_now
    for path in /proc/[0-9]*; do
        pid=${path#/proc/}
        fields_of "$pid" || continue
        parent[$pid]=${fields[1]}
        key_of[$pid]=$pid.${fields[19]}
        spent[$pid]=$((fields[11] + fields[12]))
    done
    for pid in "${!key_of[@]}"; do
        key=${key_of[$pid]}
        [[ -n ${kind[$key]:-} ]] || { is_of_run "$pid" && kind_of "$pid" "$key"; }
        [[ -n ${kind[$key]:-} ]] || continue
        used[$key]=${spent[$pid]}
        begun[$key]=${key#*.}
        seen[$key]=$now
    done
}

tell() {
    local key
    fields_of "$run" && total=$((fields[13] + fields[14]))
    ticks_now
    echo "machine $(nproc) processors, $(awk '/^MemTotal/ { printf "%.0f", $2 / 1048576 }' /proc/meminfo) GB, $(
        sed -n 's/^model name[^:]*: //p' /proc/cpuinfo | head -n 1
    )"
    for key in "${!kind[@]}"; do
        [[ -n ${kind[$key]} ]] && echo "${kind[$key]} ${used[$key]} ${begun[$key]} ${seen[$key]}"
    done | awk -v ticks="$ticks" -v start="$start" -v now="$now" -v total="$total" '
        {
            of = $1 " " $2
            used[of] += $3
            all += $3
            if (!(of in begun) || $4 < begun[of]) begun[of] = $4
            if ($5 > ended[of]) ended[of] = $5
        }
        END {
            # Where the run itself was killed, only what was seen is known.
            printf "whole %.0f %.0f\n", (total > all ? total : all) / ticks, (now - start) / ticks
            for (of in used)
                printf "%s %.0f %.0f %.0f\n", of, used[of] / ticks, (begun[of] - start) / ticks, (ended[of] - start) / ticks
        }' | sort -k 1,1 -k 4,4n
    exit 0
}

total=0
ticks_now
start=$now
# (a sleep that a trap may break off)
trap tell TERM
# (Z: killed, and not yet taken off the list)
while fields_of "$run" && [[ ${fields[0]} != Z ]]; do
    look
    sleep 0.5 &
    wait $!
done
tell
