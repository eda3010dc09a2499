#!/bin/sh
# Measures appends from outside, by processor time: by `run_event` on a hub by itself with its entries let go (run) and kept
# (log), and by one, two and four threads over one hub, with 10 and with 100,000 live sessions; and prints the tables of
# bench/RESULTS.md: sh bench/appends.sh [PROGRAM]. `rt ci` builds the program. The connections fall out of the difference of
# two runs, and of three such differences the middle one counts. Where there is valgrind, the instructions of an append are
# counted, too.
set -eu
here=$(cd "$(dirname "$0")" && pwd)
program=${1:-$here/../crates/ftp_bench/out/ftp_bench}
scratch=$(mktemp -d)
trap 'rm -rf "$scratch"' EXIT
ways="run log one two four"
rounds=500000
few=1000
many=11000
# glibc clears and copies large pieces by one instruction that callgrind counts anew for each of its bytes: it is told to use
# others.
plain=glibc.cpu.x86_rep_stosb_threshold=100000000:glibc.cpu.x86_rep_movsb_threshold=100000000

echo "machine: $(uname -m), $(awk -F': ' '/model name/ { print $2; exit }' /proc/cpuinfo), $(nproc) processors"

# Ends all where a run of a way with so many sessions and rounds did not take so many entries.
expect() {
    [ "$4" = $(($2 + $3)) ] || {
        echo "append $1 $2 $3: $4 entries were taken" >&2
        exit 1
    }
}

# Runs a way with so many sessions and rounds, and prints its processor time in seconds.
seconds() {
    taken=$(/usr/bin/time -o "$scratch/time" -f '%U %S' "$program" append "$1" "$2" "$3")
    expect "$1" "$2" "$3" "$taken"
    awk '{ print $1 + $2 }' "$scratch/time"
}

# Prints the instructions of such a run.
instructions() {
    taken=$(GLIBC_TUNABLES=$plain valgrind --tool=callgrind --callgrind-out-file=/dev/null --log-file="$scratch/callgrind" \
        "$program" append "$1" "$2" "$3")
    expect "$1" "$2" "$3" "$taken"
    awk '/Collected/ { print $4 }' "$scratch/callgrind"
}

# Prints the instructions of an append, or a line where they cannot be counted.
instructions_each() {
    if command -v valgrind > "$scratch/found"; then
        first=$(instructions "$1" "$2" $few)
        second=$(instructions "$1" "$2" $many)
        echo $(((second - first) / (many - few)))
    else
        echo "-"
    fi
}

# Prints the middle one of the three times of a way.
middle() {
    sort -n "$scratch/times.$1" | sed -n 2p
}

# Prints the table for so many sessions.
table() {
    for way in $ways; do
        : > "$scratch/times.$way"
    done
    for try in 1 2 3; do
        for way in $ways; do
            idle=$(seconds "$way" "$1" 0)
            busy=$(seconds "$way" "$1" $rounds)
            echo "$idle $busy" | awk '{ print $2 - $1 }' >> "$scratch/times.$way"
        done
    done
    echo
    echo "$1 sessions:"
    echo
    echo "| way | appends a second | of run | of log | instructions |"
    echo "|---|---|---|---|---|"
    for way in $ways; do
        echo "$(middle "$way") $(middle run) $(middle log) $(instructions_each "$way" "$1")" |
            awk -v way="$way" -v rounds=$rounds '{
                printf "| %s | %d | %.2f | %.2f | %s |\n", way, rounds / $1, $2 / $1, $3 / $1, $4
            }'
    done
}

table 10
table 100000
