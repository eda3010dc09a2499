#!/bin/sh
# Times the program from outside, over scripts of 1,000, 10,000 and 40,000 sessions that each upload and download a small
# file, and prints the tables of bench/RESULTS.md: sh bench/transfers.sh [PROGRAM]. `rt ci` builds the program.
set -eu
. "$(dirname "$0")/measure.sh"

# Times scripts whose numbers are used in their order, or mixed.
transfers() {
    echo
    echo "| sessions | events | seconds | events a second | peak memory |"
    echo "|---|---|---|---|---|"
    for sessions in 1000 10000 40000; do
        awk -v sessions="$sessions" -v mixed="$1" -f "$here/transfers.awk" > "$scratch/script"
        measure "$scratch/script" | awk -v sessions="$sessions" '{
            events = 13 * sessions
            printf "| %d | %d | %.2f | %d | %.1f MB |\n", sessions, events, $1, events / $1, $2 / 1000
        }'
    done
}

echo
echo "Numbers in the order of their use:"
transfers 0
echo
echo "Numbers out of their order:"
transfers 1
