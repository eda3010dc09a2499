#!/bin/sh
# Times the program from outside, over a script of 400,000 events of 10, 1,000 and 100,000 sessions, and over a quarter
# of them, and prints the table of bench/RESULTS.md: sh bench/script.sh [PROGRAM]. `rt ci` builds the program.
set -eu
. "$(dirname "$0")/measure.sh"

echo
echo "| sessions | events | seconds | events a second | peak memory |"
echo "|---|---|---|---|---|"
for sessions in 10 1000 100000; do
    for events in 100000 400000; do
        # A session takes two and a half events to open and log in.
        [ $((sessions * 5 / 2)) -le "$events" ] || continue
        awk -v events="$events" -v sessions="$sessions" -f "$here/events.awk" > "$scratch/script"
        measure "$scratch/script" | awk -v events="$events" -v sessions="$sessions" '{
            printf "| %d | %d | %.2f | %d | %.1f MB |\n", sessions, events, $1, events / $1, $2 / 1000
        }'
    done
done
