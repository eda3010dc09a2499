#!/bin/sh
# Times how ftp_script prints a log of a million entries of 10, 1,000 and 30,000 sessions, and how ftp_check checks it, and prints the
# table of bench/RESULTS.md: sh bench/logs.sh [FTP_SCRIPT [FTP_CHECK]]. `rt ci` builds the programs. Each time is the least of three.
set -eu
. "$(dirname "$0")/measure.sh"
checker=${2:-$here/../crates/ftp_check/out/ftp_check}

# Runs a program with a word three times over a file, and prints the least processor time and the peak memory.
least() {
    for _ in 1 2 3; do
        measure_word "$@"
    done | sort -n | head -1
}

echo
echo "| sessions | entries | bytes of the log | printed in | checked in | rate of the check, of printing | peak memory of the check |"
echo "|---|---|---|---|---|---|---|"
for sessions in 10 1000 30000; do
    awk -v events=1000000 -v sessions="$sessions" -f "$here/log.awk" > "$scratch/script"
    { head -n 1 "$scratch/script"; "$program" script < "$scratch/script"; } > "$scratch/log"
    said=$("$checker" check < "$scratch/log")
    [ "$said" = "right 1000000" ] || {
        echo "the log is said to be: $said" >&2
        exit 1
    }
    printed=$(least "$program" script "$scratch/script")
    checked=$(least "$checker" check "$scratch/log")
    echo "$printed $checked $(wc -c < "$scratch/log")" | awk -v sessions="$sessions" '{
        printf "| %d | 1000000 | %d | %.2f s | %.2f s | %.2f | %.1f MB |\n", sessions, $5, $1, $3, $1 / $3, $4 / 1000
    }'
done
