#!/bin/sh
# Counts the instructions of a reservation by callgrind, for a client that holds none of 65,535 ports and for one that
# holds 65,000 of them, and prints the table of bench/RESULTS.md: sh bench/reservations.sh [PROGRAM]. `rt ci` builds the
# program. The set-up of a run falls out of the difference of two.
set -eu
here=$(cd "$(dirname "$0")" && pwd)
program=${1:-$here/../crates/ftp_bench/out/ftp_bench}
few=100
many=1100
# glibc clears and copies large pieces by one instruction that callgrind counts anew for each of its bytes: it is told to use
# others.
plain=glibc.cpu.x86_rep_stosb_threshold=100000000:glibc.cpu.x86_rep_movsb_threshold=100000000

# Prints the instructions of a run, and its looks.
count() {
    looks=$("$program" reserve "$1" "$2" "$3" "$4")
    GLIBC_TUNABLES=$plain valgrind --tool=callgrind --callgrind-out-file=/dev/null "$program" reserve "$1" "$2" "$3" "$4" 2>&1 > /dev/null |
        awk -v looks="$looks" '/Collected/ { print $4, looks }'
}

# Prints a line of the table: what is held, the ports from one on and below another, and the word.
line() {
    echo "$(count "$2" "$3" "$4" $few) $(count "$2" "$3" "$4" $many)" | awk -v held="$1" -v word="$4" -v rounds=$((many - few)) '{
        printf "| %s | %d | %d | %d |\n", held, word, ($3 - $1) / rounds, ($4 - $2) / rounds
    }'
}

echo "| held | word | instructions | looks |"
echo "|---|---|---|---|"
line "none" 1 1 0
line "1 to 65000" 1 65001 65000
line "1 to 65000" 1 65001 0
line "535 to 65534" 535 65535 0
