#!/bin/sh
# Times 100,000 failed logins under as many names, which nothing counts and which are counted by name, by address and by both, and
# prints the table of bench/RESULTS.md: sh bench/logins.sh [PROGRAM]. `rt ci` builds the program.
set -eu
. "$(dirname "$0")/measure.sh"

echo
echo "| failed logins are counted | seconds | peak memory |"
echo "|---|---|---|"
for lock in off 4294967295:600:user 4294967295:600:ip 4294967295:600:both; do
    awk -v lock="$lock" 'BEGIN {
        print "options pooled 50000 50063 connection passive 600 " lock " restart"
        print "0 connect 1 10.0.0.1:4000 10.0.0.9:21 1"
        for (n = 1; n <= 100000; n++) {
            print n " user 1 n" n
            print n " pass 1"
            print n " auth 1 refused"
        }
    }' > "$scratch/script"
    measure "$scratch/script" | awk -v lock="$lock" '{ printf "| %s | %.2f | %.1f MB |\n", lock, $1, $2 / 1000 }'
done
