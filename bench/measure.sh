# What the benches share, which read this file: the program that they time, a folder for its scripts, the line on the
# machine, and how a run is measured.
here=$(cd "$(dirname "$0")" && pwd)
program=${1:-$here/../crates/ftp_script/out/ftp_script}
scratch=$(mktemp -d)
trap 'rm -rf "$scratch"' EXIT

echo "machine: $(uname -m), $(awk -F': ' '/model name/ { print $2; exit }' /proc/cpuinfo)"

# Runs the program once over a script, and prints its processor time in seconds and its peak memory in kilobytes.
measure() {
    measure_word "$program" script "$1"
}

# The same of any program, with a word, over a file.
measure_word() {
    if [ -x /usr/bin/time ]; then
        /usr/bin/time -o "$scratch/time" -f '%U %S %M' "$1" "$2" < "$3" > /dev/null
        awk '{ print $1 + $2, $3 }' "$scratch/time"
        return
    fi
    "$1" "$2" < "$3" > /dev/null &
    child=$!
    peak=0
    ticks=0
    while [ -r "/proc/$child/status" ] && grep -q VmHWM "/proc/$child/status"; do
        peak=$(awk '/VmHWM/ { print $2 }' "/proc/$child/status" || echo "$peak")
        ticks=$(awk '{ print $14 + $15 }' "/proc/$child/stat" || echo "$ticks")
        sleep 0.01
    done
    wait "$child"
    echo "$ticks ${peak:-0}" | awk -v hertz="$(getconf CLK_TCK)" '{ print $1 / hertz, $2 }'
}
