#!/bin/sh
# Writes the tables of docs/PERFORMANCE.md, but for that of proofs: bench/all.sh [--short] [SCRIPT..]
# Each SCRIPT is a name here without `.sh`; without any all are run, within half an hour. Only what is
# built is measured: `make` builds gtrbac and gtrbacd, and `rt run` in crates/calendar_probe the program
# that bench/calendar.sh asks. A script that can't run is named at the end, and the status is then 1.
# With --short each measure is of a small size, to see that it runs.
# MACHINE is the letter of this machine in the last column of each row, A where it is not given.
# The server's scripts need the ports 7743 to 7746, 7753, 7754 and 7799.
set -eu
here=$(cd "$(dirname "$0")" && pwd)
export MACHINE="${MACHINE:-A}"
if [ "${1:-}" = --short ]; then
    shift
    export SHORT=1
fi
[ $# -gt 0 ] || set -- serve poll sessions time ward run late agenda charges edges policies calendar

model=$(sed -n 's/^model name[^:]*: //p' /proc/cpuinfo | head -n 1)
memory=$(awk '/^MemTotal/ { printf "%.0f GB", $2 / 1048576 }' /proc/meminfo)
printf '| machine | is | measured |\n|---|---|---|\n'
printf '| %s | %s processors (%s), %s | %s |\n' "$MACHINE" "$(nproc)" "${model:-unknown}" "$memory" "$(date +%F)"
left=
for script in "$@"; do
    printf '\n`bench/%s.sh`:\n\n' "$script"
    "$here/$script.sh" || left="$left $script"
done
if [ -n "$left" ]; then
    echo "bench/all.sh: not measured:$left" >&2
    exit 1
fi
