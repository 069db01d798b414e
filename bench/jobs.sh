#!/bin/sh
# How long it takes to install so many packages of four components and 46 files each in one job on a root in memory, to update them in another
# one, in which every second file has other bytes, to verify the root, and to take the update back; with the calls of the disk for each file.
# For 200 packages (1,000 troves, 9,200 files) and for twice as many, or for other numbers; the least of nine processes. Then how many times
# as long each step takes as for half as many packages, where both were taken: it ends with status 1 where that is more than 2.5 times. It
# needs Python.
# Usage: bench/jobs.sh [PACKAGES...]
set -eu
. "$(dirname "$0")/lib.sh"
build_bench jobs 'local_db system_core line_words root_words sha1 anyhow'
[ $# -gt 0 ] || set -- 200 400
jobs() {
    "$program" "$packages" <"$work/lines"
}
for packages in "$@"; do
    python3 "$top/bench/programs/jobs/lines.py" "$top" "$packages" >"$work/lines"
    least 9 jobs | tee -a "$work/told"
done
awk -F ' [|] ' '
    / ms$/ {
        count = $2 + 0
        took[$1, count] = $3 + 0
        if (($1, count / 2) in took) printf "%s, to that of half as many | %s | %.2f times\n", $1, $2, $3 / took[$1, count / 2]
    }' "$work/told" | at_most 2.5 '2.5 times'
