#!/bin/sh
# How long the demo of so many packages takes on trees in memory, from nothing; the least of three runs. 200 packages are to take at most
# 20 s, and twice as many at most 2.6 times as long. For each size the greatest memory of the process is told too.
# Usage: bench/demo.sh [PACKAGES...], the sizes rising
set -eu
. "$(dirname "$0")/lib.sh"

demo() {
    "$top/conary" demo "$count" >"$work/out"
    [ "$(cat "$work/out")" = "verified $((54 * count)) paths, 0 changed" ]
}

row() {
    took=$(time_of demo) || return
    echo "the demo, on trees in memory | $count packages | $took"
}

# The greatest resident memory of one run, in MB.
peak() {
    python3 - "$top/conary" "$count" <<'END'
import resource, subprocess, sys
subprocess.run([sys.argv[1], "demo", sys.argv[2]], check=True, stdout=subprocess.DEVNULL)
print(f"peak memory of the demo | {sys.argv[2]} packages | {resource.getrusage(resource.RUSAGE_CHILDREN).ru_maxrss // 1024} MB")
END
}

# No size takes more than 2.6 times as long as half of it.
doubled() {
    awk -F ' [|] ' '{ size = $2 + 0; took[size] = $3 + 0; print } END { for (size in took) if (2 * size in took && took[2 * size] > 2.6 * took[size]) exit 1 }'
}

(. "$top/tools/program.sh" && need_proved)
[ $# -gt 0 ] || set -- 25 50 100 200
for count in "$@"; do
    least 3 row
done | at_most 20000 "at most 20 s, and 2.6 times for twice as many" >"$work/times"
doubled <"$work/times"
for count in "$@"; do
    peak
done
