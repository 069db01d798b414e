#!/bin/sh
# How long it takes to update one component of 50 files on a root in memory with so many such components; the least of five processes. Then
# how many times as long that takes as on a root with half as many, where both were taken: it ends with status 1 where that is more than
# 2.3 times, or where an update takes more than 200 ms. It needs Python.
# Usage: bench/one.sh [COMPONENTS...]
set -eu
. "$(dirname "$0")/lib.sh"
build_bench jobs 'local_db system_core line_words root_words sha1 anyhow'
[ $# -gt 0 ] || set -- 500 1000 2000
one() {
    "$program" "$components" <"$work/lines"
}
for components in "$@"; do
    python3 "$top/bench/programs/jobs/one.py" "$top" "$components" >"$work/lines"
    least 5 one >>"$work/all"
done
grep '^updating one' "$work/all" >"$work/told"
at_most 200 '200 ms' <"$work/told"
doubled <"$work/told" | at_most 2.3 '2.3 times'
