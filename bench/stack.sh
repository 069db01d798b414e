#!/bin/sh
# How long it takes to tell what all jobs of a root changed, in memory: a root of 1,000 troves of 10 files with 125, 250 and 500 jobs, each
# of which turned 5 troves into others, or of so many troves and so many jobs. The least of three processes. It ends with status 1 where it
# takes more than 200 ms. It needs Python.
# Usage: bench/stack.sh [TROVES JOBS]...
set -eu
. "$(dirname "$0")/lib.sh"
build_bench stacks 'local_db rollback_stack system_core line_words root_words anyhow'
[ $# -gt 0 ] || set -- 1000 125 1000 250 1000 500
stack() {
    "$program" <"$work/root"
}
while [ $# -gt 1 ]; do
    (cd "$top" && python3 -m tools.lines.root_lines root "$1" "$2" 5 10) | sed 's/^/root\t/' >"$work/root"
    least 3 stack >"$work/told"
    at_most 200 '200 ms' <"$work/told"
    shift 2
done
