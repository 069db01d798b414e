#!/bin/sh
# How long it takes to apply write sets of 100 times so many files of 100 bytes to a tree in memory, and to recover from each one, cut off in
# the middle of making its targets; and the time and the peak memory of a process that recovers a write set of one file of 16 MB, the tree in
# memory with it. The least of three processes. It ends with status 1 where that memory is more than three times the file. It needs Python.
# Usage: bench/write_sets.sh [HUNDREDS...]
set -eu
. "$(dirname "$0")/lib.sh"
build_bench write_sets 'cny_base tree_disk tree_nodes tree_memory root_words tree_journal sha1 anyhow'
[ $# -gt 0 ] || set -- 25 50 100 200
least 3 alone "$@" 0
peak=$(peak_of "$work/told" "$program" 0)
echo "peak memory of that recovery, the tree with it | 16777216 bytes | $peak bytes" | at_most $((3 * 16777216)) 'three times the file'
