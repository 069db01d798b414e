#!/bin/sh
# What a further commit of 5 troves with 50 files each costs behind so many others of the same kind, multiples of 20, to a tree in memory:
# its time, without the reading of its change set, and its calls of the disk, the mean of 20; the least of three processes. It needs Python.
# Usage: bench/commits.sh [COUNT...]
set -eu
. "$(dirname "$0")/lib.sh"
[ $# -gt 0 ] || set -- 100 400
most=$(printf '%s\n' "$@" | sort -n | tail -1)
python3 "$top/bench/programs/commits/sets.py" "$top" $((most + 20)) >"$work/sets"
build_bench commits 'cny_base change_set tree_memory root_words repo_index repo_load repository hex anyhow'
commits() {
    "$program" "$@" <"$work/sets"
}
least 3 commits "$@"
