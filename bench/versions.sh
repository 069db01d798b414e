#!/bin/sh
# How long it takes to load a repository of so many commits of one trove each, all of one name, from a tree in memory, and to look each of
# them up by its id; the least of three processes. Then how many times as long each step takes as for half as many, where both were taken: it
# ends with status 1 where that is more than 2.6 times.
# Usage: bench/versions.sh [COUNT...]
set -eu
. "$(dirname "$0")/lib.sh"
build_bench versions 'cny_base cny_stream trove_parts trove_stream tree_memory root_words repo_index repo_load sha1 anyhow'
[ $# -gt 0 ] || set -- 2500 5000 10000
least 3 alone "$@" | tee "$work/told"
doubled <"$work/told" | at_most 2.6 '2.6 times'
