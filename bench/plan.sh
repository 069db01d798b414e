#!/bin/sh
# How long it takes to plan the update of every second of so many troves with 20 files each, over a tree in memory in which all of them
# stand, and how many calls of the disk it makes: one look and one read for each of the 10 COUNT files that change, and none for the
# others; with other numbers of calls it ends with an error. The least of three processes.
# Usage: bench/plan.sh [COUNT...]
set -eu
. "$(dirname "$0")/lib.sh"
build_bench plans 'cny_base cny_stream trove_parts trove_stream tree_memory conflict_plan root_words sha1 anyhow'
[ $# -gt 0 ] || set -- 250 500 1000 2000
least 3 alone "$@"
