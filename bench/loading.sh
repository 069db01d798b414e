#!/bin/sh
# How long it takes to load a repository of so many commits of 5 troves with 50 files each from a tree in memory, to count its troves, and
# to read 1,000 of its contents; the least of three processes.
# Usage: bench/loading.sh [COUNT...]
set -eu
. "$(dirname "$0")/lib.sh"
build_bench loads 'cny_base cny_stream trove_parts trove_stream tree_memory root_words repo_index repo_load sha1 anyhow'
[ $# -gt 0 ] || set -- 100 200 400 800
least 3 alone "$@"
