#!/bin/sh
# How long so many changing calls take on a tree in memory of 20,201 nodes, with a sync every 100 calls; the least of three processes.
# Usage: bench/tree_calls.sh [COUNT...], of at most 100,000
set -eu
. "$(dirname "$0")/lib.sh"
build_bench tree_calls 'cny_base tree_disk tree_memory anyhow'
[ $# -gt 0 ] || set -- 50000
least 3 alone "$@"
