#!/bin/sh
# How long it takes to erase a group of so many components, half of which another group keeps, to update the group to one without
# references, and to compare the lists before and after; the least of three processes.
# Usage: bench/lists.sh [COUNT...]
set -eu
. "$(dirname "$0")/lib.sh"
build_bench lists 'cny_base trove_parts trove_stream update_job anyhow'
[ $# -gt 0 ] || set -- 2000 5000 10000 20000
least 3 alone "$@"
