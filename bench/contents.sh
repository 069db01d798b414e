#!/bin/sh
# How long it takes to put contents into a store over a tree in memory and to get each back, as many of 600 bytes as are told and ten of
# 16 MB, and to do that again, where their bytes are compared; and how long the kernels and a loop over the bytes take to compare two equal
# contents of 16 MB, 100 times each. The least of three processes.
# Usage: bench/contents.sh [COUNT...]
set -eu
. "$(dirname "$0")/lib.sh"
[ $# -gt 0 ] || set -- 5000 10000 20000
build_bench contents 'cny_base content_store tree_memory root_words anyhow'
for count in "$@"; do
    least 3 "$program" "$count" 600
done
least 3 "$program" 10 16777216
build_bench compares 'cny_base anyhow'
least 3 "$program" 16777216
