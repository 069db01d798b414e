#!/bin/sh
# How long it takes to read, and to write again, change sets of one component with all contents of its files; the least of three processes.
# Usage: bench/change_sets.sh [COUNT SIZE]... with the number of files, up to 65,535, and the bytes of each, up to 16,777,216;
# without words, for 125, 250, 500 and 1,000 files of 100,000 bytes each, which are 12.5, 25, 50 and 100 MB.
set -eu
. "$(dirname "$0")/lib.sh"
build_bench change_sets 'cny_base change_set sha1 anyhow'
[ $# -gt 0 ] || set -- 125 100000 250 100000 500 100000 1000 100000
while [ $# -gt 1 ]; do
    least 3 "$program" "$1" "$2"
    shift 2
done
