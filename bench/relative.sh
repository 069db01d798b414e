#!/bin/sh
# How long it takes to make the relative trove between two components of so many files of which every second one differs, and to apply it to
# the old one: the least of twenty processes for each size, of which each does both once, as a command does, so that all memory comes fresh
# from the system; and the least of twenty times for each size in one process. The sizes take turns, so that a machine that grows slower for
# a while does so for all of them.
# Usage: bench/relative.sh [COUNT...]
set -eu
. "$(dirname "$0")/lib.sh"
build_bench relatives 'cny_base trove_stream change_rel anyhow'
[ $# -gt 0 ] || set -- 8192 16384 32768 65535
least 20 alone "$@"
least 1 "$program" $(for _ in $(seq 20); do echo "$@"; done) | sed 's/ | /, in a process that did so before | /'
