#!/bin/sh
# How long it takes to read, and to write again, the streams of components of so many files; the least of ten processes.
# Usage: bench/troves.sh [COUNT...]
set -eu
. "$(dirname "$0")/lib.sh"
build_bench troves 'cny_base trove_stream anyhow'
[ $# -gt 0 ] || set -- 8192 16384 32768 65535
least 10 alone "$@"
