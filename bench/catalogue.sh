#!/bin/sh
# How long it takes to add so many troves of a tenth as many names to a catalogue, to resolve as many specifications in it, to expand a
# group of a trove of each name, and to move that group onto another label as a shadow; the least of three processes.
# Usage: bench/catalogue.sh [COUNT...]
set -eu
. "$(dirname "$0")/lib.sh"
build_bench catalogues 'cny_base cny_dep cny_version trove_parts trove_stream repo_index trove_spec repo_shadow anyhow'
[ $# -gt 0 ] || set -- 5000 10000 20000 40000
least 3 alone "$@"
