#!/bin/sh
# How long it takes to read manifests, the least of three processes, and how much memory that takes with the manifest itself. It needs
# Python.
# Usage: bench/manifests.sh [KIND COUNT SIZE]... KIND is `component`, so many files of one component; `package`, a fifth of so
# many files in each of its five components; or `named`, a package whose lines name so many components, each in a line of what it
# requires and one of what it provides, and that has as many files. COUNT is at most 65,535 for a component, 65,530 for the named
# components, and 327,675 for the files of a package; SIZE, the bytes of each file, at most 16,777,216.
# Without words: 16,384, 32,768 and 65,535 files of 100 bytes of one component; 81,920, 163,840 and 327,675 of a package; 16,384,
# 32,768 and 65,530 named components with as many files of 1 byte; 50, 100 and 200 MB in files of 100,000 bytes of a component, and
# 50, 100 and 200 MB in 16,384, 32,768 and 65,535 files.
set -eu
. "$(dirname "$0")/lib.sh"
build_bench manifests 'cny_manifest anyhow'
if [ $# -eq 0 ]; then
    set -- component 16384 100 component 32768 100 component 65535 100
    set -- "$@" package 81920 100 package 163840 100 package 327675 100
    set -- "$@" named 16384 1 named 32768 1 named 65530 1
    set -- "$@" component 500 100000 component 1000 100000 component 2000 100000
    set -- "$@" component 16384 3000 component 32768 3000 component 65535 3000
fi
while [ $# -gt 2 ]; do
    least 3 "$program" "$1" "$2" "$3" | grep -v '^its bytes'
    peak=$(peak_of "$work/told" "$program" "$1" "$2" "$3")
    awk -F ' [|] ' -v peak="$peak" '
        NR == 1 { measure = $1 }
        $1 == "its bytes" { printf "peak memory with the manifest, %s | %s | %.2f times the manifest\n", measure, $2, peak / $3 }' "$work/told"
    shift 3
done
