#!/bin/sh
# How long the program takes to install manifests of so many files of 100 bytes each, 100 in a directory, on the trees in memory; the least of
# three runs.
# Usage: bench/install.sh [COUNT...]
set -eu
. "$(dirname "$0")/lib.sh"

# A manifest with so many files.
manifest() {
    awk -v count="$1" 'BEGIN {
        print "manifest 1"; print "component bench:data"
        print "version /bench.example.com@ex:devel/1.0-1-1"
        for (i = 0; i < 99; i++) content = content "x"
        print "dir 0755 /srv"
        for (i = 0; i < count; i++) {
            if (i % 100 == 0) printf "dir 0755 /srv/d%04d\n", i / 100
            printf "file 0644 100 /srv/d%04d/f%05d\n%sy\n", i / 100, i, content
        }
        print "end"
    }'
}

install() {
    "$top/conary" install <"$work/manifest" >"$work/out"
    grep -q '^installed bench:data=' "$work/out"
}

row() {
    took=$(time_of install) || return
    echo "installing a manifest of files of 100 bytes, on trees in memory | $count files | $took"
}

(. "$top/tools/program.sh" && need_proved)
[ $# -gt 0 ] || set -- 1000 2000 3000 4000 5000
for count in "$@"; do
    manifest "$count" >"$work/manifest"
    least 3 row
done
