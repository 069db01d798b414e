#!/bin/sh
# usage: ./install.sh [--checked] PREFIX
# Puts the programs conary and conary-manifest into PREFIX/bin, their manual pages into PREFIX/share/man/man1, and their completion for bash
# into PREFIX/share/bash-completion/completions. They are the proved ones, which `rt ci` leaves in the `out` of their crates; where one isn't
# there, or a source is newer, nothing is installed. With --checked they are those that `./conary` and `./conary-manifest` build first.
set -eu
top=$(CDPATH='' cd "$(dirname "$(readlink -f "$0")")" && pwd)

which=proved
if [ "${1:-}" = --checked ]; then
    which=checked
    shift
fi
if [ $# -ne 1 ] || [ -z "$1" ]; then
    sed -n '2,5s/^# //p' "$0" >&2
    exit 2
fi

# The program of a crate, where it stands and no source is newer.
found() {
    program_crate=$1
    . "$top/tools/program.sh"
    program=$proved
    [ "$which" = proved ] || program=$checked
    is_current "$program" && return
    echo "install.sh: the $which $name is not there, or a source is newer: \"rt ci\" makes the proved ones, \"./$name\" one without proofs, which --checked installs" >&2
    exit 1
}

for crate in conary conary_manifest; do
    found "$crate"
done
for crate in conary conary_manifest; do
    found "$crate"
    install -D -m 0755 "$program" "$1/bin/$name"
    install -D -m 0644 "$top/docs/$name.1" "$1/share/man/man1/$name.1"
    install -D -m 0644 "$top/share/bash-completion/$name" "$1/share/bash-completion/completions/$name"
done
echo "the programs are in $1/bin, their pages in $1/share/man/man1, their completion in $1/share/bash-completion/completions"
