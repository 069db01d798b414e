#!/bin/sh
# Whether each command ends in time where a file of the root or of the repository is far larger than it can be. Over two directories of the
# host it makes a root with two jobs and a repository with two commits, and of each file that the program keeps there, and of the two files
# that configure a root, a copy of both directories for each command in which this file goes on with holes up to 100 GB (they take no room).
# The command has to end within a second, as it does where the file is as it was, with status 8 and the file's name, or with `too large`; and
# so too where the file holds nothing but a hole. It prints the slowest command, and each that is wrong, and ends with status 1 where one is.
# Usage: bench/damaged_sizes.sh [STATE...]
# The state `sound` is asked without words. In the state `cut` a crash left a change of both directories that the next command finishes from
# its log; a log is read whole then, so a large one isn't told in time.
# CONARY may name another program than the proved one of this copy. It works below TMPDIR, on a file system that has files with holes.
set -eu
top=$(cd "$(dirname "$0")/.." && pwd)
. "$top/tools/program.sh"
choose_program
work=$(mktemp -d)
trap 'rm -rf "$work"' EXIT
[ $# -gt 0 ] || set -- sound
limit=1000
size=100G
# A command that reads such a file whole is ended before it takes all memory.
patience=3

manifest=$top/examples/component.manifest
second=$top/examples/second.manifest
spec=foo:runtime=conary.example.com@ex:devel

# conary WORDS...: the program over the directories below $at.
conary() {
    timeout "$patience" "$program" --disk "$at/root" "$at/repo" "$@"
}

at=$work/sound
mkdir -p "$at/root/var/lib" "$at/root/etc/conary" "$at/repo"
echo 'labels conary.example.com@ex:devel' >"$at/root/etc/conaryrc"
echo "install $spec" >"$at/root/etc/conary/system-model"
conary cook <"$manifest" >/dev/null
conary update "$spec" >/dev/null
conary cook <"$second" >/dev/null
conary update "$spec" >/dev/null
# Where the commit flag is set, the log and the staged files are still read.
cp -a "$at" "$work/cut"
printf O >"$work/cut/root/var/lib/conarydb/gate"
printf O >"$work/cut/repo/conaryrepo/gate"

# ask COMMAND: makes it, and tells its status and both its outputs.
ask() {
    input=/dev/null
    case $1 in cook | install) input=$second ;; esac
    # The words of a command are split here.
    # shellcheck disable=SC2086
    conary $1 <"$input" >"$work/out" 2>"$work/err" && status=0 || status=$?
    { echo "status $status" && cat "$work/out" "$work/err"; } >"$work/answer"
}

commands="q
q foo:runtime
rq
rq foo:runtime
rblist
verify
verify --full
localcs foo:runtime
install
cook --next
update $spec
update --resolve $spec
sync
erase foo:runtime
rollback
rollback r.1
changeset $spec
shadow other.example.com@ex:devel $spec"

# try STATE FILE WAY COMMAND: asks it where the file of this state is made large in this way.
try() {
    rm -rf "$work/tried" && cp -a "$work/$1" "$work/tried"
    at=$work/tried
    [ "$3" = longer ] || : >"$at/$2"
    truncate -s "$size" "$at/$2"
    begin=$(date +%s%N)
    ask "$4"
    took=$((($(date +%s%N) - begin) / 1000000))
    asked=$((asked + 1))
    [ "$took" -le "$most" ] || { most=$took && slowest="$4, $2"; }
    rm -f "$at/$2"
    right=no
    ! cmp -s "$work/answer" "$work/answers/$1/$4" || right=yes
    named=$(echo "$2" | sed 's/^[a-z]*//')
    [ "$status" -ne 8 ] || ! grep -qF "damaged $named" "$work/err" || right=yes
    ! grep -q 'too large: ' "$work/err" || right=yes
    if [ "$right" = no ] || [ "$took" -gt "$limit" ]; then
        echo "$1, $2 $3, $4: status $status, $took ms: $(head -n 1 "$work/err")"
        wrong=$((wrong + 1))
    fi
}

asked=0
wrong=0
most=0
slowest=
for state in "$@"; do
    mkdir -p "$work/answers/$state"
    echo "$commands" >"$work/commands"
    while read -r command; do
        rm -rf "$work/tried" && cp -a "$work/$state" "$work/tried"
        at=$work/tried
        ask "$command"
        mv "$work/answer" "$work/answers/$state/$command"
    done <"$work/commands"
    (cd "$work/$state" && find root/var/lib/conarydb repo/conaryrepo root/etc/conaryrc root/etc/conary -type f | sort) >"$work/files"
    while read -r file; do
        for way in longer empty; do
            while read -r command; do
                try "$state" "$file" "$way" "$command"
            done <"$work/commands"
        done
    done <"$work/files"
done
echo "commands beside a file of 100 GB, the slowest | $asked commands: $slowest | $most ms | $limit ms"
[ "$wrong" -eq 0 ]
