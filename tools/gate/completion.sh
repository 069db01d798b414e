#!/bin/bash
# Asks the completion of share/bash-completion/conary for completions, and compares what it offers with what is written here by hand; and
# its commands with those of ./conary --help. Ends with 1 where one differs.
set -u
cd "$(dirname "$0")/../.." || exit 1
. share/bash-completion/conary
. share/bash-completion/conary-manifest
room=$(mktemp -d) || exit 1
trap 'rm -rf "$room"' EXIT
mkdir -p "$room/root/var/lib/conarydb/s.2" "$room/repo"
touch "$room/root/var/lib/conarydb/r.1" "$room/root/var/lib/conarydb/r.2" "$room/root/var/lib/conarydb/db"
asked=0
wrong=0

# What is offered for the last of these words, behind a program.
offered() {
    COMP_WORDS=("$program" "$@")
    COMP_CWORD=$#
    COMPREPLY=()
    "_${program//-/_}"
    echo "${COMPREPLY[*]}"
}

# Whether just WANTED is offered for the last of the words behind it.
offers() {
    local wanted=$1 found
    shift
    found=$(offered "$@")
    asked=$((asked + 1))
    [ "$found" = "$wanted" ] && return
    echo "$program $*: offered \`$found', and not \`$wanted'"
    wrong=1
}

program=conary
offers "install" i
offers "rollback rblist rq" r
offers "cook commit" co
offers "" nothing
offers "--disk" --
offers "$room/root $room/repo" --disk "$room/r"
offers "$room/repo" --disk "$room/root" "$room/rep"
offers "verify" --disk "$room/root" "$room/repo" v
offers "" --disk "$room/root" "$room/repo" --
offers "--replace --keep" install ""
offers "--keep" install --replace ""
offers "--replace" install --keep --r
offers "--keep" sync --replace ""
offers "--replace --keep --resolve" update --
offers "--replace --resolve" update --re
offers "" update foo --
offers "--replace" erase -
offers "--full" --disk "$room/root" "$room/repo" verify -
offers "" verify foo -
offers "--next" cook ""
offers "r.1 r.2" --disk "$room/root" "$room/repo" rollback ""
offers "r.2" --disk "$room/root" "$room/repo" rollback r.2
offers "" --disk "$room/root" "$room/repo" rollback r.1 ""
offers "" rollback ""
offers "" rblist ""
offers "ask take" mirror ""
offers "" mirror ask ""

told=$(./conary --help | sed -n 's/^  \([a-z]*\).*/\1/p' | sort -u)
found=$(offered "" | tr ' ' '\n' | grep -v '^--' | sort)
[ "$told" = "$found" ] || {
    echo "the commands that are offered aren't those of ./conary --help"
    wrong=1
}
program=conary-manifest
offers "--skip --flavor --config --requires --provides component package" ""
offers "--requires" --skip --r
offers "component" --flavor ssl c
offers "package" --requires a:b "trove: c" p
offers "" --flavor s
offers "" package foo
offers "$room/root $room/repo" package foo /h@n:t/1-1-1 "$room/r"

[ "$(complete -p conary ./conary 2>/dev/null | wc -l)" = 2 ] || {
    echo "conary isn't completed"
    wrong=1
}
[ "$wrong" = 1 ] || echo "$asked completions are those that are wanted"
exit "$wrong"
