#!/bin/sh
# Lets one allocation of a command fail, the first, then the second and so on, until twenty in a row end it as it ends where none fails, which are
# more than it makes. So it is with each of seven commands: an installation; one that replaces an edit, and the rollback of it; the change set between
# two versions, and its commit and an update from it where the first version is; and a batch that cooks, updates and lists. Each must end with status 7,
# or with the status and the output that it has where none fails, and what the next command finds must be the state before it, or behind it or
# one of its lines. Prints how many allocations failed and how each command ended then. Ends with 1 where one is to end otherwise.
# `rt try --fail-alloc` builds the program once, with a number that stands where memory is asked for; each number is put there in its place.
# Usage: tools/host/refused_growths.sh
set -eu
top=$(CDPATH='' cd "$(dirname "$0")/../.." && pwd)
. "$top/tools/program.sh"
number=1234567890 bytes='\xd2\x02\x96\x49' beyond=20
try_words="--fail-alloc $number"
whole=$out/refusing
is_current "$whole" || build by_try "$whole"
places=$(LC_ALL=C grep -obUaP "$bytes" "$whole" | cut -d: -f1)
[ "$(echo "$places" | wc -l)" -eq 2 ] || { echo "the number doesn't stand at two places of the program" >&2; exit 1; }
room=$(mktemp -d "${TMPDIR:-/tmp}/conary-growths-XXXXXX")
trap 'rm -rf "$room"' EXIT
version=/conary.example.com@ex:devel/1.0
cp "$whole" "$room/program"

# manifest REVISION BYTES: a component with a directory and a file of these bytes.
manifest() {
    printf 'manifest 1\ncomponent foo:runtime\nversion %s-%s-1\ndir 0755 /etc\nfile 0644 %s /etc/foo\n%s\nend\n' "$version" "$1" "${#2}" "$2"
}

# fail NUMBER: the allocation of this number fails from now on.
fail() {
    low=$(printf '\\%03o\\%03o' $(($1 & 255)) $(($1 >> 8)))
    for place in $places; do
        printf "$low\\000\\000" | dd of="$room/program" bs=1 seek="$place" conv=notrunc status=none
    done
}

# on FOLDER WORDS...: a command of which no allocation fails.
on() {
    folder=$1
    shift
    "$whole" --disk "$folder/root" "$folder/repo" "$@"
}

# found FOLDER: what the next command finds there, of several lines, and what stands outside the private directories.
found() {
    printf 'rblist\nrq\nq\n' | on "$1" batch 2>&1 || :
    tar -c --sort=name --mtime=@0 --exclude=./var/lib/conarydb -C "$1/root" .
}

# after INPUT WORDS...: one more state that may be found, that behind this command.
after() {
    input=$room/$1
    shift
    rm -rf "$room/after"
    cp -a "$room/before" "$room/after"
    on "$room/after" "$@" <"$input" >"$room/wanted" 2>"$room/wanted_err" && ends=0 || ends=$?
    allowed=$((allowed + 1))
    found "$room/after" >"$room/state$allowed"
}

# refuse NAME INPUT WORDS...: the folder `before` has what stands before the command.
refuse() {
    name=$1 data=$2
    shift 2
    after "$data" "$@"
    cp -a "$room/before" "$room/asked"
    found "$room/asked" >"$room/state0"
    rm -rf "$room/asked"
    at=0 same=0 out_of_memory=0 as_before=0
    while [ "$same" -lt "$beyond" ]; do
        at=$((at + 1))
        fail "$at"
        rm -rf "$room/tried"
        cp -a "$room/before" "$room/tried"
        "$room/program" --disk "$room/tried/root" "$room/tried/repo" "$@" <"$room/$data" >"$room/said" 2>"$room/err" && status=0 || status=$?
        found "$room/tried" >"$room/now"
        state=0
        while [ "$state" != none ] && ! cmp -s "$room/state$state" "$room/now"; do
            [ "$state" -lt "$allowed" ] && state=$((state + 1)) || state=none
        done
        as=other
        [ "$status" -ne "$ends" ] || ! cmp -s "$room/said" "$room/wanted" || ! cmp -s "$room/err" "$room/wanted_err" || as=ends
        [ "$status" -ne 7 ] || as=memory
        case $as in ends) same=$((same + 1)) ;; *) same=0 ;; esac
        [ "$as" != memory ] || out_of_memory=$((out_of_memory + 1))
        [ "$as$state" != memory0 ] || as_before=$((as_before + 1))
        if [ "$as" = other ] || [ "$state" = none ] || [ "$as" = ends ] && ! cmp -s "$room/state$allowed" "$room/now"; then
            echo "$name, allocation $at: status $status, state $state"
            wrong=1
        fi
    done
    echo "$name: $((at - beyond)) allocations failed, $out_of_memory of them with status 7; behind these the next command found the state before $as_before times and a later one $((out_of_memory - as_before)) times"
    allowed=0
}

# begin: a new room.
begin() {
    rm -rf "$room/before"
    mkdir -p "$room/before/root/var/lib" "$room/before/repo"
}

manifest 1 abc >"$room/M"
manifest 2 abcd >"$room/M2"
{
    printf 'cook <%s\n' "$(wc -c <"$room/M")"
    cat "$room/M"
    printf '\nupdate foo:runtime=conary.example.com@ex:devel\nq\n'
} >"$room/batch"
: >"$room/nothing"
wrong=0 allowed=0
begin
refuse 'an installation' M install
on "$room/before" install <"$room/M" >/dev/null
printf abX >"$room/before/root/etc/foo"
refuse 'an installation over an edit' M2 install --replace
on "$room/before" install --replace <"$room/M2" >/dev/null
refuse 'a rollback' nothing rollback
begin
on "$room/before" cook <"$room/M" >/dev/null
cp -a "$room/before" "$room/first"
on "$room/before" cook <"$room/M2" >/dev/null
refuse 'a change set' nothing changeset "foo:runtime=$version-1-1" "foo:runtime=$version-2-1"
cp "$room/wanted" "$room/set"
rm -rf "$room/before"
mv "$room/first" "$room/before"
refuse 'a commit of it' set commit
on "$room/before" install <"$room/M" >/dev/null
refuse 'an update from it' set update -
begin
after M cook
refuse 'a batch' batch batch
exit "$wrong"
