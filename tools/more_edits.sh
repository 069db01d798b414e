#!/bin/sh
# Tries the edits that stand outside the gate, edits/CRATE/NAME.edit, as the gate tries the must-fail edits: tools/more_edits.sh [CRATE..]
#
# Of the crates named, or of all that have any. It copies the crates as they stand in the work tree, puts their edits in place of the
# must-fail edits there, and runs `rt must-fail CRATE` for each. A line is printed for each edit, with what `rt` says of it behind:
#
#     refused CRATE/EDIT: by a clause, as it has to be
#     SHAPE CRATE/EDIT: refused only since a proof file cites a name that the edit takes away, so that no contract was tried
#     LIMIT CRATE/EDIT: refused only by a limit of the prover, which gave no verdict
#     PROVED CRATE/EDIT: not refused: the contract is too weak, or the edit means the same as before
#     BAD CRATE/EDIT: the edit doesn't apply, or what it makes can't be compiled or read
#     UNTRIED CRATE/EDIT: nothing is known of it
#
# An edit with a line `by: PROGRAM` isn't tried: no clause refuses it, and tools/gate/edits_show.py says whether that program shows it.
# The last line is the counts. It ends with status 1 unless each is refused by a clause. The copy goes at the end, also where the script is
# interrupted.
set -eu
export LC_COLLATE=C
cd "$(dirname "$0")/.."

# The edits of a crate outside the gate that a clause has to refuse.
for_clauses() {
    grep -L '^by: ' "edits/$1"/*.edit 2>/dev/null || :
}

known=
for crate in $(sed 's/#.*//; s/:.*//' crates.txt); do
    [ -z "$(for_clauses "$crate")" ] || known="$known $crate"
done
[ $# -gt 0 ] || set -- $known
for crate in "$@"; do
    case "$known " in
    *" $crate "*) ;;
    *)
        echo "no edits stand in edits/$crate/, or it is no crate. Usage: tools/more_edits.sh [CRATE..]" >&2
        exit 1
        ;;
    esac
done

room=$(mktemp -d "${TMPDIR:-/tmp}/more-edits-XXXXXX")
trial=

# Ends `rt` with what it started, by force where that takes more than ten seconds, and removes the copy.
clean_up() {
    set +e
    if [ -n "$trial" ]; then
        kill -TERM -- "-$trial"
        { sleep 10 && kill -KILL -- "-$trial"; } &
        wait "$trial"
        kill $!
    fi 2>/dev/null
    rm -rf "$room"
}
trap clean_up EXIT
trap 'exit 129' HUP
trap 'exit 130' INT
trap 'exit 143' TERM

# What the words of `rt` on an edit mean.
verdict_of() {
    case $1 in
    "refused, as it must be (only because a proof file names"*) echo SHAPE ;;
    "refused, as it must be (only by a limit"*) echo LIMIT ;;
    "refused, as it must be: "*) echo refused ;;
    "NOT REFUSED"*) echo PROVED ;;
    "BAD EDIT"*) echo BAD ;;
    *) echo UNTRIED ;;
    esac
}

tar -cf - --exclude=out --exclude=must-fail crates crates.txt HANDLES | tar -xf - -C "$room"
git init -q "$room"
for crate in "$@"; do
    edits=$(for_clauses "$crate")
    mkdir "$room/crates/$crate/must-fail"
    cp -p $edits "$room/crates/$crate/must-fail"
    (cd "$room" && exec setsid rt must-fail "$crate") </dev/null >"$room/said" 2>&1 &
    trial=$!
    wait "$trial" || :
    trial=
    last=$(grep '[^[:space:]]' "$room/said" | tail -n 1)
    for edit in $edits; do
        name=$(basename "$edit" .edit)
        words=$(sed -n "s|^\(rt: \)\{0,1\}must-fail $crate/$name\.edit: ||p" "$room/said" | tail -n 1)
        verdict=$(verdict_of "$words")
        echo "$verdict" >>"$room/verdicts"
        [ -n "$words" ] || words=${last:-rt said nothing}
        printf '%s %s/%s: %s\n' "$verdict" "$crate" "$name" "$words"
    done
done
sort "$room/verdicts" | uniq -c | awk '{ printf "%s%d %s", sep, $1, $2; sep = ", " } END { print NR ? "" : "no edits" }'
! grep -qvx refused "$room/verdicts"
