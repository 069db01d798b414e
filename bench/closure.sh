#!/bin/sh
# How long it takes to test a list of so many troves with 10 requirements each for closure, and to make 500 changes of one trove each, and 20
# that are refused, on the closure of such a list; and the same changes of one more trove, which all others require. The times have the
# reading of the lines in them, but for the changes, where the time of making the closure and of the first change is taken off. The least of
# five processes, the program `list_lines`. It needs Python.
# Usage: bench/closure.sh [COUNT...]
set -eu
. "$(dirname "$0")/lib.sh"
build list_lines

answer() {
    "$program" <"$work/lines" >"$work/answers"
}

# How many milliseconds the program takes for these lines, the least of five times.
taken() {
    python3 "$top/bench/programs/closure/lines.py" "$top" "$@" >"$work/lines"
    for _ in 1 2 3 4 5; do
        time_of answer
    done | sort -n | head -1 | cut -d. -f1
}

[ $# -gt 0 ] || set -- 2000 5000 10000 20000
for count in "$@"; do
    closed=$(taken "$count" 0 0)
    one=$(taken "$count" 1 0)
    many=$(taken "$count" 501 0)
    refused=$(taken "$count" 1 20)
    echo "testing a list of troves with 10 requirements each for closure | $count troves | $closed ms"
    echo "500 changes of one trove each on its closure | $count troves | $((many - one)) ms"
    echo "20 changes that are refused | $count troves | $((refused - one)) ms"
    one=$(taken "$count" 1 0 hub)
    many=$(taken "$count" 501 0 hub)
    refused=$(taken "$count" 1 20 hub)
    echo "500 changes of one trove that all others require | $count troves | $((many - one)) ms"
    echo "20 changes of that one that are refused | $count troves | $((refused - one)) ms"
done
