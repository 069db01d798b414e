# What the benches share. They read this file with `.`; it sets $top, the repository, and $work, a folder that goes at their end.
#
# A bench prints rows: what is measured, for which size, how much it took, and its limit where it has one, with ` | ` between them.
# Where a limit is passed, or a program finds a wrong answer, it ends with another status than 0. bench/all makes docs/COSTS.md of the rows.
#
# The programs that benches build stand in bench/programs, as files that the gate of this repository doesn't read, each in a folder with its
# name; what several of them share stands in bench/programs/parts.
top=$(CDPATH='' cd "$(dirname "$0")/.." && pwd)
work=$(mktemp -d)
trap 'rm -rf "$work"' EXIT
. "$top/tools/needed_lines.sh"

# build_in FOLDER NAME: has the gate prove and build the program NAME of the repository in this folder, with what isn't proved yet on this
# machine, and sets $program to it.
build_in() {
    if ! (cd "$1" && exec rt ci) </dev/null >"$work/build.log" 2>&1; then
        tail -20 "$work/build.log" >&2
        exit 70
    fi
    program=$1/crates/$2/out/$2
}

# build NAME: the same for a program of this repository, in a folder of its own.
build() {
    mkdir "$work/$1"
    copy_needed "$work/$1" "$1"
    build_in "$work/$1" "$1"
}

# build_bench NAME "CRATES": the same for the program of bench/programs/NAME, whose files name these crates. The modules that its main file
# declares and that its own folder doesn't have are taken from bench/programs/parts. The gate runs a program once on nothing: without
# words and lines it is to do nothing.
build_bench() {
    mkdir "$work/$1"
    copy_needed "$work/$1" "$2"
    echo "$1: $2" >>"$work/$1/crates.txt"
    mkdir -p "$work/$1/crates/$1/src"
    for module in main $(sed -n 's/^mod \([a-z_]*\);$/\1/p' "$top/bench/programs/$1/main.rattle"); do
        file=$top/bench/programs/$1/$module.rattle
        [ -f "$file" ] || file=$top/bench/programs/parts/$module.rattle
        cp "$file" "$work/$1/crates/$1/src/$module.rt"
    done
    build_in "$work/$1" "$1"
}

# alone SIZE...: what the program prints of each size, in a process of its own for each.
alone() {
    for size in "$@"; do
        "$program" "$size" || return
    done
}

# least TIMES COMMAND...: the rows that a command prints, of so many runs each one with its least figure.
least() {
    times=$1
    shift
    for _ in $(seq "$times"); do
        "$@" || return
    done >"$work/rows"
    awk -F ' [|] ' '
        { row = $1 " | " $2; figure = $3 + 0 }
        !(row in least) { order[++rows] = row }
        !(row in least) || figure < least[row] { least[row] = figure; told[row] = $3 }
        END { for (at = 1; at <= rows; at++) print order[at] " | " told[order[at]] }' "$work/rows"
}

# at_most FIGURE TEXT: the rows of standard input with this limit. It fails where the figure of one is greater.
at_most() {
    awk -F ' [|] ' -v most="$1" -v text="$2" '{ print $0 " | " text } $3 + 0 > most { over = 1 } END { exit over }'
}

# doubled: of rows of times on standard input, how many times as long each took as for half the size, where both stand there.
doubled() {
    awk -F ' [|] ' '
        / ms$/ {
            size = $2 + 0
            took[$1, size] = $3 + 0
            if (took[$1, size / 2] > 0) printf "%s, to that of half as many | %s | %.2f times\n", $1, $2, $3 / took[$1, size / 2]
        }'
}

# time_of COMMAND...: how long a command takes, in milliseconds.
time_of() {
    begin=$(date +%s%N)
    "$@" || return
    end=$(date +%s%N)
    tenths=$(((end - begin) / 100000))
    echo "$((tenths / 10)).$((tenths % 10)) ms"
}

# What runs a command, and then tells its milliseconds and its peak of memory in bytes. It is a process of its own, since a process counts what
# the one that started it had.
measuring='
import os, subprocess, sys, time
begun = time.monotonic()
_, ended, usage = os.wait4(subprocess.Popen(sys.argv[1:]).pid, 0)
print(round((time.monotonic() - begun) * 1000), usage.ru_maxrss * 1024, file=sys.stderr)
sys.exit(os.waitstatus_to_exitcode(ended))'

# peak_of FILE COMMAND...: the greatest memory of a command, in bytes. What it prints goes to the file.
peak_of() {
    python3 -c 'import resource, subprocess, sys
with open(sys.argv[1], "w") as told:
    subprocess.run(sys.argv[2:], stdout=told, check=True)
print(resource.getrusage(resource.RUSAGE_CHILDREN).ru_maxrss * 1024)' "$@"
}
