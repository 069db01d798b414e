# What `./conary` and the benches share to have the gate build a program in a folder of its own. They have the repository's top in the
# variable top, and read this file with `.`; by itself it does nothing.

# needed_lines FILE "WORDS": of this crates.txt the lines of the crates that the words name and of all below them, lowest first. A crate's
# line stands after those of the crates below it.
needed_lines() {
    sed '/^#/d; /^$/d' "$1" | awk -v words="$2" '
        { line[NR] = $0 }
        END {
            count = split(words, word, /[: ]+/)
            for (k = 1; k <= count; k++) needed[word[k]] = 1
            for (at = NR; at > 0; at--) {
                count = split(line[at], word, /[: ]+/)
                if (word[1] in needed) for (k = 2; k <= count; k++) needed[word[k]] = 1
            }
            for (at = 1; at <= NR; at++) {
                split(line[at], word, /[: ]+/)
                if (word[1] in needed) print line[at]
            }
        }'
}

# copy_needed FOLDER "WORDS": makes the folder the top of a repository, as the gate wants it, of the crates that the words name and of all
# below them, without their must-fail edits. The gate takes what it has passed on this machine, also in another copy of the repository.
copy_needed() {
    mkdir -p "$1/.git"
    needed_lines "$top/crates.txt" "$2" >"$1/crates.txt"
    cp "$top/HANDLES" "$1/HANDLES"
    for crate in $(cut -d: -f1 "$1/crates.txt"); do
        mkdir -p "$1/crates/$crate"
        for part in src specs proofs args stdin stdout status data; do
            [ ! -e "$top/crates/$crate/$part" ] || cp -Rp "$top/crates/$crate/$part" "$1/crates/$crate/" || return 1
        done
    done
}
