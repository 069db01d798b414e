#!/usr/bin/env python3
"""Prints the size of the graph of crates.txt: crates, edges, paths, longest chain. Ends with 1 where there are too many paths.

`rt` walks from each crate along each path of crates.txt, so a crate with many ways to the lowest ones makes every command slow, and on older kits
the gate impossible. An edge is one crate on the line of another, and the kit's crates don't count. A path begins at any crate and ends at any crate
that is reached; the path that is a crate alone counts too. A chain is counted by its crates.

    tools/gate/paths.py              the four numbers
    tools/gate/paths.py --each       and for each crate the paths that begin at it, most first"""
import sys

from crates import named

LIMIT = 40_000


def main(words):
    below, paths, chain = named(keep_all=False), {}, {}
    # Each stands behind those that it names.
    for crate, on in below.items():
        paths[crate] = 1 + sum(paths[it] for it in on)
        chain[crate] = 1 + max((chain[it] for it in on), default=0)
    count = sum(paths.values())
    print(f"{len(below)} crates, {sum(map(len, below.values()))} edges, {count} paths, a chain of {max(chain.values())}")
    if "--each" in words:
        for crate in sorted(below, key=lambda it: (-paths[it], it)):
            print(f"{paths[crate]:8} {chain[crate]:3} {crate}")
    if count > LIMIT:
        print(f"crates.txt has more than {LIMIT} paths: name only what a crate's own code names, and pass base crates on")
    return int(count > LIMIT)


sys.exit(main(sys.argv[1:]))
