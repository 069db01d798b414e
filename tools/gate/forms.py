#!/usr/bin/env python3
"""Two things that no clause of `run` can say, since the objects that it works on don't tell them, and that the form of the code shows.

No call of a disk is made outside its condition: in the product's code above tree_disk each goes through tree_disk::steps, whose functions are
proved to meet no refusal. And reading the input takes a byte at least in each turn: it is taken in one place, by take_more of cli_call, which
read_input alone calls, in a loop that ends where nothing was taken."""
import pathlib
import re
import sys

CALLS = "look|read_at|list|append|make_dir|make_link|set_mode|remove|rename|sync"
# Whatever the disk is called: a map's `remove` and a list's `append` take one argument, a disk's more. A function's path may be that of
# `steps` alone.
OF_DISK = re.compile(
    rf"\.(?:look|read_at|list|make_dir|make_link|set_mode|rename|sync)\(|\.(?:append|remove)\((?:[^(),]|\([^()]*\))*,|\b(?:root|repo|disk)\s*\.(?:{CALLS})\(|(?<!\bsteps)::(?:{CALLS})\("
)
# A source gives its bytes into a buffer.
TAKES = re.compile(r"\.take\(\s*&\s*mut\b|\binput\s*\.take\(|(?:Source>?|\b[A-Z])::take\(")
# What is a disk itself, and what only tests.
DISKS = {"tree_disk", "tree_nodes", "tree_memory", "tree_host"}
TESTS = re.compile(r"\w+_lines|line_words|root_words|conary_on_host")
# Where an input is at hand, anything is looked at that is called so.
ANY_TAKE = re.compile(r"\.take\(|::take\(")
READERS = {"cli_call", "conary_cli"}
TURN = re.compile(r"loop \{\s*if take_more\(input, &mut bytes\)\? == 0 \{\s*return Ok\(")


def main():
    found = []
    takes = calls = turns = 0
    for path in sorted(pathlib.Path("crates").glob("*/src/**/*.rt")):
        crate, text = path.parts[1], path.read_text(encoding="utf-8")
        if crate in DISKS or TESTS.fullmatch(crate):
            continue
        code = re.sub(r"//[^\n]*", "", text)
        found += [f"{path}: a call of a disk beside tree_disk::steps: {it[0]}" for it in OF_DISK.finditer(code)]
        takes += len(ANY_TAKE.findall(code)) if crate in READERS else len(TAKES.findall(code))
        calls += len(re.findall(r"\btake_more\(", code))
        turns += len(TURN.findall(code))
    if (takes, calls, turns) != (1, 1, 1):
        found.append("the input isn't taken in one place, in one loop that ends where nothing was taken")
    print("\n".join(found) or "each call of a disk goes through tree_disk::steps, and each turn of reading takes a byte")
    return bool(found)


sys.exit(main())
