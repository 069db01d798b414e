#!/usr/bin/env python3
"""Finds what stands twice: bodies of functions, and blocks of `specs/` and `proofs/`, that are equal but for names.

A body is what stands between the braces of a `fn`, of at least 4 lines. A block is one declaration of a `.antt` file with all its lines, `use`
lines and comments left out. Two are equal to the letter where their words are, and of one shape where their words are once each name is told by the
place at which it comes first; keywords, numbers and signs count as they stand. Of each group of equal ones the first is the home, and the others
are counted. Bodies are also counted without those that a trait asks of each type for itself (`drop`, `copy`, `from`, `fmt`): they can't have one
home, since the gate takes no macro that writes an `impl`.

    tools/gate/twice.py              the counts
    tools/gate/twice.py --list [N]   and the N largest groups (40), with file and line of each"""
import collections
import re
import sys

from crates import files_in, text_of

WORD = re.compile(r"[A-Za-z_◌][\w'◌₁-₉→∙-]*|\d+|\S")
KEPT = set(
    "fn let mut match if else for in return loop while break continue as ref move impl struct enum use pub self Self Ok Err Some None true "
    "false where abbrev unfoldable record data rw subst omega arith grind simp search cc absurd refl sym ap All List Type".split()
)
LEAST = 4
OF_EACH_TYPE = ("drop", "copy", "from", "fmt")


def opens(line, indent):
    """Whether a line that begins with a head of a `fn` of this indentation, or stands behind it, opens its body."""
    return line == indent + "{" or line.endswith("{") and not line.strip().startswith(("ensures", "requires"))


def bodies(path):
    """Line, name, lines and words of each function's body."""
    lines, at = text_of(path).split("\n"), 0
    while at < len(lines):
        head = re.match(r"(\s*)(pub(\([a-z]+\))? )?(const )?fn (\w+)", lines[at])
        start = next((k for k in range(at, len(lines)) if opens(lines[k], head[1])), None) if head else None
        end = next((k for k in range(start, len(lines)) if lines[k] == head[1] + "}"), None) if start is not None else None
        if end is not None:
            body = [it for it in lines[start + 1 : end] if it.strip() and not it.strip().startswith("//")]
            if len(body) >= LEAST:
                yield at + 1, head[5], len(body), WORD.findall("\n".join(body))
            at = end
        at += 1


def blocks(path):
    """Line, lines and words of each declaration."""
    block, first = [], 0
    for number, line in enumerate([*text_of(path).split("\n"), ""], 1):
        bare = "" if line.startswith("--") else line.split(" --")[0].rstrip()
        if bare and not re.match(r"(pub |unfoldable )*(use|mod) ", bare):
            first = first if block else number
            block.append(bare)
        elif block:
            yield first, len(block), WORD.findall("\n".join(block))
            block = []


def shape(words):
    seen = {}
    return tuple(it if it in KEPT or not re.match(r"[A-Za-z_◌]", it) else seen.setdefault(it, f"#{len(seen)}") for it in words)


def groups(found, key):
    by = collections.defaultdict(list)
    for place, size, words in found:
        by[key(words)].append((place, size))
    return sorted((it for it in by.values() if len(it) > 1), key=lambda it: -(len(it) - 1) * it[0][1])


def told(name, found, key, most):
    twice = groups(found, key)
    others, lines = sum(len(it) - 1 for it in twice), sum((len(it) - 1) * it[0][1] for it in twice)
    print(f"{name}: {others} of {len(found)} stand elsewhere, {lines} lines, in {len(twice)} groups")
    for group in twice[:most]:
        print(f"  {group[0][1]} lines:", ", ".join(place for place, _ in group[:8]), "…" if len(group) > 8 else "")


def main(words):
    most = int(words[1]) if len(words) > 1 else 40 if words else 0
    named = [(f"{path[7:]}:{line}", name, size, text) for path in files_in("src") for line, name, size, text in bodies(path)]
    code = [(place, size, text) for place, _, size, text in named]
    shared = [(place, size, text) for place, name, size, text in named if name not in OF_EACH_TYPE]
    paths = files_in("specs") + files_in("proofs")
    logic = [(f"{path[7:]}:{line}", size, text) for path in paths for line, size, text in blocks(path)]
    told("bodies of functions, to the letter", code, tuple, most)
    told("bodies of functions, by shape", code, shape, most)
    told("bodies of functions, by shape, without those of each type", shared, shape, 0)
    told("blocks of specs and proofs, to the letter", logic, tuple, most)
    told("blocks of specs and proofs of three lines and more, by shape", [it for it in logic if it[1] >= 3], shape, most)


main(sys.argv[1:])
