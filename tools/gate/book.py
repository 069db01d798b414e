#!/usr/bin/env python3
"""Prints what the documents tell of the crates and scripts from the sources: the levels of crates.txt, the table of crates, what their
definitions are about, the clauses of their public functions, what the scripts do, and how often commands are stopped.

In a document such a part stands between two lines, `<!-- printed by tools/gate/book.py: NAME -->` and `<!-- end -->`.

    tools/gate/book.py            writes each part anew
    tools/gate/book.py --check    ends with 1 where a part isn't what the sources say, or stands in no document
"""
import pathlib
import re
import sys
import textwrap

from clauses import functions
from counts import stops
from crates import files_in, named, root_file, text_of

DOCUMENTS = ("CONTRIBUTING.md", "docs/DESIGN.md", "docs/DEFINITIONS.md", "docs/CLAUSES.md", "docs/TESTED.md")
SCRIPTS = ("tools/*.sh", "tools/gate/*", "tools/host/*", "bench/*", "examples/image/*")
TESTS = re.compile(r"_(words|lines)$")
PART = re.compile(r"(<!-- printed by tools/gate/book\.py: (\w+) -->)\n.*?<!-- end -->", re.DOTALL)


def heading(crate):
    """The first paragraph of the comment with which the crate's root file begins: what it is, and what it promises."""
    comment = re.match(r"(?://!.*\n)*", root_file(crate).read_text(encoding="utf-8"))[0]
    return " ".join(line.removeprefix("//!").strip() for line in re.split(r"//!\s*\n", comment)[0].splitlines())


def levels():
    """The crates by the length of the longest chain that ends at each, highest first, those that only test beside them."""
    level = {}
    for crate, on in named(keep_all=False).items():
        level[crate] = 1 + max((level[it] for it in on), default=0)
    rows = ["```text"]
    for number in range(max(level.values()), 0, -1):
        here = [it for it in level if level[it] == number]
        tests = [it for it in here if TESTS.search(it)]
        text = "  ".join([it for it in here if it not in tests] + ([f"[{' '.join(tests)}]"] if tests else []))
        rows += [f"{number if not at else '':>3}  {line}" for at, line in enumerate(textwrap.wrap(text, 108, break_on_hyphens=False))]
    return rows + ["```"]


def table():
    rows = ["| crate | stands on | what it is, and what it promises |", "|---|---|---|"]
    return rows + [f"| `{crate}` | {', '.join(f'`{it}`' for it in on) or 'nothing'} | {heading(crate)} |" for crate, on in named().items()]


def definitions():
    """What each file of `specs/` is about, and which definitions clauses can cite from it, crate by crate."""
    rows = []
    for crate in named():
        found = []
        for path in files_in("specs", crate):
            about = re.match(r"-- ?(.*)", text_of(path))
            names = re.findall(r"^(?:abbrev|unfoldable|record|data) pub (\S+)", text_of(path), re.MULTILINE)
            if names:
                names = ", ".join(f"`{it}`" for it in names)
                found.append(f"| {pathlib.Path(path).stem} | {about[1] if about else ''} | {names} |")
        rows += [f"## `{crate}`", "", "| file | about | definitions |", "|---|---|---|", *found, ""] if found else []
    return rows[:-1]


def scripts():
    """What each script does that can be called: the first sentence of the comment with which it begins."""
    rows = ["| script | what it does |", "|---|---|"]
    for path in (path for pattern in SCRIPTS for path in sorted(pathlib.Path().glob(pattern)) if path.is_file()):
        if head := re.match(r'#!.*\n(?:"""((?:.+\n?)+?)(?:"""|\n)|((?:# .*\n)+))', path.read_text(encoding="utf-8")):
            about = " ".join(line.removeprefix("# ") for line in (head[1] or head[2]).splitlines())
            rows.append(f"| `{path}` | {re.split(r'[.:] (?=[A-Z]|tools/)|[.]$', about)[0]} |")
    return rows


def clauses():
    """The public functions of each crate, what is asked of their callers, and what each clause says that has a comment of its own."""
    rows = []
    for crate in (it for it in named(keep_all=False) if not TESTS.search(it)):
        found = []
        for one in functions(crate):
            plain = ", ".join(it.name for it in one.promises if not it.about)
            asks = ", ".join(it.name for it in one.asks)
            found.append((f"`{one.name}`" + " (law)" * one.is_law, asks, plain, one.about))
            found += [("", "", it.name, it.about) for it in one.promises if it.about]
        rows += [f"## `{crate}`", "", "| function | asks | clauses | says |", "|---|---|---|---|"] if found else []
        rows += ["| " + " | ".join(cell.replace("|", "\\|") for cell in row) + " |" for row in found] + [""] * bool(found)
    return rows[:-1]


PARTS = {"levels": levels, "crates": table, "definitions": definitions, "clauses": clauses, "scripts": scripts, "stops": stops}


def main(words):
    texts = {path: path.read_text(encoding="utf-8") for path in map(pathlib.Path, DOCUMENTS)}
    wrong = [f"no document has the part {name}" for name in PARTS if not any(f": {name} -->" in text for text in texts.values())]
    for path, old in texts.items():
        new = PART.sub(lambda match: "\n".join([match[1], *PARTS[match[2]](), "<!-- end -->"]), old)
        if new != old and words == ["--check"]:
            wrong.append(f"{path} isn't what the sources say: run tools/gate/book.py")
        elif new != old:
            path.write_text(new, encoding="utf-8")
    print("".join(text + "\n" for text in wrong), end="")
    return int(bool(wrong))


if __name__ == "__main__":
    sys.exit(main(sys.argv[1:]))
