#!/usr/bin/env python3
"""Lists what the files of `specs/` and `proofs/` bring in or declare, and nothing uses: names of `use` lines, and declarations; and the names of
`ghost use` lines of `src/`.

A name is used where a word of its file says it, elsewhere than where it is declared; a declaration also where another file names it in a `use`
line, by the module's name, or in the `using` of a tactic. Fields, constructors, answers and invariants are left out. What is listed is to be looked
at: a name that stands for another in the same file hides that it isn't used.

    tools/gate/unused.py [CRATE...]    of these crates, or of all"""
import collections
import functools
import os
import re
import sys

from crates import files_in, text_of

WORD = re.compile(r"[^\s(){}\[\],;.λ`]+")
USE = re.compile(r"^ *(?:pub |ghost )*use Rattle\.([\w.'-]+?)(?:\.\{([^}]*)\})?(?: as (\S+?))?;?$", re.M)
HEAD = re.compile(r"( *)(?:abbrev |pub |unfoldable )*(?:(?:record|data) (?=\S+ [:({])|(?=\S+ : ))([^\s(){}:]+) ")


@functools.cache
def passed_on(crate, part):
    """What the part's `Lib.antt` passes on of other crates, by the names under which it does."""
    path = f"crates/{crate}/{part}/Lib.antt"
    found = re.findall(r"^pub use Rattle\.(\S+?)(?: as (\S+))?$", text_of(path), re.M) if os.path.exists(path) else []
    return {name or whole.split(".")[-1]: whole.split(".") for whole, name in found}


def file_of(words):
    """The file of a module that is cited by these words, or None where it is the kit's or is made."""
    while len(words) > 2 and words[2] in passed_on(*words[:2]):
        words = passed_on(*words[:2])[words[2]] + words[3:]
    path = "/".join(["crates", *words]) + ".antt"
    return path if os.path.exists(path) else None


def stripped(path):
    """The lines of a file without comments and imports."""
    comment, cut = ("//", "\n") if path.endswith(".rt") else ("--", " -- ")
    left_out = re.compile(rf"\s*{comment}| *(pub |ghost )*use ")
    return ["" if left_out.match(it) else it.partition(cut)[0] for it in text_of(path).split("\n")]


def cited():
    """The names that other files take of each file."""
    found = collections.defaultdict(set)
    for path in files_in("specs") + files_in("proofs") + files_in("src"):
        text = text_of(path)
        for whole, names, other in USE.findall(text):
            home = file_of(whole.split("."))
            module = other or whole.split(".")[-1]
            found[home].update(it.split(" as ")[0].strip() for it in names.split(","))
            if not names:
                found[home].update(re.findall(rf"(?<![\w'-]){re.escape(module)}\.([^\s(){{}},;.]+)", text))
        for crate, module, name in re.findall(r"(\w+)::proofs::([\w:]+)::(\w+)", text):
            found[file_of([path.split("/")[1] if crate == "crate" else crate, "proofs", *module.split("::")])].add(name)
    return found


def imports(path):
    """Line and name of each import that no word of the file says."""
    said = "\n".join(stripped(path))
    for number, line in enumerate(text_of(path).split("\n"), 1):
        if path.endswith(".rt"):
            ghost = re.match(r" *ghost (use .*);$", line)
            line = ghost[1] if ghost else ""
        some = re.match(r"use \S+?\.\{([^}]*)\}$", line)
        whole = re.match(r"use (\S+?)(?: as (\S+))?$", line)
        for name in [it.split(" as ")[-1].strip() for it in some[1].split(",")] if some else []:
            parts = [it for it in name.split("◌") if it]
            # as a field, or as the label of a field or an argument, a name isn't this one
            word = re.escape(name)
            used = rf"(?<![\w'.-])(?<!\{{)(?<!\{{ )(?<!; ){word}(?![\w'-])|(?<![\w'.-]){word}(?! = )(?![\w'-])"
            if not (all(it in said for it in parts) if "◌" in name else re.search(used, said)):
                yield number, name
        if whole and not some and not re.search(rf"(?<![\w'-]){re.escape(whole[2] or whole[1].split('.')[-1])}\.", said):
            yield number, whole[2] or whole[1].split(".")[-1]


def declarations(path, taken):
    """Line and name of each declaration that nothing cites."""
    lines = stripped(path)
    said = collections.Counter(word for line in lines for word in WORD.findall(line))
    for number, line in enumerate(lines, 1):
        head = HEAD.match(line)
        if not head or head[2] in ("module", "let") or head[2] in taken:
            continue
        above = next((it for it in reversed(lines[: number - 1]) if it.strip() and len(it) - len(it.lstrip()) < len(head[1])), "")
        if re.match(r" *(pub )?(record|data) ", above):
            continue
        clause = re.compile(rf"{head[1]}{re.escape(head[2])} .*(?: = |=$)")
        heads = [it.partition(" = ")[0] for it in lines if clause.match(it)]
        own = sum(WORD.findall(it).count(head[2]) for it in heads if " : " not in it)
        if said[head[2]] <= 1 + own:
            yield number, head[2]


def main(crates):
    taken, counts = cited(), [0, 0]
    for crate in crates or sorted(os.listdir("crates")):
        for path in sorted(files_in("specs", crate) + files_in("proofs", crate) + files_in("src", crate)):
            has_none = path.endswith((".rt", "/Answers.antt", "/Invariants.antt", "Lib.antt"))
            for kind, found in enumerate([list(imports(path)), [] if has_none else list(declarations(path, taken[path]))]):
                counts[kind] += len(found)
                for number, name in found:
                    print(f"{path[7:]}:{number}: {'is declared' if kind else 'is brought in'}: {name}")
    print(f"{counts[0]} imports and {counts[1]} declarations that nothing uses")


main(sys.argv[1:])
