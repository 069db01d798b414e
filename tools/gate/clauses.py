"""The public functions of a crate with the names of their clauses, as its sources tell them: what a function does by the first paragraph of
its `///`, and what a clause says by the `//` above it."""
import re
from typing import NamedTuple

from crates import files_in, root_file, text_of

# In a root file what it passes on, of a module or of a crate: `pub use NAME::{NAMES};`, `pub use NAME::ONE;`, `pub mod NAME;`.
USES = re.compile(r"^pub use (\w+)::(?:\{([^}]*)\}|([^;{]*));", re.MULTILINE)
WHOLE = re.compile(r"^pub mod (\w+);", re.MULTILINE)
# The type or trait of methods, where one begins, and a function.
OWNER = re.compile(r"(?:pub )?(impl|trait)(?:<.*?>)? (?:(\w+)(?:<.*?>)? for )?(\w+)")
FUNCTION = re.compile(r"( *)(pub )?fn (\w+)")
CLAUSE = re.compile(r" *(ensures|requires) (?:(\w+) )?\{")


class Clause(NamedTuple):
    name: str
    about: str


class Function(NamedTuple):
    name: str
    about: str
    is_law: bool
    asks: list
    promises: list


def passed_on(crate):
    """The names that a crate passes on, each with the module or crate that has it and the name there, and the modules that are public whole."""
    text = root_file(crate).read_text(encoding="utf-8")
    names = {}
    for module, several, one in USES.findall(text):
        for name in filter(None, re.split(r",\s*", (several or one).strip())):
            there, _, here = name.strip().partition(" as ")
            names[module, there] = here or there
    return names, WHOLE.findall(text)


def contract(lines, indent):
    """The clauses of a function whose first line is the first of the lines, each with the comment above it; and whether it can do nothing."""
    found, about, head = {"ensures": [], "requires": []}, [], ""
    for line in lines:
        if line.lstrip().startswith("//"):
            about.append(line.strip().removeprefix("//").strip())
            continue
        if clause := CLAUSE.match(line):
            found[clause[1]].append(Clause(f"`{clause[2]}`" if clause[2] else "unnamed", " ".join(about)))
        elif not any(found.values()):
            head += line
        about = []
        if line.endswith(";") or not line.startswith(indent + " ") and line.endswith(("{", "{}")):
            break
    return not re.search(r"->|&mut|self", head), found["requires"], found["ensures"]


def functions(crate):
    """The public functions of a crate, file by file: those that it passes on, the methods of its public types, and what its public traits
    ask of each that has them."""
    names, whole = passed_on(crate)
    for path in files_in("src", crate):
        module = re.match(rf"crates/{crate}/src/(\w+)", path)[1]
        lines, owner, about = text_of(path).splitlines(), None, []
        for at, line in enumerate(lines):
            if line.lstrip().startswith("///"):
                about.append(line.strip().removeprefix("///").strip())
                continue
            owner = OWNER.match(line) or (None if line == "}" else owner)
            if function := FUNCTION.match(line):
                is_law, asks, promises = contract(lines[at:], function[1])
                name = function[3] if owner or module in whole else names.get((module, function[3]))
                if owner:
                    known = owner[3] in names.values() and (function[2] or owner[1] == "trait" or owner[2] and promises)
                else:
                    known = name and function[2]
                if known:
                    within = owner[3] if owner else module if module in whole else None
                    text = " ".join(about).split("  ")[0]
                    yield Function(f"{within}::{name}" if within else name, text, is_law, asks, promises)
            if not line.lstrip().startswith("#["):
                about = []
