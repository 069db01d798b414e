#!/usr/bin/env python3
"""Says by text alone whether each edit still applies: the must-fail edits, and those of edits/, which the gate doesn't try.

An edit is a wrong body of the crate CRATE, `crates/CRATE/must-fail/NAME.edit` or `edits/CRATE/NAME.edit`. Its crate has to stand in `crates.txt`,
each file that it changes below the `src/` of that crate, and each old text once in its file, as the changes before it left that. Each new text is
another one. No two edits of a crate have one name. For each edit of the gate edits_shown.txt names a program that shows it (edits_show.py), and for
no other; one outside may name its own by a line `by: PROGRAM`.

For each that fails a line says why; the last two lines are the counts. It ends with status 1 where one fails, or where the gate has more edits or
more crates with edits than it may. Usage, at the top of the repository: tools/gate/edits_apply.py"""
import pathlib
import re
import sys

from crates import SHOWN, changes_of, crate_of, edits_inside, edits_outside, name_of, named, program_of, shown_by

# How many edits the gate may try, and of how many crates.
EDITS, CRATES = 80, 22
NAME = re.compile(r"[A-Za-z0-9_-][A-Za-z0-9_.-]*\.edit")


def fault_of_change(crate, texts, file, old, new):
    """Why a change doesn't apply to these texts of files, if it doesn't; where it does, its file has the new text then."""
    if not file or not old:
        return "a line `new:` has no line `file:` or `old:` before it"
    if not file.startswith("src/") or ".." in file.split("/"):
        return f"{file} isn't below src/"
    path = pathlib.Path("crates") / crate / file
    if not path.is_file():
        return f"there is no file {path}"
    text = texts.setdefault(file, path.read_text(encoding="utf-8"))
    if text.count(old) != 1:
        return f"an old text stands {text.count(old)} times in {path}: {old.strip()[:80]}"
    if new == old:
        return f"an old and a new text are the same: {old.strip()[:80]}"
    texts[file] = text.replace(old, new)
    return None


def fault_of(edit, known):
    """Why an edit doesn't apply, if it doesn't."""
    crate = crate_of(edit)
    if crate not in known:
        return f"{crate} is no crate of crates.txt"
    if not NAME.fullmatch(edit.name):
        return "its name isn't of letters, digits, _, - and . with .edit at its end"
    texts, changes = {}, list(changes_of(edit))
    return next(filter(None, (fault_of_change(crate, texts, *change) for change in changes)), None) if changes else "it changes nothing"


def strays(edits):
    """What stands where only edits may stand, and is none."""
    for pattern in ("crates/*/must-fail/**/*", "edits/**/*"):
        yield from (path for path in sorted(pathlib.Path().glob(pattern)) if path.is_file() and path.suffix != ".md" and path not in edits)


def is_program(name):
    return pathlib.Path("crates", name, "stdout").is_file()


def unshown(names):
    """What is wrong with edits_shown.txt, where the edits of these names stand in the gate."""
    shown = shown_by()
    yield from (f"{SHOWN.name} names no program for {name}" for name in sorted(names - shown.keys()))
    for name, (program, _) in shown.items():
        if name not in names:
            yield f"{SHOWN.name}: {name} is no edit of the gate"
        elif not is_program(program):
            yield f"{SHOWN.name}: {program} is no program with wanted answers"


def main():
    if len(sys.argv) > 1:
        sys.exit(__doc__)
    known, inside, outside = named(), edits_inside(), edits_outside()
    found = {edit: fault_of(edit, known) for edit in inside + outside}
    faults = [f"{edit}: {fault}" for edit, fault in found.items() if fault]
    names = set(map(name_of, inside))
    faults += [f"{edit}: an edit of the gate has its name" for edit in outside if name_of(edit) in names]
    faults += [f"{path}: it is no edit of a crate" for path in strays(found)]
    faults += unshown(names)
    by = {edit: program_of(edit) for edit in outside}
    faults += [f"{edit}: it is by no program with wanted answers" for edit, program in by.items() if program and not is_program(program)]
    of_gate, of_others = (len(set(map(crate_of, edits))) for edits in (inside, outside))
    faults += [f"the gate may have {EDITS} edits"] if len(inside) > EDITS else []
    faults += [f"the gate may have edits of {CRATES} crates"] if of_gate > CRATES else []
    counts = [f"gate: {len(inside)} edits in {of_gate} crates", f"outside: {len(outside)} edits in {of_others} crates"]
    print(*faults, *counts, sep="\n")
    sys.exit(1 if faults else 0)


main()
