"""The crates of crates.txt, read at the top of the repository, their root files, and the edits that stand in the gate and outside it."""
import functools
import glob
import pathlib

# Which program shows an edit of the gate, by the lines of which calls.
SHOWN = pathlib.Path(__file__).parent / "edits_shown.txt"


def named(keep_all=True):
    """Each crate with the crates that its line names, in the order of the file, the lowest first; the kit's are left out if asked."""
    lines = (line.partition("#")[0] for line in pathlib.Path("crates.txt").read_text(encoding="utf-8").splitlines())
    crates = {head.split()[0]: below.split() for head, _, below in (line.partition(":") for line in lines if line.strip())}
    return crates if keep_all else {crate: [it for it in below if it in crates] for crate, below in crates.items()}


def root_file(crate, room="."):
    source = pathlib.Path(room, "crates", crate, "src")
    return next((source / name for name in ("main.rt", "lib.rt") if (source / name).exists()), source / "lib.rt")


def files_in(part, crate="*"):
    """The files of `src`, `specs` or `proofs` of a crate, or of all."""
    return sorted(glob.glob(f"crates/{crate}/{part}/**/*.{'rt' if part == 'src' else 'antt'}", recursive=True))


@functools.cache
def text_of(path):
    return pathlib.Path(path).read_text(encoding="utf-8")


def edits_inside(crate="*"):
    """The edits of a crate that the gate tries, or of all."""
    return sorted(pathlib.Path("crates").glob(f"{crate}/must-fail/*.edit"))


def edits_outside(crate="*"):
    return sorted(pathlib.Path("edits").glob(f"{crate}/*.edit"))


def program_of(edit):
    """The program whose answers alone show an edit, which no clause refuses: that of its line `by: PROGRAM`, if it has one."""
    lines = edit.read_text(encoding="utf-8").splitlines()
    return next((line.removeprefix("by: ").strip() for line in lines if line.startswith("by: ")), None)


def crate_of(edit):
    """The crate that an edit changes."""
    return edit.parts[1]


def name_of(edit):
    return f"{crate_of(edit)}/{edit.stem}"


def shown_by():
    """Program and calls of each edit that edits_shown.txt names."""
    lines = SHOWN.read_text(encoding="utf-8").splitlines()
    rows = [line.partition(": ") for line in lines if line and not line.startswith("#")]
    names = [(*of.split(" "), calls) for of, _, calls in rows]
    return {edit: (program, calls.split(", ") if calls else []) for edit, program, calls in names}


def changes_of(edit):
    """File, old text and new text of each change, as `rt` reads them."""
    file, old = None, None
    for line in edit.read_text(encoding="utf-8").split("\n"):
        if line.startswith("file: "):
            file = line.removeprefix("file: ").strip()
        elif line.startswith("old: "):
            old = line.removeprefix("old: ")
        elif line.startswith("new:"):
            yield file, old, line.removeprefix("new:").removeprefix(" ")
            old = None
