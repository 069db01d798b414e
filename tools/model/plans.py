"""What a job does to a tree, by docs/MODEL.md and docs/COMMANDS.md alone: the table of paths, plans, and the tests of their write sets.

A node is None, ("dir", mode), ("file", mode, bytes) or ("link", target), and a tree a dict of them by path; a record is one of a stream; the troves
of a list are a dict by name, of dicts of records by path."""
from tools.model.records import mark_of, mark_of_record
from tools.model.streams import LARGEST_CONTENT, keep, sha
from tools.model.texts import FIXED, Refused
from tools.model.trees import parent_of

CONFIG, INITIAL, TRANSIENT = 1, 2, 4

STAYS, GOES, COMES = "stays", "goes", "comes"


def row(path, old, new, stands, below, options):
    """The target by the first row that applies: STAYS, GOES, COMES, 'unowned' or 'edited'. `below` is whether names stand below."""
    was, want, now, replace = mark_of_record(old), mark_of_record(new), mark_of(stands), "replace" in options

    def has(record, flag):
        return record is not None and record.flags & flag

    if path in FIXED or new is None and stands is None:
        return STAYS
    if new is None and was[0] == now[0] == "dir":
        return STAYS if below else GOES
    if new is None:
        return GOES if was == now or has(old, TRANSIENT) or replace else STAYS if has(old, INITIAL) else "edited"
    if want[0] == now[0] == "dir" or was == want or has(new, INITIAL) and now[0] == "file" or now == want:
        return STAYS
    if old is None:
        return COMES if stands is None or replace else "unowned"
    if was == now or has(new, TRANSIENT):
        return COMES
    if has(new, CONFIG) and "keep" in options:
        return STAYS
    return COMES if replace else "edited"


def all_paths(*lists):
    return sorted({path for troves in lists for files in troves.values() for path in files})


def recorders(troves, path):
    return [(name, files[path]) for name, files in sorted(troves.items()) if path in files]


def record(troves, path):
    return next((record for _, record in recorders(troves, path)), None)


def owned(troves, path):
    """The first two troves that record a path, but as a directory both."""
    found = recorders(troves, path)
    return next(((found[0][0], name) for name, other in found[1:] if not other.kind == found[0][1].kind == "d"), None)


def check_owned(troves):
    for path in all_paths(troves):
        two = owned(troves, path)
        if two:
            raise Refused(b" ".join([b"owned", path, *two]).decode())


def check_target(path, target):
    if target in ("unowned", "edited"):
        raise Refused(f"{target} {path.decode()}")


def plan_changes(tree, old, fresh, options):
    """What a plan makes of the paths that it changes: the record that comes, or None."""
    paths = all_paths(old, fresh)
    check_owned(fresh)
    for path in paths:
        check_target(path, row(path, record(old, path), record(fresh, path), tree.get(path), False, options))
    # What kind stands at each path of the result. The deepest first: all names below a path are settled before it.
    result, changes = {path: node[0] for path, node in tree.items()}, {}
    for path in sorted(paths, key=lambda path: (-path.count(b"/"), path)):
        below = any(other != b"/" and parent_of(other) == path for other in result)
        target = row(path, record(old, path), record(fresh, path), tree.get(path), below, options)
        if target == GOES:
            result.pop(path, None)
            changes[path] = None
        elif target == COMES:
            changes[path] = record(fresh, path)
            result[path] = mark_of_record(changes[path])[0]
    for path in sorted(result):
        if path != b"/" and result.get(parent_of(path)) != "dir":
            raise Refused(f"parent {path.decode()}")
    return changes


def is_content(data, record):
    return data is not None and len(data) == record.size and sha(data) == record.name


def targets(tree, changes, carried, find, read):
    """What stood at each path of a plan and what is to stand there, as nodes: the tests in their order. A content is carried, found by its
    name, or read from the file that stands there by `read`, as are all files that change."""

    def content(path, record):
        found = next((data for data in carried if is_content(data, record)), None)
        found = find(record.name) if found is None else found
        if not is_content(found, record) and mark_of(tree.get(path))[2:] == (record.size, record.name):
            found = read(path)
        if not is_content(found, record):
            raise Refused(f"missing content {record.name.hex()}")
        return found

    def wanted(path, record):
        mark = mark_of_record(record)
        return None if record is None else ("file", record.mode, content(path, record)) if mark[0] == "file" else mark

    wants = {path: wanted(path, changes[path]) for path in sorted(changes)}
    stood, kept = {path: tree.get(path) for path in wants}, {}
    files = [path for path, node in stood.items() if node and node[0] == "file"]
    for path in files:
        if len(tree[path][2]) > LARGEST_CONTENT:
            raise Refused(f"too large: local {len(tree[path][2])}")
    for path in files:
        stood[path] = ("file", tree[path][1], read(path))
        if len(stood[path][2]) > LARGEST_CONTENT:
            raise Refused(f"too large: local {LARGEST_CONTENT + 1}")
    for path in files:
        keep(kept, stood[path][2])
    return stood, wants


def write_set(tree, changes, now, carried, far, options):
    """The targets of a plan where `now` stands, and how often contents and files are asked for."""
    asked = {"finds": 0, "files": 0}

    def read(path):
        if "fail" in options:
            raise Refused("failed")
        asked["files"] += 1
        return now[path][2]

    def find(name):
        asked["finds"] += 1
        for word, refusal in (("far-fails", "far failed"), ("far-damaged", "far damaged /c/damaged")):
            if word in options:
                raise Refused(refusal)
        return next((data for data in far if sha(data) == name), None)

    return *targets(tree, changes, carried, find, read), asked
