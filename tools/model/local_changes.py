"""Local changes: the change set that comes of a tree, installed troves and a name, by docs/COMMANDS.md, docs/MODEL.md and docs/FORMATS.md alone.
Nodes and trees are those of tools/model/plans.py, troves those of streams."""
from tools.model import lists
from tools.model.relatives import relative_of
from tools.model.streams import LARGEST_CONTENT, ROOT, Refused, Trove, check_trove, directory, file_of, keep, link, set_bytes, sha

LOCAL, LONGEST = b"/local@local:LOCAL/", 512


def reached(installed, name):
    """The troves that the one of this name reaches by the names of references, in the order of their names."""
    return [installed[one] for one in sorted(lists.reached(installed.values(), [name], installed.__contains__)) if one in installed]


def local_id(identity):
    """The id on the branch of local changes: with the revision once more behind it."""
    return identity._replace(version=identity.version + LOCAL + identity.version.rpartition(b"/")[2])


def local_record(record, node):
    """The record of what stands where this one was."""
    owner = ROOT if record.kind == "l" else record.owner
    if node[0] == "file":
        return file_of(node[2], node[1], record.flags if record.kind == "f" else 0, owner)
    return directory(node[1], owner) if node[0] == "dir" else link(node[1])


def local_trove(tree, trove, moving):
    """With the references to troves that move along, and in a group the others as they are."""
    files = [(path, local_record(record, tree[path])) for path, record in trove.files if path in tree]
    keeps = trove.identity.name.startswith(b"group-")
    refs = sorted({local_id(ref) if ref in moving else ref for ref in trove.refs if keeps or ref in moving})
    return check_trove(Trove(local_id(trove.identity), files, refs, trove.requires, trove.provides))


def local_changes(tree, installed, name):
    if name not in installed:
        raise Refused("not installed " + name.decode())
    troves = reached(installed, name)
    moving = {trove.identity for trove in troves}
    for size in (len(local_id(trove.identity).version) for trove in troves):
        if size > LONGEST:
            raise Refused(f"too large: version {size}")
    files = [(tree[path][2], record) for trove in troves for path, record in trove.files if path in tree and tree[path][0] == "file"]
    for data, _ in files:
        if len(data) > LARGEST_CONTENT:
            raise Refused(f"too large: local {len(data)}")
    carried = {}
    for data, record in files:
        if record.kind != "f" or (record.size, record.name) != (len(data), sha(data)):
            keep(carried, data)
    return set_bytes([relative_of(trove, local_trove(tree, trove, moving)) for trove in troves], sorted(carried.items()))
