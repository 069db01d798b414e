"""The texts that commands write about troves and jobs, by the rules of docs/FORMATS.md alone."""
from tools.model.streams import FLAGS, id_text

CHANGES = {"+": b"installed ", "~": b"updated ", "-": b"erased "}


def id_lines(ids):
    return b"".join(id_text(one) + b"\n" for one in ids)


def record_line(file):
    path, record = file
    if record.kind == "l":
        return b"link %s -> %s\n" % (path, record.target)
    head = b"%04o" % record.mode + (b"" if record.owner == (b"root", b"root") else b" %s:%s" % record.owner)
    if record.kind == "d":
        return b"dir %s %s\n" % (head, path)
    words = [word for bit, word in FLAGS if record.flags & bit]
    return b"file " + b" ".join([head, b"%d" % record.size, record.name.hex().encode(), *words, path]) + b"\n"


def trove_text(trove):
    lines = [id_lines([trove.identity]), *map(record_line, trove.files), *(b"ref " + id_lines([ref]) for ref in trove.refs)]
    return b"".join(lines + [b"requires %s\n" % dep for dep in trove.requires] + [b"provides %s\n" % dep for dep in trove.provides])


def or_nothing(text):
    return text or b"nothing changes\n"


def change_lines(changes, front=b""):
    return b"".join(front + CHANGES[kind] + id_lines([one]) for kind, one in changes)


def note_text(number, paths, changes):
    return b"r.%d paths %d\n" % (number, paths) + change_lines(changes, b"  ")


def finding_line(found, path):
    """What is found at a path: a word, or how many bytes differ."""
    return b"changed %s bytes %d\n" % (path, found) if isinstance(found, int) else found.encode() + b" " + path + b"\n"
