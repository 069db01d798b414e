"""What relative troves do, and troves that come with a change set, by the rules of docs/FORMATS.md alone: a trove is taken as sets and a
map of paths here, a relative trove as a change of them."""
from tools.model.streams import NotOfForm, Refused, Relative, Trove, check_relative, check_trove, forbidden_path, id_text


def by_lists(trove):
    """The lists of references, requirements and provides, by the tag of what is gone."""
    return {0x25: trove.refs, 0x27: trove.requires, 0x29: trove.provides}


def relative_of(old, new):
    """The one relative trove from the one to the other."""
    was, is_ = dict(old.files), dict(new.files)
    lists = {0x23: sorted(was.keys() - is_.keys()), 0x24: sorted((path, rec) for path, rec in is_.items() if was.get(path) != rec)}
    for (tag, ones), others in zip(by_lists(old).items(), by_lists(new).values()):
        lists[tag], lists[tag + 1] = sorted(set(ones) - set(others)), sorted(set(others) - set(ones))
    return check_relative(Relative(old.identity, new.identity, lists))


def applied(old, relative):
    """What the relative trove makes of the old one; none where that is no base of it."""
    was, gone, set_ = dict(old.files), relative.lists[0x23], dict(relative.lists[0x24])
    if old.identity != relative.old or any(path not in was for path in gone) or any(was.get(path) == rec for path, rec in set_.items()):
        return None
    files = sorted((path, rec) for path, rec in {**was, **set_}.items() if path not in gone)
    lists = []
    for tag, ones in by_lists(old).items():
        away, more = set(relative.lists[tag]), set(relative.lists[tag + 1])
        if not away <= set(ones) or more & set(ones):
            return None
        lists.append(sorted((set(ones) - away) | more))
    try:
        return check_trove(Trove(relative.new, files, *lists))
    except NotOfForm:
        return None


def contents_to_send(old, new):
    """The names of the contents that the new trove's files have and the old one's don't at the same path."""
    was = {path: (record.name, record.size) for path, record in old.files if record.kind == "f"} if old is not None else {}
    return sorted({record.name for path, record in new.files if record.kind == "f" and was.get(path) != (record.name, record.size)})


def check_allowed(trove):
    path = forbidden_path(trove)
    if path is not None:
        raise Refused("reserved " + path.decode())


def all_made(parts, installed):
    """The troves that parts make: their own, or what leads from installed ones."""
    made = []
    for part in parts:
        trove = part if isinstance(part, Trove) else next(filter(None, (applied(base, part) for base in installed)), None)
        if trove is None:
            raise Refused("missing base " + id_text(part.old).decode())
        check_allowed(trove)
        made.append(trove)
    return made
