"""Installed lists, by docs/MODEL.md alone: what an update and an erasure make of one, what changes, and whether a list is closed. What goes is
found by rounds over the whole list. Troves are those of streams."""
from tools.model.streams import id_text
from tools.model.texts import Refused, dep_of, satisfies


def name_of(trove):
    return trove.identity.name


def by_name(troves):
    return sorted(troves, key=name_of)


def names_of(troves):
    return set(map(name_of, troves))


def reached(installed, roots, entered):
    """The names that the roots reach by references of installed troves, by rounds; a name is entered where the test says so."""
    names, found = names_of(installed), set(roots)
    for _ in installed:
        found |= {ref.name for one in installed if name_of(one) in found for ref in one.refs if ref.name in names and entered(ref.name)}
    return found


def without(installed, roots):
    """The list without what goes with these names."""
    all_reached = reached(installed, roots, lambda name: True)
    kept = reached(installed, names_of(installed) - all_reached, lambda name: name not in roots)
    return [one for one in installed if name_of(one) not in all_reached - kept]


def erased(installed, names):
    for name in names:
        if name not in names_of(installed):
            raise Refused("not installed " + name.decode())
    return without(installed, set(names))


def updated(installed, come):
    first = {}
    for one in come:
        if first.setdefault(name_of(one), one) != one:
            raise Refused("exists " + id_text(one.identity).decode())
    left = without(installed, first.keys() & names_of(installed))
    return by_name([one for one in left if name_of(one) not in first] + list(first.values()))


def changed(before, after):
    """A sign and an id for each name whose trove isn't the same in both lists: `+` comes, `-` goes, `~` becomes another."""
    was, is_ = ({name_of(one): one for one in troves} for troves in (before, after))
    for name in sorted(was.keys() | is_.keys()):
        if was.get(name) != is_.get(name):
            yield "+" if name not in was else "-" if name not in is_ else "~", is_.get(name, was.get(name)).identity


def first_unmet(troves):
    """The name and the requirement of the first trove that has one which no trove of the list satisfies."""
    offers = {}
    for one in troves:
        for dep in (b"trove", name_of(one), []), *map(dep_of, one.provides):
            offers.setdefault(dep[:2], []).append(dep)
    for one in troves:
        for text in one.requires:
            require = dep_of(text)
            if not any(satisfies(dep, require) for dep in offers.get(require[:2], [])):
                return name_of(one), text
    return None


def closed(troves):
    unmet = first_unmet(troves)
    if unmet:
        raise Refused("unmet " + b" ".join(unmet).decode())
