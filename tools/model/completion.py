"""Updates that complete themselves, and system models, by docs/COMMANDS.md and docs/FORMATS.md alone: each round makes its whole list anew, and each
line of a model the whole list so far."""
import re

from tools.model import lists, repository, texts
from tools.model.texts import NotOfForm, Refused

# ---- updates that complete themselves

def offers(trove):
    return [(b"trove", lists.name_of(trove), []), *map(texts.dep_of, trove.provides)]


def candidates(catalogue, label, system, names, require):
    """The troves on the label that may be added where these names come already, in the order of the catalogue."""
    for one in catalogue.troves:
        fits = texts.score(texts.flavor_of(one.identity.flavor), system) is not None
        fresh = lists.name_of(one) not in names
        if repository.version(one.identity).label == label and fits and fresh and any(texts.satisfies(offer, require) for offer in offers(one)):
            yield one


def completed(catalogue, installed, roots, config):
    """The expansion of the first round whose list is closed."""
    roots = list(roots)
    while True:
        found = repository.expand(catalogue, *roots)
        unmet = lists.first_unmet(lists.updated(installed, found))
        if unmet is None:
            return found
        names, require = lists.names_of(found), texts.dep_of(unmet[1])
        on_labels = (list(candidates(catalogue, label, config.flavor, names, require)) for label in config.labels)
        on_label = next(filter(None, on_labels), None)
        if on_label is None:
            raise Refused(b"unmet " + b" ".join(unmet))
        roots.append(on_label[-1].identity)


# ---- system models

def said_by(line):
    """A word and what it is done with, a specification or a name."""
    word, rest = re.fullmatch(rb"([^ \t]*)[ \t]*(.*)", line, re.DOTALL).groups()
    if word in (b"install", b"update"):
        return word, repository.spec_of(rest)
    texts.need(word == b"erase")
    texts.name_kind(rest)
    return word, rest


def read_model(data):
    said = []
    for number, line in enumerate(data.split(b"\n"), 1):
        line = (line[:-1] if line.endswith(b"\r") else line).strip(b" \t")
        if line and not line.startswith(b"#"):
            try:
                said.append(said_by(line))
            except NotOfForm:
                raise Refused(b"bad model line %d" % number) from None
    return said


def wanted(catalogue, said, config):
    """What the lines make of the empty list."""
    made = []
    for word, what in said:
        if word == b"erase":
            made = lists.erased(made, [what])
            continue
        found = repository.expand(catalogue, repository.resolve(catalogue, what, config))
        if word == b"install":
            made = lists.updated(made, found)
        else:
            come = {lists.name_of(one): one for one in found}
            made = [come.get(lists.name_of(one), one) for one in made]
    return made
